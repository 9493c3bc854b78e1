# The library for C, if it is built and there is a compiler: by a program in C, by Python, and in a simulator.

bench=examples/bench
listed() { diff <("$1" examples/one_link.toml "examples/$2.script") "examples/$2.expected"; }

if [ ! -e crates/ide_session/out/libide_session.a ] || ! command -v "${CC:-cc}" >/dev/null; then
    echo "examples: no built library or no C compiler, so $bench was not tried"
    return
fi
if ! $bench/build "$scratch"; then
    failed=$((failed + 1))
    echo "examples: $bench did not link"
    return
fi
counts 'bench first' listed "$scratch/run" first
counts 'bench interface' listed "$scratch/run" interface
# what each verdict came from, of the event of each attack that the gallery tells
why_listed() {
    local number
    read -r number _ <"$1"
    "$scratch/run" --why "$(dirname "$1")/topology.toml" "${1%.why}.script" |
        awk -v "number=$number" '/^[^ ]/ { told = $1 == number } told' | diff - "$1"
}
for told in examples/attacks/*/*.why; do
    counts "bench ${told#examples/}" why_listed "$told"
done
counts 'bench folder' ends 5 '' "$scratch/run" examples examples/first.script
counts 'bench script is a folder' ends 5 '' "$scratch/run" examples/one_link.toml examples
counts 'bench faulty topology' ends 3 'topology missing version' "$scratch/run" /dev/null "$scratch/none"
{ echo 'dump 1'; yes "$(printf '%16383s' '')"; } | head -c 16777217 >"$scratch/long"
counts 'bench too long' ends 8 '1 none' "$scratch/run" examples/one_link.toml "$scratch/long"
if [ -w /dev/full ]; then
    counts 'bench full' fills "$scratch/run" examples/one_link.toml examples/first.script
fi
if command -v python3 >/dev/null; then
    counts 'bench python' env IDE_SESSION="$scratch/libide_session.so" python3 $bench/test_ide_session.py
fi

# the test bench in SystemVerilog: over the gallery nothing differs, and on another text it fails
simulated() {
    "$scratch/vl/tb" "+topology=$1" "+script=$2" "+seen=$3" >"$scratch/out" 2>&1 && grep -q ' lines, 0 differ$' "$scratch/out"
}
told_apart() { ! (simulated "$@") 2>/dev/null && grep -q ' lines, [1-9][0-9]* differ$' "$scratch/out"; }
if ! command -v verilator >/dev/null; then
    echo "examples: no Verilator, so $bench/tb.sv was not tried"
elif verilator --binary --top-module tb --Mdir "$scratch/vl" -o tb -LDFLAGS "-Wl,-rpath,$scratch" \
    $bench/ide_session_pkg.sv $bench/tb.sv "$scratch/libide_session.so" >"$scratch/said" 2>&1; then
    for script in examples/attacks/*/*.script; do
        name=${script%.script}
        counts "simulated ${name#examples/}" simulated "${name%/*}/topology.toml" "$script" "$name.expected"
    done
    counts 'simulated other text' told_apart examples/one_link.toml examples/first.script examples/interface.expected
else
    failed=$((failed + 1))
    echo "examples: Verilator did not build $bench/tb.sv:"
    tail -n 5 "$scratch/said"
fi
