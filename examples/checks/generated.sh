# Texts that the program makes: migrated topologies, generated scripts and their topology.

# each topology that is migrated is checked ok, and runs a script of its folder to the same text
migrates() {
    "$program" check "$1" --migrate >"$scratch/migrated.toml" || return 1
    [ "$("$program" check "$scratch/migrated.toml")" = ok ] || return 1
    grep -q '^version = 2$' "$scratch/migrated.toml" || return 1
    "$program" check "$scratch/migrated.toml" --migrate | cmp -s - "$scratch/migrated.toml" || return 1
    for script in "$(dirname "$1")"/*.script; do
        [ -f "$script" ] || continue
        cmp -s <("$program" run "$1" "$script") <("$program" run "$scratch/migrated.toml" "$script") || return 1
    done
}
for topology in examples/*.toml examples/*/*.toml examples/*/*/*.toml; do
    [ -f "$topology" ] && counts "migrated ${topology#examples/}" migrates "$topology"
done

# generated events: their topology is the one of docs/FORMATS.md, and their script runs on it to the totals of generate
generated_topology() {
    "$program" generate 0 1 --topology >"$scratch/generated.toml" || return 1
    [ "$("$program" check "$scratch/generated.toml")" = ok ] || return 1
    python3 examples/checks/generated_topology.py "$scratch/generated.toml"
}
generated_runs() {
    local totals
    "$program" generate "$1" "$2" --topology >"$scratch/generated.toml" || return 1
    "$program" generate "$1" "$2" --script >"$scratch/generated.script" || return 1
    totals=$("$program" run "$scratch/generated.toml" "$scratch/generated.script" | tail -n 1)
    [ "$("$program" generate "$1" "$2")" = "generated $(wc -l <"$scratch/generated.script") $totals" ]
}
if python3 -c 'import tomllib' 2>/dev/null; then
    counts 'generated topology' generated_topology
fi
for seed in 0 7 4294967295; do
    counts "generated $seed" generated_runs "$seed" 300
done

# the same line each time
generated_twice() {
    local first
    first=$("$program" generate 7 100000) && [[ $first == 'generated '* ]] &&
        prints "$first" "$program" generate 7 100000
}
counts 'generated twice' generated_twice
