# The small device beside a session: it agrees on the scripts of one link, and the fault of each of three others is
# found. The session is that of the library where examples/checks/bench.sh linked it, else the second model.

bench=examples/bench
if ! echo '#include <openssl/evp.h>' | "${CC:-cc}" -E - >"$scratch/out" 2>&1; then
    echo "examples: no C compiler, or no OpenSSL's headers (libssl-dev), so $bench/device was not tried"
    return
fi
if ! python3 -c 'import cryptography' 2>"$scratch/err"; then
    echo "examples: no Python 3 with the package cryptography, so $bench/device was not tried"
    return
fi
if ! $bench/device/build "$scratch"; then
    failed=$((failed + 1))
    echo "examples: $bench/device was not built"
    return
fi
session=(--model)
[ -e "$scratch/libide_session.so" ] && session=(--library "$scratch/libide_session.so")

# scored STATUS PROGRAM TOPOLOGY SCRIPT..: the scoreboard ends so
scored() {
    local status=$1 device=$2
    shift 2
    python3 $bench/scoreboard.py "$@" --device "$scratch/$device" "${session[@]}" >"$scratch/out" 2>&1
    [ $? -eq "$status" ]
}
# found FAULT RULE TOPOLOGY SCRIPT: the device with the fault differs, and this rule is named
found() { scored 1 "device-$1" "${@:3}" && grep -qx " rule   $2" "$scratch/out"; }
messages_told() { python3 $bench/test_scoreboard.py "$1" >"$scratch/out"; }
not_the_same() { ! $bench/device/answers "$1" >"$scratch/out"; }

counts 'device answers' $bench/device/answers "$scratch/device"
counts 'device messages told' messages_told "$scratch/device"
counts 'device answers with a fault' not_the_same "$scratch/device-report"
counts 'device examples' scored 0 device examples/one_link.toml examples/{first,interface}.script \
    $bench/device/report.script
for folder in link units closed interfaces accesses two_links scarce routes; do
    counts "device $folder" scored 0 device examples/attacks/$folder/topology.toml examples/attacks/$folder/*.script
done
counts 'device second link' scored 0 device --link 1 examples/attacks/two_links/topology.toml \
    examples/attacks/two_links/*.script
counts 'device counter' found counter arriving.insecure examples/attacks/link/topology.toml \
    examples/attacks/link/forged_completion.script
counts 'device report' found report views.report examples/one_link.toml $bench/device/report.script
counts 'device tag' found tag sending.sealed examples/one_link.toml examples/first.script
echo 'send d0' >"$scratch/script"
counts 'device line' scored 4 device examples/one_link.toml "$scratch/script"
