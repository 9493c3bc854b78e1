# What a check counts, for examples/check, which reads this file.

passed=0
failed=0
scratch=$(mktemp -d)
trap 'rm -rf "$scratch"' EXIT

# counts NAME COMMAND..: one more that passed if the command succeeds
counts() {
    local name=$1
    shift
    if "$@"; then
        passed=$((passed + 1))
    else
        failed=$((failed + 1))
        echo "examples: $name failed"
    fi
}

# adds LINE: the counts of a tool whose last line is 'N passed, M failed'; fails if it is another line
adds() {
    [[ $1 =~ ^([0-9]+)\ passed,\ ([0-9]+)\ failed$ ]] || return 1
    passed=$((passed + BASH_REMATCH[1]))
    failed=$((failed + BASH_REMATCH[2]))
}

# prints EXPECTED COMMAND..: the command writes this one line
prints() {
    local expected=$1
    shift
    [ "$("$@")" = "$expected" ]
}

# ends STATUS EXPECTED COMMAND..: the command ends so, and writes these lines
ends() {
    local status=$1 expected=$2 got
    shift 2
    got=$("$@" 2>"$scratch/err")
    [ $? -eq "$status" ] && [ "$got" = "$expected" ]
}

# complains COMMAND..: the command ends in status 1 and one line on standard error
complains() {
    "$@" >"$scratch/out" 2>"$scratch/err"
    [ $? -eq 1 ] && [ ! -s "$scratch/out" ] && [ "$(wc -l <"$scratch/err")" -eq 1 ]
}

# fills COMMAND..: on a device that takes nothing the command ends in status 6
fills() { "$@" >/dev/full 2>"$scratch/err"; [ $? -eq 6 ]; }

# expects NAME STATUS EXPECTED WORD..: the program with these words ends so, and writes what stands in EXPECTED
expects() {
    local name=$1 status=$2 expected=$3 got
    shift 3
    "$program" "$@" >"$scratch/out" 2>"$scratch/err"
    got=$?
    if [ "$got" -eq "$status" ] && cmp -s "$scratch/out" "$expected"; then
        passed=$((passed + 1))
    else
        failed=$((failed + 1))
        echo "examples: $name: status $got, expected $status; what it wrote against what is expected:"
        diff "$scratch/out" "$expected" | head -n 10
    fi
}

# said NAME TEXT: this is what standard error said of the last end
said() {
    if [ "$(cat "$scratch/err")" = "$2" ]; then
        passed=$((passed + 1))
    else
        failed=$((failed + 1))
        echo "examples: $1: standard error has '$(cat "$scratch/err")', expected '$2'"
    fi
}
