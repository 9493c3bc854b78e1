# Scripts that are given line by line: each verdict is written before the next line is there.

# begins_run: the program runs a script that is typed at it, through $to; what it writes comes by $from
begins_run() {
    trap '' PIPE
    rm -f "$scratch/typed" "$scratch/shown"
    mkfifo "$scratch/typed" "$scratch/shown" || return 1
    "$program" run examples/one_link.toml /dev/stdin <"$scratch/typed" >"$scratch/shown" 2>"$scratch/err" &
    pid=$!
    exec {to}>"$scratch/typed" {from}<"$scratch/shown"
}

# ended: the status of the run, which is killed if it does not end within ten seconds
ended() {
    for _ in {1..100}; do
        kill -0 "$pid" || break
        sleep 0.1
    done
    kill "$pid" && echo 'examples: a typed script: the program still runs'
    wait "$pid"
}

typed() (
    begins_run || exit 1
    while IFS= read -r event <&3 && IFS= read -r verdict <&4; do
        echo "$event" >&"$to"
        IFS= read -r -t 10 got <&"$from"
        if [ "$got" != "$verdict" ]; then
            echo "examples: typed: after '$event' '$got' was written, expected '$verdict'"
            break
        fi
    done 3< <(grep -v -e '^#' -e '^ *$' examples/first.script) 4<examples/first.expected
    exec {to}>&-
    ended && [ "$got" = "$verdict" ]
)
counts 'typed script' typed 2>/dev/null

# a line that is not spelled ends the run though more could follow: nothing is read after it
refused_at_once() (
    begins_run || exit 1
    echo 'jump 0' >&"$to"
    IFS= read -r -t 10 got <&"$from"
    ended
    [ $? -eq 4 ] && [ "$got" = 'refused 1 word' ]
)
counts 'refused at once' refused_at_once 2>/dev/null

# the same from Python over a pipe
if command -v python3 >/dev/null; then
    piped() {
        diff <(python3 $bench/ide_pipe.py "$program" examples/one_link.toml "examples/$1.script") "examples/$1.expected"
    }
    counts 'pipe first' piped first
    counts 'pipe interface' piped interface
    # the text and the status are those of the program itself
    alike() {
        local status
        "$program" run "$@" >"$scratch/due" 2>"$scratch/err"
        status=$?
        python3 $bench/ide_pipe.py "$program" "$@" >"$scratch/out" 2>"$scratch/err"
        [ $? -eq "$status" ] && cmp -s "$scratch/out" "$scratch/due"
    }
    printf 'dump 1\ndump 1' >"$scratch/unended"
    printf 'dump 1\n\n# no event\njump 0\ndump 1\n' >"$scratch/refused"
    counts 'pipe without a last line feed' alike examples/one_link.toml "$scratch/unended"
    counts 'pipe refused' alike examples/one_link.toml "$scratch/refused"
    counts 'pipe faulty topology' alike "$scratch/nothing" examples/first.script
fi
