# The tools in Python beside the examples: charts, tlp, pool and the gallery.

# arrivals SCRIPT VERDICTS: how many events brought bytes to a port
arrivals() {
    paste -d '|' <(grep -v -e '^#' -e '^ *$' "$1") "$2" |
        grep -E '^(pass|alter|cut|arrive) .*\|[0-9]+ ' | grep -v -c '|[0-9]* none$'
}

# charted TOPOLOGY SCRIPT VERDICTS: the chart is well formed, and has an arrow for each arrival
charted() {
    examples/chart "$1" "$2" "$3" >"$scratch/page" &&
        python3 examples/checks/arrows.py "$scratch/page" "$(arrivals "$2" "$3")"
}

# the picture that README shows is that of the first example
same_picture() {
    examples/chart --svg examples/one_link.toml examples/first.script examples/first.expected | cmp -s - docs/first.svg
}

# the first events that README shows, beside their verdicts
shown_events() { sed -n 's/^| `\([a-z][^`]*\)` | `\([0-9][^`]*\)` |.*/\1 \2/p' README.md; }
due_events() { paste -d ' ' <(grep -v -e '^#' -e '^ *$' examples/first.script) examples/first.expected; }
same_shown() { [ -n "$(shown_events)" ] && diff <(shown_events) <(due_events | head -n "$(shown_events | wc -l)"); }

same_gallery() { examples/gallery | cmp -s - examples/attacks/README.md; }

pool_of() { sed -n '/^pool = \[/,/^\]/p' "$1"; }
same_pool() { diff <(pool_of examples/one_link.toml) <(examples/pool 24 | grep -v '# draw'); }

if ! python3 -c 'import tomllib' 2>/dev/null; then
    echo "examples: no Python with tomllib, so chart, tlp and pool were not tried"
    return
fi
replay=examples/attacks/link/replay
head -n 4 examples/first.expected >"$scratch/early"
counts 'chart first' charted examples/one_link.toml examples/first.script examples/first.expected
counts 'chart early' charted examples/one_link.toml examples/first.script "$scratch/early"
counts 'chart replay' charted examples/attacks/link/topology.toml "$replay.script" "$replay.expected"
accesses=examples/attacks/accesses
counts 'chart accesses' charted $accesses/topology.toml $accesses/honest_run.script $accesses/honest_run.expected
for chart in peers/honest_run peers/stopped_under_a_run reads/peer_that_is_not_bound \
    switch/honest_run switch/wrong_side; do
    attack=examples/attacks/$chart
    counts "chart $chart" charted "${attack%/*}/topology.toml" "$attack.script" "$attack.expected"
done
counts 'chart picture' same_picture
counts 'README first' same_shown
counts gallery same_gallery
counts 'chart no file' complains examples/chart examples/one_link.toml "$scratch/none" examples/first.expected
for other in interface.expected packets.expected first.script; do
    counts "chart of $other" complains examples/chart examples/one_link.toml examples/first.script "examples/$other"
done
printf '%s\n' 'psend 0' psend 'forward 0' forward >"$scratch/short"
echo 'refused 1 count' >"$scratch/refusal"
counts 'chart of lines that are not spelled' charted examples/one_link.toml "$scratch/short" "$scratch/refusal"
counts 'tlp write' prints 400000010100000f1000000011223344 \
    examples/tlp write --requester 0x0100 --address 0x10000000 --data 11223344
counts 'tlp wide write' prints 60000002010000ff00000002000000000011223344556677 \
    examples/tlp write --requester 0x0100 --address 0x200000000 --data 0011223344556677
counts 'tlp read' prints 000000010100010f10000000 \
    examples/tlp read --requester 0x0100 --address 0x10000000 --length 1 --tag 1
counts pool same_pool
