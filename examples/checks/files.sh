# The first example over real files: run, judged, by pipes, and over files and devices that fail.

: >"$scratch/nothing"

# the first script, an interface from its lock to its halt, and packets in hexadecimal
expects first 0 examples/first.expected run examples/one_link.toml examples/first.script
expects interface 0 examples/interface.expected run examples/one_link.toml examples/interface.script
expects packets 0 examples/packets.expected show examples/packets.txt

# with the packets that were sealed: the same text but for their lines, which have the bytes that `dump` shows
shows_packets() {
    local topology=$1 script=$2
    "$program" run "$topology" "$script" --packets >"$scratch/shown" &&
        "$program" run "$topology" "$script" | cmp -s - <(grep -v '^[0-9]* bytes ' "$scratch/shown") || return
    sed -n 's/^\([0-9]*\) bytes /\1 /p' "$scratch/shown" >"$scratch/bytes"
    sed 's/ .*//; s/^/dump /' "$scratch/bytes" | cat "$script" - >"$scratch/dumps"
    "$program" run "$topology" "$scratch/dumps" | sed -n 's/^[0-9]* packet //p' |
        tail -n "$(wc -l <"$scratch/bytes")" | cmp -s - "$scratch/bytes"
}
counts 'first packets' shows_packets examples/one_link.toml examples/first.script
counts 'interface packets' shows_packets examples/one_link.toml examples/interface.script

# its verdicts judged, and those of a design that accepts a packet whose tag does not verify
sed 's/ fail h0 5 pr tag$/ accepted h0 5 pr draw 0 unit 2 blocked:nottrusted/' \
    examples/first.expected >"$scratch/claimed"
echo 'same 11' >"$scratch/same"
printf 'differs 6\ndue 6 fail h0 5 pr tag\n' >"$scratch/differs"
expects 'judge same' 0 "$scratch/same" judge examples/one_link.toml examples/first.script examples/first.expected
expects 'judge differs' 1 "$scratch/differs" judge examples/one_link.toml examples/first.script "$scratch/claimed"
cat "$scratch/differs" - <<<'differing 1' >"$scratch/all"
expects 'judge all' 1 "$scratch/all" judge examples/one_link.toml examples/first.script "$scratch/claimed" --all
expects 'judge pipe' 1 "$scratch/differs" judge examples/one_link.toml examples/first.script <(cat "$scratch/claimed")

# files that cannot be sought: the script by a pipe, and both by process substitution
expects pipe 0 examples/first.expected run examples/one_link.toml /dev/stdin < <(cat examples/first.script)
expects substitution 0 examples/first.expected run <(cat examples/one_link.toml) <(cat examples/first.script)
expects 'pipe read twice' 5 "$scratch/nothing" run /dev/stdin /dev/stdin < <(cat examples/one_link.toml)

# files that are not there, and folders
expects read 5 "$scratch/nothing" run examples/one_link.toml "$scratch/there.is.none"
said read "ide: $scratch/there.is.none: No such file or directory (os error 2)"
expects folder 5 "$scratch/nothing" check examples
said folder 'ide: examples: Is a directory (os error 21)'
expects 'script is a folder' 5 "$scratch/nothing" run examples/one_link.toml examples
expects 'migrated folder' 5 "$scratch/nothing" check examples --migrate
expects 'packets in a folder' 5 "$scratch/nothing" show examples

# where a file is faulty: the topology by its line and column, a line by the word; nothing of a pipe, which is not read
# twice
printf 'version = 1\npool = [\n  "é", "0"\nversion\n' >"$scratch/broken.toml"
echo 'topology nottoml' >"$scratch/nottoml"
expects 'no TOML' 3 "$scratch/nottoml" check "$scratch/broken.toml"
counts 'place of no TOML' grep -q "^ide: $scratch/broken.toml: line 4, column 1: it is no TOML: " "$scratch/err"
expects 'no TOML by a pipe' 3 "$scratch/nottoml" check <(cat "$scratch/broken.toml")
said 'no TOML by a pipe' 'ide: the topology is faulty'
printf 'version = 1\n# \303\250 \377\n' >"$scratch/broken.toml"
expects 'no UTF-8' 3 "$scratch/nottoml" check "$scratch/broken.toml" --migrate
said 'no UTF-8' "ide: $scratch/broken.toml: line 2, column 5: a byte is not UTF-8"

# refuses CAUSE PLACE LINE: of a script whose second line is this one
refuses_at() {
    local cause=$1 place=$2 line=$3
    printf '# a comment\n%s\n' "$line" >"$scratch/broken.script"
    echo "refused 2 $cause" >"$scratch/refused"
    expects "refused '$line'" 4 "$scratch/refused" run examples/one_link.toml "$scratch/broken.script"
    said "place of '$line'" "ide: $scratch/broken.script: line 2, $place"
}
refuses_at word "column 3: 'jump' is not known here" '  jump 0'
refuses_at word "column 6: 'x0' is not known here" 'send x0 -'
refuses_at word "column 11: 'mor' is not known here" 'send d0 - mor'
refuses_at word "column 11: 'trusted' is not known here" 'send h0 - trusted more'
refuses_at word "column 23: 'both' is not known here" 'establish 0 5 lose 12 both'
refuses_at word "column 9: 'colour' is not known here" 'write 0 colour 1'
refuses_at count "column 1: 'dump' has another number of words" 'dump 1 2'
refuses_at number "column 8: 'two' is no number" 'mmio 0 two 0 4'
refuses_at hex "column 11: '0' is no hexadecimal" 'arrive h0 0'
refuses_at hex "column 11: '100' is no hexadecimal" 'alter 1 0 100'
refuses_at notascii 'column 6: a byte is not printable ASCII' $'pass \t1'
refuses_at toolong 'column 20001: the line is too long' "$(printf '%20001s' 1)"
printf '00\n92 80\n' >"$scratch/broken.packets"
printf '1 plain short 1\nrefused 2 hex\n' >"$scratch/refused"
expects 'refused packet' 4 "$scratch/refused" show "$scratch/broken.packets"
said 'place of a packet' "ide: $scratch/broken.packets: line 2, column 4: '80' is no hexadecimal"
expects 'refused pipe' 4 "$scratch/refused" show <(cat "$scratch/broken.packets")
said 'place by a pipe' 'ide: a line of the script or packet file is faulty'

# a device that takes nothing
if [ -w /dev/full ]; then
    counts 'full run' fills "$program" run examples/one_link.toml examples/first.script
    counts 'full cover' fills "$program" cover examples/one_link.toml examples/first.script
    counts 'full check' fills "$program" check examples/one_link.toml
    counts 'full migrate' fills "$program" check examples/one_link.toml --migrate
    counts 'full show' fills "$program" show examples/packets.txt
    counts 'full generate' fills "$program" generate 7 200
fi

# each read in turn fails, if there is a compiler for what refuses it
if command -v "${CC:-cc}" >/dev/null; then
    refuses() {
        examples/refused_reads "$@" >"$scratch/said" && return
        cat "$scratch/said"
        return 1
    }
    counts 'refused reads of judge' refuses
    counts 'refused reads of run' refuses run examples/one_link.toml examples/first.script
    counts 'refused reads of cover' refuses cover examples/one_link.toml examples/first.script
    counts 'refused reads of cover --events' refuses cover examples/one_link.toml examples/first.script --events
fi

# a key of a topology that has what no terminal should get
printf 'version = 1\n"a\\nok\\u001b[31m" = 1\n' >"$scratch/key.toml"
echo 'topology unknown "a\nok\u001B[31m"' >"$scratch/key"
expects key 3 "$scratch/key" check "$scratch/key.toml"
said key 'ide: the topology is faulty'

# `--version` tells the last version that CHANGELOG has, and the logic of the kits that README asks for
tells_version() {
    local version logic
    version=$(sed -n 's/^## \([0-9.]*\)$/\1/p' CHANGELOG.md | head -n 1)
    logic=$(sed -n 's/.*`logic \([0-9a-f]*\)`.*/\1/p' README.md)
    [ -n "$version" ] && [ -n "$logic" ] || return
    "$program" --version 2>&1 >"$scratch/out" | grep -q "^ide $version .* logic $logic$"
}
counts 'version' tells_version
