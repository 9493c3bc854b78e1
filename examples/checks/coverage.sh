# Coverage: the scripts beside the program reach every rule that can answer, and it counts as the second model does.

if ! command -v python3 >/dev/null; then
    echo 'examples: no Python 3, so coverage was not tried'
    return
fi
gallery=(examples/attacks/*/*.script)
others=(examples/losses/losses.script examples/losses/lines/losses.script examples/cases/*.cases)
others+=(examples/one_link.toml examples/{first,interface}.script)

# every_rule FILE..: no rule is 0; those that are get told
every_rule() {
    examples/coverage --whole --program "$program" "$@" >"$scratch/sums" 2>"$scratch/err" && return
    sed 's/^/examples: coverage: /' "$scratch/err"
    sed -n 's/^rule \(.*\) 0$/examples: coverage: nothing reaches \1/p' "$scratch/sums"
    return 1
}
some_rules() { ! examples/coverage --whole --program "$program" "$@" >"$scratch/sums" 2>"$scratch/err"; }
counts 'coverage of the gallery' every_rule "${gallery[@]}"
counts 'coverage of gallery, cases and worked scripts' every_rule "${gallery[@]}" "${others[@]}"
counts 'coverage of one script' some_rules examples/one_link.toml examples/first.script
printf 'establish 0 5\njump 0\n' >"$scratch/jump"
counts 'coverage of a line that is not spelled' complains \
    examples/coverage --program "$program" examples/one_link.toml "$scratch/jump"

# as_model WORD..: the program's `cover` writes what the model's does, and ends so
as_model() {
    local due
    model/cover "$@" >"$scratch/due" 2>"$scratch/err"
    due=$?
    "$program" cover "$@" >"$scratch/out" 2>"$scratch/err"
    [ $? -eq "$due" ] && diff "$scratch/out" "$scratch/due"
}
if ! python3 -c 'import tomllib, cryptography' 2>/dev/null; then
    echo 'examples: no Python with the package cryptography, so cover was not compared with the second model'
    return
fi
for name in interfaces/faulty_device accesses/flood_of_reads reads/bar_moved_under_a_read reads/peer_that_is_not_bound \
    link/lost_go_of_reads peers/unbound switch/honest_run; do
    attack=examples/attacks/$name
    counts "cover $name" as_model "${attack%/*}/topology.toml" "$attack.script"
    counts "cover $name --events" as_model "${attack%/*}/topology.toml" "$attack.script" --events
done
for seed in 5 7 23; do
    examples/attack "$seed" 500 --topology >"$scratch/hostile.toml"
    examples/attack "$seed" 500 >"$scratch/hostile.script"
    counts "cover attack $seed" as_model "$scratch/hostile.toml" "$scratch/hostile.script" --events
done
counts 'cover of a line that is not spelled' as_model examples/one_link.toml "$scratch/jump"
counts 'cover of a line that is not spelled --events' as_model examples/one_link.toml "$scratch/jump" --events
