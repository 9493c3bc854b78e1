# Hostile links: random scripts against the second model, the gallery of attacks, and every loss of a message.

# the shortest script on which a tag fails: a packet that is altered
shrunk() {
    printf '%s\n' 'establish 0 5' 'send d0 400000010100000f1000000011223344' 'alter 1 1 20' |
        cmp -s - <(examples/shrink examples/one_link.toml examples/first.script \
            sh -c '! model/run "$1" "$2" | grep -q "fail h0 5 pr tag"' sh 2>"$scratch/err")
}

# regressed STATUS PROGRAM SAID: of three seeds, in two jobs, each of which is done once
regressed() {
    examples/regress 3 --events 60 --batch 2 --folder "$scratch/regress" --program "$2" \
        >"$scratch/out" 2>"$scratch/err" </dev/null
    [ $? -eq "$1" ] && [[ $(tail -n 1 "$scratch/out") == *": $3" ]] && [ "$(wc -l <"$scratch/regress/jobs.log")" -eq 3 ]
}

# random scripts: the program writes the lines of the second model
if python3 -c 'import tomllib, cryptography' 2>/dev/null; then
    for seed in 5 11 23; do
        examples/attack "$seed" 300 --topology >"$scratch/hostile.toml"
        examples/attack "$seed" 300 >"$scratch/hostile.script"
        model/run "$scratch/hostile.toml" "$scratch/hostile.script" >"$scratch/hostile.expected"
        expects "attack $seed" 0 "$scratch/hostile.expected" run "$scratch/hostile.toml" "$scratch/hostile.script"
    done
    counts shrink shrunk
    if parallel --version 2>/dev/null | grep -q GNU; then
        printf '#!/bin/sh\n"%s" "$@" | sed s/^total/totals/\n' "$PWD/$program" >"$scratch/wrong"
        chmod +x "$scratch/wrong"
        counts regress regressed 0 "$program" '3 agree, 0 differ'
        counts 'regress begun again' regressed 0 "$program" '3 agree, 0 differ'
        rm -r "$scratch/regress"
        counts 'regress of a wrong program' regressed 1 "$scratch/wrong" '0 agree, 3 differ'
    else
        echo "examples: no GNU parallel, so regress was not tried"
    fi
else
    echo "examples: no Python with the package cryptography, so attack, shrink and regress were not tried"
fi

# the gallery, and every message of key management lost once
for script in examples/attacks/*/*.script examples/losses/losses.script examples/losses/lines/losses.script; do
    name=${script%.script}
    expects "${name#examples/}" 0 "$name.expected" run "$(dirname "$script")/topology.toml" "$script"
done

# what the verdict of one event of each attack came from, by the number that its text begins with
for told in examples/attacks/*/*.why; do
    name=${told%.why}
    read -r number _ <"$told"
    expects "why ${name#examples/}" 0 "$told" why "$(dirname "$told")/topology.toml" "$name.script" "$number"
done
counts 'why of each attack' [ "$(ls examples/attacks/*/*.script | wc -l)" -eq "$(ls examples/attacks/*/*.why | wc -l)" ]
