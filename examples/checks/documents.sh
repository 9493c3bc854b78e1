# Lists in the pages that have to be those of the sources.

# THEOREM has a section for each clause of the call, of `files` and `laws` for each field, and for no other
of_call() {
    sed -n '/^pub fn run</,/^{/s/^ *ensures \([a-z_]*\).*/\1/p' crates/ide_cli/src/top.rt | grep -v -x -e laws -e files
}
of_files() {
    sed -n '/^pub record \(FileRun\|EndsAs\) /,/^$/s/^  pub \([a-z_]*\) :.*/\1/p' crates/file_runs/specs/FileRuns.antt |
        grep -v -x ends
}
# each law with its part, in the order of the parts
parts_of_laws() {
    awk '/^pub record / { record = $3 } /^$/ { record = "" }
        /^  pub / && record ~ /.Laws$/ { fields[record] = fields[record] " " $2 }
        /^  pub / && record == "Laws" { n = split(fields[$4], names); for (i = 1; i <= n; i++) print $2, names[i] }
    ' crates/ide_cli/specs/Laws.antt
}
of_laws() { parts_of_laws | cut -d ' ' -f 2; }
clauses() { { of_call && of_files && of_laws; } | sort; }
same_clauses() { diff <(clauses) <(sed -n 's/^#### //p' docs/THEOREM.md | grep -o '[a-z_]*' | sort); }

# and each law stands there under the heading of its part, the parts in the order of `Laws`
parts_of_headings() {
    awk -F '`' '/^###? / { part = /: `[a-z_]+`$/ ? $2 : "" }
        /^#### / && part { for (i = 2; i < NF; i += 2) print part, $i }' docs/THEOREM.md
}
same_parts() {
    diff <(parts_of_laws | cut -d ' ' -f 1 | uniq) <(parts_of_headings | cut -d ' ' -f 1 | uniq) &&
        diff <(parts_of_laws | sort) <(parts_of_headings | sort)
}

# CRATES has the crates of crates.txt, in its order
listed_crates() { sed -n 's/^\([a-z][a-z_]*\)\( [a-z]*\)*:.*/\1/p' crates.txt; }
same_crates() { diff <(listed_crates) <(sed -n 's/^| `\([a-z_]*\)` |.*/\1/p' docs/CRATES.md); }

# RULES has the rules of the second model that can answer, in its order, and marks the others
answering_rules() {
    sed '/^## Where each rule stands/,$d' docs/RULES.md | tr '\n' ' ' |
        grep -oE '\*[a-z]+(\.[a-z]+)?\*( \(used[^)]*\))?(:| \||, one for)' |
        sed -n '/(used/d; s/^\*\([a-z.]*\)\*.*/\1/p'
}
model_rules() { sed -n '/^RULES = """$/,/^"""/p' model/facts.py | grep -oE '[a-z]+\.[a-z]+|\<reset\>'; }
same_rules() { [ -n "$(model_rules)" ] && diff <(answering_rules) <(model_rules); }

counts 'clauses of THEOREM' same_clauses
counts 'parts of THEOREM' same_parts
counts 'crates of CRATES' same_crates
counts 'rules of RULES' same_rules
