# ./ide runs a program whose stamp is right, and no other: tried in a tree with a program and an rt that say which ran.

stamped() (
    tree=$scratch/tree
    mkdir -p "$tree/crates/ide/out" "$tree/crates/ide/src" "$tree/.ci" "$tree/bin"
    cp ide "$tree/ide" && cp .ci/stamp "$tree/.ci/stamp" || exit 1
    touch "$tree/crates.txt" "$tree/HANDLES" "$tree/crates/ide/src/main.rt"
    printf '#!/bin/sh\necho proved\n' >"$tree/crates/ide/out/ide"
    printf '#!/bin/sh\necho trial\n' >"$tree/bin/rt"
    chmod +x "$tree/crates/ide/out/ide" "$tree/bin/rt"
    PATH=$tree/bin:$PATH
    # runs WHICH [TEXT]: this one, and standard error says nothing, or that it is unproved, and this
    runs() {
        [ "$("$tree/ide" check none 2>"$scratch/err")" = "$1" ] || exit 1
        case $1 in
            proved | wide) [ ! -s "$scratch/err" ] ;;
            *) grep -q unproved "$scratch/err" && grep -q -F -e "$2" "$scratch/err" ;;
        esac || exit 1
    }
    runs trial 'nothing says from which sources'
    "$tree/.ci/stamp" && runs proved
    echo '// changed' >>"$tree/crates/ide/src/main.rt"
    runs trial 'from other sources than these'
    runs trial "$tree/crates/ide/out/ide check none"
    "$tree/.ci/stamp" 60 2>/dev/null && exit 1
    runs trial 'nothing says from which sources'
    touch -d '2 hours ago' "$tree"/crates* "$tree/HANDLES" "$tree/crates/ide/src/main.rt"
    "$tree/.ci/stamp" 60 && runs proved
    # the one for x86-64-v3 runs if it was built too and the processor has what it asks for
    printf '#!/bin/sh\necho wide\n' >"$tree/crates/ide/out/ide-v3"
    printf '#!/bin/sh\nexit 0\n' >"$tree/.ci/has-v3"
    chmod +x "$tree/crates/ide/out/ide-v3" "$tree/.ci/has-v3"
    "$tree/.ci/stamp" 60 more && runs wide
    printf '#!/bin/sh\nexit 1\n' >"$tree/.ci/has-v3"
    runs proved
    # one of an earlier build goes
    "$tree/.ci/stamp" 60 && runs proved && [ ! -e "$tree/crates/ide/out/ide-v3" ] || exit 1
    printf '#!/bin/sh\necho other\n' >"$tree/crates/ide/out/ide"
    runs trial 'nothing says from which sources'
    rm "$tree/crates/ide/out/ide"
    runs trial 'no program stands'
)
counts stamp stamped
