#!/bin/sh
# Builds the program `clearing` from its proofs and decides a sheet: the sample, or FILE (readable text or DIMACS CNF).
# run.sh [[BLOCK_LENGTH RADIUS BUDGET] FILE]
# FILE alone is decided by the plan with the least bound (tools/sheet plans) and the largest budget; for a Horn sheet, where no clause
# has two positive literals, the plan makes no difference.
# It prints the program's line, as `batch 70000 ball clear calls 2 marks 1 0 0 0`, and then what it means.
set -eu
here=$(cd "$(dirname "$0")" && pwd)
program=$here/crates/clearing/out/clearing

# The crates that `clearing` is made of, in the order of crates.txt, where each stands after what it uses.
needed() {
    awk -F: '
        { sub(/#.*/, "") }
        NF > 1 { names[++count] = $1; uses[$1] = $2 }
        END {
            need["clearing"]
            for (i = count; i > 0; i--)
                if (names[i] in need)
                    for (j = split(uses[names[i]], used, " "); j > 0; j--) need[used[j]]
            for (i = 1; i <= count; i++) if (names[i] in need) print names[i]
        }' "$here/crates.txt"
}

# `rt lib` proves and builds a library, `rt run` the program, which it then runs on nothing.
check() {
    case $1 in clearing) verb=run ;; *) verb=lib ;; esac
    (cd "$here/crates/$1" && rt $verb) </dev/null >"$scratch/log" 2>&1 || {
        cat "$scratch/log" >&2
        exit 1
    }
}

# Nothing has changed since the program was built. rt looks itself: this only says whether to be quiet.
built() {
    [ -x "$program" ] || return 1
    for crate in $crates; do
        [ -z "$(find "$here/crates/$crate" -type f ! -path '*/must-fail/*' ! -path '*/out/*' -newer "$program")" ] || return 1
    done
}

build() {
    crates=$(needed)
    if built; then
        check clearing
        return
    fi
    echo "proving the program's crates; the first time this takes several minutes" >&2
    total=$(echo "$crates" | wc -l) at=0
    for crate in $crates; do
        at=$((at + 1))
        echo "proving $crate ($at of $total)" >&2
        check "$crate"
    done
}

scratch=$(mktemp -d)
trap 'rm -rf "$scratch"' EXIT
case $# in
0) cp "$here/crates/clearing/stdin" "$scratch/input" ;;
1)
    cat -- "$1" >"$scratch/text"
    "$here/tools/sheet" plans "$scratch/text" -o "$scratch/plans"
    plan=$(awk '$1 == "*" { print $2, $3 }' "$scratch/plans")
    "$here/tools/sheet" input $plan 4294967295 "$scratch/text" -o "$scratch/input"
    echo "plan $plan, budget 4294967295"
    ;;
4) "$here/tools/sheet" input "$1" "$2" "$3" "$4" -o "$scratch/input" ;;
*)
    echo "usage: run.sh [[BLOCK_LENGTH RADIUS BUDGET] FILE]" >&2
    exit 2
    ;;
esac
build
line=$("$program" <"$scratch/input")
echo "$line"
echo
tail -c +13 "$scratch/input" >"$scratch/sheet"
"$here/tools/sheet" explain "$scratch/sheet" "$line"
