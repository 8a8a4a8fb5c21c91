#!/usr/bin/env bash
# Prints the goals of a function's proof in the order of its code, each below the line of code at which it stands, and first what its loops
# and calls need besides: invariants and measures. CONTRIBUTING.md explains it by an example.
#     tools/places.sh derived highest_end
#     tools/places.sh grouping driver/close
set -eu
cd "$(dirname "$0")/.."
[ $# -eq 2 ] || { sed -n '2,5s/^# \{0,1\}//p' "$0" >&2; exit 2; }
out=$(mktemp -d)
trap 'rm -rf "$out"' EXIT
(cd "crates/$1" && rt check --generated "$out" --start "$1::${2//\//::}") >"$out/said" 2>&1 || true
# A function of a cycle of calls has its files in the cycle's folder.
found() { find "$out" \( -path "*-proofs/$2/$1.antt" -o -path "*-proofs/*+*/$(basename "$2")/$1.antt" \) -print -quit; }
answers=$(found AnswersOffered "$2")
[ -n "$answers" ] || { tail -n 5 "$out/said" >&2; echo "places: $1 has no goals for $2" >&2; exit 1; }
invariants=$(found InvariantsOffered "$2")
[ -z "$invariants" ] || sed -n 's/^\(abbrev \)\{0,1\}pub \([^ ]*\) : goal\..*/\2/p' "$invariants"
awk -v crate="crates/$1/" '
    /^-- src\// { at = $2; next }
    /^pub / && at {
        split(at, place, ":")
        if (place[1] place[2] != last) {
            n = 0
            while ((getline line < (crate place[1])) > 0 && ++n < place[2]) {}
            close(crate place[1])
            sub(/^ +/, "", line)
            print place[1] ":" place[2] ": " line
        }
        last = place[1] place[2]
        print "    " $2
    }
' "$answers"
