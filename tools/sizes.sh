#!/usr/bin/env bash
# Prints the lines of code, definitions and proofs of each crate and of all, and the proofs for each line of code. Counted are lines that are
# not blank and no comment.
set -eu
cd "$(dirname "$0")/.."
lines() { find "crates/$1/$2" -name "*.$3" -exec cat {} + 2>/dev/null | grep -cvE '^[[:space:]]*(--|//|$)' || true; }
for crate in $(sed -nE 's/^([a-z0-9_]+)( +staticlib)?:.*/\1/p' crates.txt); do
    echo "$crate $(lines "$crate" src rt) $(lines "$crate" specs antt) $(lines "$crate" proofs antt)"
done | awk '
    function row(name, code, specs, proofs) { printf "%-12s %8d %8d %8d %8s\n", name, code, specs, proofs, code ? sprintf("%.2f", proofs / code) : "" }
    BEGIN { printf "%-12s %8s %8s %8s %8s\n", "crate", "code", "specs", "proofs", "ratio" }
    { row($1, $2, $3, $4); code += $2; specs += $3; proofs += $4 }
    END { row("all", code, specs, proofs) }'
