#!/usr/bin/env bash
# What the command does, on archives that it may do it to (`make demo`).
set -u
cd "$(dirname "$0")/.." || exit 1

command=$(realpath "${CARGO_TARGET_DIR:-host/target}")/release/sorbrudder
sample=target/sample
rm -rf "$sample"
mkdir -p "$sample"
(cd host && cargo run --release --offline --quiet --example sample -- "../$sample/in") || exit 1
cd "$sample" || exit 1

# Says what it runs, and goes on whatever the status is, which it says too.
try() {
    echo
    echo "\$ sorbrudder $*"
    "$command" "$@"
    local status=$?
    [ "$status" -eq 0 ] || echo "(status $status)"
}

try versions -e 'dosed ? hold : under ? open : shut'
try explain -e "$(printf 'armed\n&& (ready\n   || calm]')"
try check in
try diff in --to 6
try lift in --dry-run --diff --to 6
try lift in -o lifted --to 6
try cat lifted/gates.lists
head -c 300 lifted/gates.lists > cut.lists
try check cut.lists
try salvage cut.lists -o saved.lists
try lift in -o settled --settle --to 6
try diff settled --to 4
try draw in/gates.lists#0 --at 4,5 -o gate.html
try draw -e '(a + b] * c' --at 4,6 -o none.html
try report in --to 6 -o report.html
echo
echo "In target/sample, for a browser: gate.html is a drawing, none.html that of a list that is no tree, report.html the report on the"
echo "folder; lifted is the lifted folder"
