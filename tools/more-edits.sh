#!/usr/bin/env bash
# Tries the must-fail edits of edits/, which the gate leaves out for their time, in a copy of the repository's last commit; the checks
# there begin with what those of this checkout kept. It first sees that every edit applies. Arguments are crates; without any, all. The exit
# status is 0 where there are edits and each is refused.
set -eu
cd "$(dirname "$0")/.."
copy=$(mktemp -d)
trap 'rm -rf "$copy"' EXIT
git clone -q . "$copy/project"
"$copy/project/tools/edits-apply.sh"
cd "$copy/project"
[ $# -gt 0 ] || set -- $(ls edits)
[ $# -gt 0 ] || { echo "edits: there are none in edits/" >&2; exit 1; }
rm -rf crates/*/must-fail
for crate in "$@"; do
    mkdir "crates/$crate/must-fail"
    cp "edits/$crate"/*.edit "crates/$crate/must-fail/"
done
rt must-fail "$@"
