#!/usr/bin/env bash
# Puts the proved programs into target/bin.
#   programs.sh             proves and builds them, and runs each on its own input, called by `make programs`; what is proved already is not
#                           proved again
#   programs.sh --after-ci  takes every program, also `lines`, as `rt ci` has just proved, built and run it (the gate)
set -eu
cd "$(dirname "$0")/.."

programs="everylist liftcount liftlists treelist"
[ "${1:-}" != --after-ci ] || programs="$programs lines"
mkdir -p target/bin
for program in $programs; do
    if [ "${1:-}" != --after-ci ]; then
        (cd "crates/$program" && rt run <stdin | cmp - stdout)
    fi
    cp "crates/$program/out/$program" "target/bin/$program"
done
