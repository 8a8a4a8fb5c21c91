#!/usr/bin/env bash
# Says whether the static library needs no other names from outside than `memcpy` and `memset`, which whoever links it has to provide
# (include/sorbrudder.h). A copy by the kit's `copy_from_slice` of as many words as a call says needs `memmove` besides; `for` needs neither.
#   outside_names.sh [ARCHIVE]      the one that `make library` writes, if none is named
set -eu
cd "$(dirname "$0")/.."

library=${1:-target/staticlib/libsorbrudder.a}
names=$(nm -u "$library")
others=$(awk 'NF == 2 && $2 != "memcpy" && $2 != "memset" { print $2 }' <<<"$names" | sort -u | tr '\n' ' ')
if [ -n "$others" ]; then
    echo "outside names: $library needs from outside, besides memcpy and memset: $others" >&2
    exit 1
fi
