#!/usr/bin/env bash
# Builds the proved static library and puts it into target/staticlib.
#   library.sh             proves what it needs, as far as it is not proved yet, called by `make library` where something changed. Without
#                          rt the prebuilt one is used, if there is one
#   library.sh --after-ci  takes the libraries below it as `rt ci` has just proved and left them in a checkout that was clean (the gate)
set -eu
cd "$(dirname "$0")/.."

library=target/staticlib/libsorbrudder.a
built=crates/sorbrudder/out/libsorbrudder.a
if command -v rt >/dev/null 2>&1; then
    # `rt ci` proves a static library and builds none, and `rt lib` proves anew what it left: two thirds of the gate's work again.
    if [ "${1:-}" != --after-ci ] || ! tools/after_ci.py sorbrudder; then
        (cd crates/sorbrudder && rt lib)
    fi
    mkdir -p target/staticlib
    cp "$built" "$library"
    exit
fi
prebuilt=prebuilt/$(uname -m)-$(uname -s | tr '[:upper:]' '[:lower:]')
if [ -f "$prebuilt/libsorbrudder.a" ]; then
    (cd "$prebuilt" && sha256sum --check --quiet SHA256SUMS)
    echo "make library: there is no rt to prove it with: $prebuilt/libsorbrudder.a is used" >&2
    exit
fi
echo "make library: rt, which proves and builds the library, is not on the PATH, and there is no $prebuilt/libsorbrudder.a" >&2
exit 1
