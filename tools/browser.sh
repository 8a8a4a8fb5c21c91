#!/usr/bin/env bash
# Looks at the command's pages in a headless Chromium: what is marked, and what the pointer, clicks, keys, a phone's width, print and dark
# mode make of them. Takes screenshots to target/browser (`make browser`).
#   browser.sh --if-there   says in one line where there is no browser, and does nothing (the gate)
set -eu
cd "$(dirname "$0")/.."

find_browser() {
    for name in chromium chromium-browser google-chrome; do
        command -v "$name" && return
    done
    return 1
}
if ! browser=$(find_browser); then
    if [ "${1:-}" = --if-there ]; then
        echo "there is no Chromium: the pages were not looked at in a browser"
        exit
    fi
    if ! { apt-get install -y --no-install-recommends chromium >/dev/null && browser=$(find_browser); }; then
        echo "make browser: there is no Chromium, and it could not be installed (Debian's package is chromium)" >&2
        exit 1
    fi
fi

command=$(realpath "${CARGO_TARGET_DIR:-host/target}")/release/sorbrudder
folder=$PWD/target/browser
mkdir -p "$folder"
timeout 300 tools/browser.py "$browser" "$command" "$folder"
echo "the pages look, print and answer to pointer and keys as they should; target/browser has screenshots"
