#!/usr/bin/env bash
# The library and the programs that were proved here, for machines without rt.
#   prebuilt.sh          fills prebuilt/SYSTEM (`make prebuilt`)
#   prebuilt.sh --check  fails where prebuilt/SYSTEM is there and is not the same byte for byte, or has another checksum (the gate)
set -eu
cd "$(dirname "$0")/.."

made="target/staticlib/libsorbrudder.a target/bin/everylist target/bin/liftcount target/bin/liftlists target/bin/treelist"
folder=prebuilt/$(uname -m)-$(uname -s | tr '[:upper:]' '[:lower:]')
if [ "${1:-}" != --check ]; then
    mkdir -p "$folder"
    cp $made "$folder/"
    (cd "$folder" && for file in $made; do sha256sum "${file##*/}"; done >SHA256SUMS)
    for file in $made; do
        echo "$folder/${file##*/}: $(wc -c <"$file") bytes"
    done
    exit
fi
if [ ! -d "$folder" ]; then
    echo "there is no $folder"
    exit
fi
(cd "$folder" && sha256sum --check --quiet SHA256SUMS)
for file in $made; do
    grep -q " ${file##*/}\$" "$folder/SHA256SUMS"
    cmp "$file" "$folder/${file##*/}"
done
