#!/usr/bin/env bash
# fingerprint.sh FOLDER: a line that tells the sources of the crates from all others, and one that tells the archive in
# the folder from all others, if there is one. rust/archive.sh leaves both beside the archive, in libhainscope.fingerprint:
# where they are not what this prints, the archive is not of the sources as they stand.
set -euo pipefail
unset CDPATH
folder=$(realpath -- "$1")
cd "$(dirname "$0")/.."

digest() { sha256sum | cut -d ' ' -f 1; }

sources() {
    find crates -name out -prune -o -type f \( -path '*/src/*' -o -path '*/specs/*' -o -path '*/proofs/*' \) -print0 | LC_ALL=C sort -z |
        xargs -0 sha256sum crates.txt
}

echo "sources $(sources | digest)"
if [ -f "$folder/libhainscope.a" ]; then
    echo "archive $(digest <"$folder/libhainscope.a")"
fi
