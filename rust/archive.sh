#!/usr/bin/env bash
# Makes the archive that C and Rust link, target/staticlib/libhainscope.a, of the proved crate hainscope_c, and beside it
# the fingerprint of the sources that it is of. Where both are there and the sources as they were, nothing is done.
set -eu
unset CDPATH
cd "$(dirname "$0")/.."
folder=target/staticlib
archive=$folder/libhainscope.a
fingerprint=$folder/libhainscope.fingerprint

mkdir -p "$folder"
if [ -f "$archive" ] && bash rust/fingerprint.sh "$folder" | cmp -s - "$fingerprint"; then
    echo "$archive is of the sources as they stand"
    exit
fi

rm -f "$archive" "$fingerprint"
before=$(bash rust/fingerprint.sh "$folder")
(cd crates/hainscope_c && rt lib)
cp crates/hainscope_c/out/libhainscope_c.a "$archive"
after=$(bash rust/fingerprint.sh "$folder")
if [[ $after != "$before"* ]]; then
    echo "a source was changed while the archive was made: make it again" >&2
    exit 1
fi
printf '%s\n' "$after" >"$fingerprint"
