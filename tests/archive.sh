#!/usr/bin/env bash
# Tests that Rust links no archive of other sources than those that stand, and finds the folder that the user means.
# All of it happens in a copy of the tree, with an archive that is already made.
set -u
unset CDPATH HAINSCOPE_ARCHIVE_DIR
cd "$(dirname "$0")/.." || exit 2
. tests/expect.sh
room=$(mktemp -d) || exit 2
trap 'rm -rf "$room"' EXIT
copy=$room/copy
source=$copy/crates/table/src/lib.rt
archive=$copy/target/staticlib/libhainscope.a
other='is not of the Rattle sources as they stand'

bash rust/archive.sh >/dev/null || exit 2
mkdir -p "$copy/target" "$room/stands/lib"
cp -R rust crates crates.txt "$copy" && cp -R target/staticlib "$copy/target" && rm -rf "$copy"/crates/*/out || exit 2
cp target/staticlib/* "$room/stands/lib"
export CARGO_TARGET_DIR=$room/built

# tests the store's crate in the copy; what cargo says counts as said on standard error
test_crate() { cargo test --quiet --manifest-path "$copy/rust/Cargo.toml" --release --offline -p hainscope --test archive >&2; }

passes() { expect "$1" 0 '' 'test result: ok. 1 passed' test_crate; }

passes 'an archive of the sources as they stand'
echo '// a line more' >>"$source"
expect 'a source was changed' 101 '' "$other" test_crate
cp crates/table/src/lib.rt "$source"
passes 'the change was taken back'
cp -p "$source" "$room/kept"
echo '// a line more' >>"$source" && touch -r "$room/kept" "$source"
expect 'a source was changed, and cargo does not notice' 101 '' 'the archive is of other sources' test_crate
cat "$room/kept" >"$source"
passes 'that change was taken back'
mkdir -p "$copy/crates/table/src/more"
echo '// a file more' >"$copy/crates/table/src/more/words.rt"
expect 'a source was added' 101 '' "$other" test_crate
rm -r "$copy/crates/table/src/more"
printf x >>"$archive"
expect 'the archive is another one' 101 '' "$other" test_crate
rm "$copy/target/staticlib/libhainscope.fingerprint"
expect 'an archive of which nobody knows the sources' 101 '' "$other" test_crate
rm "$archive"
expect 'no archive' 101 '' 'rust/archive.sh' test_crate

cd "$room/stands" || exit 2
export HAINSCOPE_ARCHIVE_DIR=lib
passes 'a relative folder is taken from where the user stands'
cd "$copy/rust" || exit 2
expect 'and from nowhere else' 101 '' "$copy/rust/lib/libhainscope.a is missing" test_crate
