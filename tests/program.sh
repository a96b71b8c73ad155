#!/usr/bin/env bash
# Tests of ./hainscope: its arguments and exit statuses, where it may be called from, and that it never answers with a
# program that is not that of the sources. Edits are made in a copy of the tree.
set -u
unset CDPATH
cd "$(dirname "$0")/.." || exit 2
. tests/expect.sh
root=$(pwd -P)
room=$(mktemp -d) || exit 2
trap 'rm -rf "$room"' EXIT
answer=$(cat samples/h.expected)
refusal=$(cat samples/h-damaged.expected)
usage='usage: hainscope [FILE], or hainscope --help'

./hainscope samples/h.table >/dev/null 2>&1 # builds it where nothing is built yet

expect 'a table as standard input' 0 "$answer" '' from_input samples/h.table ./hainscope
expect 'a table as a file' 0 "$answer" '' ./hainscope samples/h.table
expect 'a refused table as standard input' 1 "$refusal" '' from_input samples/h-damaged.table ./hainscope
expect 'a refused table as a file' 1 "$refusal" '' ./hainscope samples/h-damaged.table
expect 'an empty input is a refused table' 1 'refused 3 0' '' ./hainscope /dev/null

holds 'help' grep -q '^usage: hainscope \[FILE\]$' <(./hainscope --help)
holds 'help names each exit status' test "$(./hainscope --help | grep -c '^    [0-3]  ')" = 4
expect 'two files' 2 '' "$usage" ./hainscope samples/h.table samples/e.table
expect 'help and more' 2 '' "$usage" ./hainscope --help samples/h.table
expect 'an unknown option' 2 '' "$usage" ./hainscope --version
expect 'an empty name' 2 '' "$usage" ./hainscope ''
expect 'usage is judged before the input' 2 '' "$usage" from_input samples/h.table ./hainscope -

expect 'a missing file' 2 '' 'samples/none.table cannot be read' ./hainscope samples/none.table
expect 'a folder as a file' 2 '' 'samples is a folder' ./hainscope samples
expect 'a folder as standard input' 2 '' 'the input cannot be read' from_input samples ./hainscope
expect 'a closed input' 2 '' 'standard input is closed' without_input ./hainscope
expect 'a closed output' 2 '' 'the answer cannot be written' without_output ./hainscope samples/h.table
expect 'a full output' 2 '' 'the answer cannot be written' to_full_output ./hainscope samples/h.table
expect 'help to a full output' 2 '' 'the help cannot be written' to_full_output ./hainscope --help

# A folder that has nothing of the tree but, by CDPATH, names that are in it as well
mkdir -p "$room/elsewhere/crates" "$room/elsewhere/samples"
ln -s "$root/hainscope" "$room/elsewhere/explain"
cp samples/h.table "$room/elsewhere/own.table"
cd "$room/elsewhere" || exit 2
expect 'through a link, from another folder' 0 "$answer" '' ./explain own.table
expect 'with CDPATH set' 0 "$answer" '' env CDPATH="$room/elsewhere:$root:." ./explain own.table
cd "$root/samples" || exit 2
expect 'from a folder of the tree, with CDPATH set' 0 "$answer" '' env CDPATH="$root" ../hainscope h.table
cd "$root" || exit 2
expect 'found by PATH' 0 "$answer" '' env PATH="$root:$PATH" hainscope samples/h.table

# Several at once: the check of the sources is no race
for number in 1 2 3 4 5 6; do
    ./hainscope samples/h.table >"$room/at-once.$number" &
done
wait
holds 'six at once' test "$(sort -u "$room"/at-once.*)" = "$(sort -u samples/h.expected)"

# A copy of the tree, with all that is built, to make edits in
copy=$room/copy
mkdir -p "$copy/target"
cp -R hainscope crates crates.txt "$copy" || exit 2
source=$copy/crates/hainscope_cli/src/main.rt
proving='proving and building the program'

expect 'a copy is built already' 0 "$answer" '' "$copy/hainscope" samples/h.table
rm "$copy/crates/hainscope_cli/out/hainscope_cli"
expect 'a program that is gone is built again' 0 "$answer" "$proving" "$copy/hainscope" samples/h.table

sed -i 's/"relax"/"relaxation"/' "$source"
sed -i 's/^relax /relaxation /' "$copy/crates/hainscope_cli/stdout"
expect 'an edit is answered by the new program, and the proof announced' 0 "${answer/relax/relaxation}" "$proving" "$copy/hainscope" samples/h.table
expect 'then it is built' 0 "${answer/relax/relaxation}" '' "$copy/hainscope" samples/h.table

sed -i 's/words\[5\]/words[70]/' "$source"
expect 'an edit that breaks a proof stops it' 3 '' 'the check of the sources failed' "$copy/hainscope" samples/h.table
expect 'and stops it again' 3 '' 'the check of the sources failed' "$copy/hainscope" samples/h.table

sed -i 's/words\[70\]/words[5]/' "$source"
sed -i 's/"relaxation"/"slack"/' "$source"
expect 'an edit that prints something else than the program must stops it' 3 '' "its file 'stdout'" "$copy/hainscope" samples/h.table
expect 'and what that build left is not run' 3 '' 'the check of the sources failed' "$copy/hainscope" samples/h.table
