#!/usr/bin/env bash
# Tests of ./hainscope-review from outside: its arguments, inputs, outputs and exit statuses, where it may be called from,
# and that it never answers with a library that is not proved.
set -u
unset CDPATH
cd "$(dirname "$0")/.." || exit 2
. tests/expect.sh
root=$(pwd -P)
room=$(mktemp -d) || exit 2
trap 'rm -rf "$room"' EXIT
accident=samples/events/accident.event
words=$(cat samples/events/accident.words)
usage='usage: hainscope-review explain'

./hainscope-review explain "$accident" >/dev/null 2>&1 # builds it where nothing is built yet

# same NAME FILE COMMAND...: the command prints the file, byte for byte
same() {
    local name=$1 file=$2
    shift 2
    "$@" >"$room/printed" 2>&1
    holds "$name" cmp "$room/printed" "$file"
}

# questions TABLE: the counts that the proved program prints, in the tool's words
questions() {
    local name status count others
    while read -r name status count others; do
        case $name in
        conflict) printf 'Questions asked: %s for the conflict, ' "$count" ;;
        relax) printf '%s for the best set.\n' "$count" ;;
        esac
    done < <(./hainscope "$1")
}

expect 'an event as a file' 0 "$words" '' ./hainscope-review explain "$accident"
expect 'an event as standard input' 0 "$words" '' from_input "$accident" ./hainscope-review explain -
for event in samples/events/*.event; do
    name=${event%.event}
    same "$name in words" "$name.words" ./hainscope-review explain "$event"
    same "$name as JSON" "$name.json" ./hainscope-review explain --json "$event"
    same "$name as a page" "$name.html" ./hainscope-review page "$event"
    same "$name as a page for publishers" "$name.publisher.html" ./hainscope-review page --for-publisher "$event"
    ./hainscope-review table "$event" >"$room/event.table"
    holds "$name by the proved program has the same counts" grep -qxF "$(questions "$room/event.table")" "$name.words"
    ./hainscope-review text "$room/event.table" >"$room/event.event"
    same "$name is the same table after text" "$room/event.table" ./hainscope-review table "$room/event.event"
done
same 'row H with names is row H' samples/h.table ./hainscope-review table samples/events/bib-map.event
same 'a table as a table' samples/h.table ./hainscope-review table samples/h.table

damaged='table refused (number 9) at byte 86, record 7 (the first is 0)'
expect 'a refused table' 1 '' "$damaged" ./hainscope-review explain samples/h-damaged.table
expect 'a refused table has no page' 1 '' "$damaged" ./hainscope-review page samples/h-damaged.table
expect 'a refused table as JSON' 1 '{"answered": false, "refusal": {"number": 3, "place": 0, "record": 0, "reason": "the table is empty, its first record is no HEAD, or a later record is a HEAD"}}' \
    'table refused (number 3)' ./hainscope-review explain --json samples/empty.table
printf 'variables gps\nhost requires gsp on\n' >"$room/wrong.event"
expect 'a text with a mistake' 1 '' "$room/wrong.event: line 2, column 15: no variable is named gsp; the nearest is gps" \
    ./hainscope-review explain "$room/wrong.event"
expect 'a text with a mistake as JSON' 1 '{"answered": false, "mistakes": [{"line": 2, "column": 15, "words": "no variable is named gsp; the nearest is gps"}], "more": false}' \
    'line 2, column 15' ./hainscope-review explain --json "$room/wrong.event"
expect 'a text with a mistake is no table' 1 '' 'standard input: line 2, column 15' from_input "$room/wrong.event" ./hainscope-review table -

holds 'help' grep -q '^usage: hainscope-review explain EVENT' <(./hainscope-review --help)
holds 'help names each exit status' test "$(./hainscope-review --help | grep -c '^    [0-3]  ')" = 4
expect 'no argument' 2 '' "$usage" ./hainscope-review
expect 'no event' 2 '' "$usage" ./hainscope-review explain
expect 'two events' 2 '' "$usage" ./hainscope-review explain "$accident" "$accident"
expect 'an option of another command' 2 '' "$usage" ./hainscope-review page --json "$accident"
expect 'a missing file' 2 '' 'none.event cannot be read' ./hainscope-review explain none.event
expect 'a name that a terminal would obey' 2 '' $'none\xef\xbf\xbd[2J.event cannot be read' ./hainscope-review explain $'none\e[2J.event'
expect 'a folder' 2 '' 'samples cannot be read' ./hainscope-review explain samples
expect 'an input without end' 2 '' 'more than 16 MiB' ./hainscope-review explain /dev/zero
expect 'a closed input' 2 '' 'standard input is closed' without_input ./hainscope-review explain -
expect 'a closed output' 2 '' 'standard output is closed' without_output ./hainscope-review explain "$accident"
expect 'a full output' 2 '' 'the output cannot be written' to_full_output ./hainscope-review page "$accident"
expect 'help to a full output' 2 '' 'the help cannot be written' to_full_output ./hainscope-review --help

# A folder that has nothing of the tree, and a link to the program
mkdir -p "$room/elsewhere"
ln -s "$root/hainscope-review" "$room/elsewhere/review"
cp "$accident" "$room/elsewhere/own.event"
cd "$room/elsewhere" || exit 2
expect 'through a link, from another folder' 0 "$words" '' ./review explain own.event
cd "$root" || exit 2

# A copy of the tree in which a proof is broken: no library, no answer
copy=$room/copy
mkdir -p "$copy/target"
cp -R hainscope-review crates crates.txt "$copy" && cp -R target/staticlib "$copy/target" || exit 2
cp -R rust "$copy" && rm -rf "$copy/rust/target"
sed -i 's/&& 12 + 2 \* requests/\&\& 11 + 2 * requests/' "$copy/crates/hainscope/src/reporting.rt"
holds 'an edit is made in a copy' test "$(diff -r crates "$copy/crates" | grep -c '^<')" = 1
expect 'an edit that breaks a proof stops it' 3 '' 'the library could not be proved' "$copy/hainscope-review" explain "$accident"
