#!/usr/bin/env bash
# On made tables the program prints what the second program prints, with the exit status that belongs to it. The tables
# come in groups, and each group is a test. The functions of ./hainscope are called as it calls them itself, but for the
# check of the sources, which is made once and not for each table.
set -u
unset CDPATH
cd "$(dirname "$0")/.." || exit 2
. tests/expect.sh
. ./hainscope
room=$(mktemp -d) || exit 2
trap 'rm -rf "$room"' EXIT
write=(cargo run --quiet --manifest-path rust/Cargo.toml --release --offline -p expected_lines)

# answer_file TABLE: as ./hainscope TABLE
answer_file() (
    open_input "$1"
    answer
)

# agrees TABLE: the program prints the lines that stand beside a table; where it does not, both are shown
agrees() {
    local table=$1 expected=${1%.table}.expected status=0 seen_status
    ! grep -q '^refused ' "$expected" || status=1
    answer_file "$table" >"$room/printed" 2>&1
    seen_status=$?
    if [ "$seen_status" != "$status" ] || ! cmp -s "$room/printed" "$expected"; then
        printf '%s differs\nthe program, with status %s:\n' "${table#"$room/"}" "$seen_status"
        cat "$room/printed"
        printf 'the second program, to which status %s belongs:\n' "$status"
        cat "$expected"
        return 1
    fi
}

# all_agree GROUP: the program agrees with the second program on each table of a group
all_agree() {
    local table status=0
    for table in "$1"/*.table; do
        agrees "$table" || status=1
    done
    [ "$status" = 0 ] || printf 'these tables are written by: %s target/made\n' "${write[*]}"
    return $status
}

build
"${write[@]}" "$room/made" || exit 2
for group in "$room"/made/*; do
    tables=("$group"/*.table)
    holds "${group##*/}, ${#tables[@]} tables" all_agree "$group"
done
