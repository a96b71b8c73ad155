#!/usr/bin/env bash
# Each table of samples/ makes the program print what stands beside it, with the exit status that belongs to it.
set -u
unset CDPATH
cd "$(dirname "$0")/.." || exit 2
. tests/expect.sh

./hainscope samples/h.table >/dev/null 2>&1 # builds it where nothing is built yet

for table in samples/*.table; do
    expected=$(cat "${table%.table}.expected")
    status=0
    [[ $expected != 'refused '* ]] || status=1
    expect "$table" "$status" "$expected" '' ./hainscope "$table"
done
