#!/usr/bin/env bash
# No line of a crate's .antt and .rt files is longer than 160 characters; tools/break_lines breaks those that are.
set -u
unset CDPATH
cd "$(dirname "$0")/.." || exit 2
. tests/expect.sh

# long_lines CRATE: prints FILE:LINE of each line that is longer
long_lines() {
    LC_ALL=C.UTF-8 grep -rnE '^.{161,}$' --include='*.antt' --include='*.rt' --exclude-dir=out "$1" | cut -d: -f1,2
}

for crate in crates/*; do
    expect "lines of $crate" 0 '' '' long_lines "$crate"
done
