#!/usr/bin/env bash
# Tests of the header and of the C example: both are built without a warning against the archive, and say what the
# samples and document 01 say.
set -u
unset CDPATH
cd "$(dirname "$0")/.." || exit 2
. tests/expect.sh
room=$(mktemp -d) || exit 2
trap 'rm -rf "$room"' EXIT
archive=target/staticlib/libhainscope.a

bash rust/archive.sh >/dev/null || exit 2

# build SOURCE: the program of one C file and the archive
build() { cc -std=c99 -Wall -Wextra -Werror -I include "$1" "$archive" -o "$room/$(basename "$1" .c)"; }

expect 'the example is built' 0 '' '' build examples/explain.c
expect 'a program of every call is built' 0 '' '' build tests/every_call.c
if command -v c++ >/dev/null; then
    expect 'the header is C++ too' 0 '' '' c++ -Wall -Wextra -Werror -fsyntax-only -x c++ include/hainscope.h
else
    echo 'no C++ compiler is installed: the header is tried in C alone'
fi

exported() { nm --defined-only --extern-only "$archive" | sed -n 's/.* T //p' | sort; }
declared() { grep -o '\bhainscope_[a-z_]*(' include/hainscope.h | tr -d '(' | sort; }
expect 'the header declares what the archive exports' 0 "$(exported)" '' declared

# spoken FILE: what the example says on the reports, from the lines of the program
spoken() {
    awk '$1 == "refused" { print "refused with " $2 " at byte " $3; next }
        { printf "preferred %s: status %s, count %s, requests:", $1 == "relax" ? "relaxation" : $1, $2, $3 }
        { for (i = 5; i <= NF; i++) printf " %s", $i; print $4 == 0 ? " none" : "" }' "$1"
}

# explain NAME: what the example says on the reports of a sample
explain() { "$room/explain" "samples/$1.table" | sed '/^all .* requests together: /d'; }

for table in samples/*.table; do
    name=$(basename "$table" .table)
    expect "the example on $name" 0 "$(spoken "samples/$name.expected")" '' explain "$name"
done
expect 'the example on all requests' 0 'all 4 requests together: cannot stand' '' sed 1q <("$room/explain" <samples/h.table)
expect 'the example refuses' 1 'refused with 9 at byte 86' '' "$room/explain" samples/h-damaged.table
expect 'the example without a table' 2 '' 'samples/none.table' "$room/explain" samples/none.table

every_call='read 0 0
body 0 78 8
can_stand 0 0 1
can_stand 11 0 0
conflict 0 19 EE 0E 00 10 00 01 00 08 00 00 00 03 00 02 00 04 00 03 00 EE EE EE
relaxation 0 19 EE 0E 00 11 00 01 00 04 00 00 00 03 00 02 00 04 00 01 00 EE EE EE
conflict_one_by_one 0 20 EE EE 0E 00 10 00 01 00 06 00 00 00 03 00 02 00 04 00 03 00 EE EE
relaxation_one_by_one 0 20 EE EE 0E 00 11 00 01 00 06 00 00 00 03 00 02 00 04 00 01 00 EE EE
conflict 12 0 EE EE EE EE EE EE EE EE EE EE EE EE EE EE EE EE EE EE EE EE EE EE'
expect 'every call on h' 0 "$every_call" '' "$room/every_call" <samples/h.table
