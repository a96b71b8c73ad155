# What the tests of this folder are written with; they source it. A test prints 'NAME: ok' or 'NAME: failed', which the
# gate counts, and on a failure what was seen instead.

# expect NAME STATUS OUTPUT WORDS COMMAND...: the command ends with this exit status, prints this text, and says on
# standard error a line that holds these words, and nothing where there are none. It reads what expect is given to read.
expect() {
    local name=$1 status=$2 output=$3 words=$4 seen_status seen_output seen_errors said
    shift 4
    said=$(mktemp)
    seen_output=$("$@" 2>"$said")
    seen_status=$?
    seen_errors=$(cat "$said")
    rm -f "$said"
    if [ "$seen_status" = "$status" ] && [ "$seen_output" = "$output" ] && says "$words" "$seen_errors"; then
        echo "$name: ok"
    else
        printf '%s: failed\nstatus %s\n%s\n%s\n' "$name" "$seen_status" "$seen_output" "$seen_errors"
    fi
}

# says WORDS TEXT: the text holds the words, or there are neither
says() {
    if [ -z "$1" ]; then
        [ -z "$2" ]
    else
        [[ $2 == *"$1"* ]]
    fi
}

# holds NAME COMMAND...: the command succeeds
holds() {
    local name=$1
    shift
    if "$@"; then
        echo "$name: ok"
    else
        echo "$name: failed"
    fi
}

# from_input FILE COMMAND...: the command, with a file as its standard input
from_input() {
    local file=$1
    shift
    "$@" <"$file"
}

# the command with a closed input, with a closed output, and with an output that takes nothing
without_input() { "$@" <&-; }
without_output() { "$@" >&-; }
to_full_output() { "$@" >/dev/full; }
