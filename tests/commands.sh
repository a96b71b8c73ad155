#!/usr/bin/env bash
# commands.sh PAGE...: runs the commands of the pages as they are printed, from the top folder. Each line of a block ```sh
# is a command, which must succeed; a block ```text is what the last command before it prints. Commands that the gate
# gives itself are not run a second time.
set -u
unset CDPATH HAINSCOPE_ARCHIVE_DIR
cd "$(dirname "$0")/.." || exit 2
. tests/expect.sh

# run_command COMMAND: runs a command, and keeps what it printed
printed=''
run_command() {
    local said
    if [ "$1" = 'bash .ci/run' ] || grep -qF -- "$1" .ci/run; then
        return
    fi
    said=$(mktemp)
    if printed=$(bash -c "$1" 2>"$said"); then
        echo "$1: ok"
    else
        echo "$1: failed"
        cat "$said"
    fi
    rm -f "$said"
}

# run_page PAGE: runs the commands of a page
run_page() {
    local block='' text='' line
    while IFS= read -r line <&3; do
        case $block:$line in
        ':```sh' | ':```text') block=${line#'```'} text='' ;;
        'sh:```') block='' ;;
        'text:```')
            block=''
            expect "$1 tells what that prints" 0 "$text" '' printf '%s\n' "$printed"
            ;;
        sh:*) run_command "$line" ;;
        text:*) text=$text${text:+$'\n'}$line ;;
        esac
    done 3<"$1"
}

for page; do
    run_page "$page"
done
