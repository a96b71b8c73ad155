#!/usr/bin/env bash
# pages.sh: looks at the pages of events in a browser: what stands in them, that nothing is too wide, too small or too pale,
# that bars are as long as what they show, and that they can be printed. The pages are those of samples/events and of the
# shapes of rust/review/tests/shapes; PAGES_FOLDER names a folder with NAME.html and NAME.publisher.html instead. Each page
# is seen as it is, in a frame, and tests/pages.js looks into it from outside. CHROMIUM names another browser.
# pages.sh --picture FILE: makes a picture of the accident's page.
# pages.sh --browser: tells by its exit status whether there is a browser that starts.
set -u
unset CDPATH
case $#:${1:-} in
0: | 2:--picture | 1:--browser) ;;
*)
    echo 'usage: tests/pages.sh [--picture FILE | --browser]' >&2
    exit 2
    ;;
esac
# relative names are taken from where the user stands
folder=${PAGES_FOLDER:+$(realpath -m "$PAGES_FOLDER")}
picture=${2:+$(realpath -m "$2")}
cd "$(dirname "$0")/.." || exit 2
. tests/expect.sh
room=$(mktemp -d) || exit 2
trap 'rm -rf "$room"' EXIT

# prints the browser that there is
find_browser() {
    local name
    if [ -n "${CHROMIUM:-}" ]; then
        command -v "$CHROMIUM"
        return
    fi
    for name in chromium chromium-browser google-chrome; do
        if command -v "$name"; then
            return
        fi
    done
    return 1
}

if ! browser=$(find_browser); then
    [ "${1:-}" != --browser ] || exit 1
    if [ -n "${CHROMIUM:-}" ]; then
        echo "CHROMIUM names no program: $CHROMIUM" >&2
        exit 2
    fi
    echo 'no browser is installed: the pages are not looked at in one'
    exit 0
fi

# browse FLAG... FILE: the browser on a file, with nobody before it; what it says of itself is not shown
browse() {
    timeout 120 "$browser" --headless=new --no-sandbox --disable-gpu --disable-dev-shm-usage --hide-scrollbars \
        --user-data-dir="$room/profile" --virtual-time-budget=10000 "$@" 2>/dev/null
}

if [ "${1:-}" = --browser ]; then
    browse --dump-dom about:blank | grep -q '<html'
    exit
fi

# write_sample NAME: both pages of a sample
write_sample() {
    ./hainscope-review page "samples/events/$1.event" >"$folder/$1.html" &&
        ./hainscope-review page --for-publisher "samples/events/$1.event" >"$folder/$1.publisher.html"
}

# writes the pages, where no folder has them already
write_pages() {
    local event
    folder=$room/pages
    mkdir "$folder" || exit 2
    cargo run --quiet --manifest-path rust/Cargo.toml --release --offline -p review --example pages "$folder" || exit 2
    for event in samples/events/*.event; do
        event=$(basename "$event" .event)
        holds "$event: its pages are written" write_sample "$event"
        holds "$event: it is known what stands in it" grep -q "^$event: " tests/pages.expected
    done
}

# frame_pages SCHEME NAME...: a file with a frame for each page, and the script that looks at them
frame_pages() {
    local scheme=$1 name
    shift
    printf '<!DOCTYPE html><html lang="en" data-scheme="%s"><head><meta charset="utf-8">' "$scheme"
    printf '<meta name="color-scheme" content="light dark"><style>iframe{border:0;height:900px;width:1000px}</style></head><body>'
    for name; do
        printf '<iframe title="%s" srcdoc="' "$name"
        sed 's/&/\&amp;/g; s/"/\&quot;/g' "$folder/$name.html"
        printf '"></iframe>\n'
    done
    printf '<script>'
    cat tests/pages.js
    printf '</script></body></html>\n'
}

# findings SCHEME NAME...: what the browser finds in the pages, in light, dark, or for a picture
findings() {
    local flags=() scheme=$1
    if [ "$scheme" = dark ]; then
        flags=(--blink-settings=preferredColorScheme=0)
    fi
    frame_pages "$@" >"$room/$scheme.html"
    browse "${flags[@]}" --window-size=1100,1000 --dump-dom "file://$room/$scheme.html" |
        sed -n '/<pre id="findings">/,/<\/pre>/p' | sed '1d; /<\/pre>/d; s/&lt;/</g; s/&gt;/>/g; s/&amp;/\&/g'
}

# look SCHEME: looks at all pages, and sees to it that all were looked at
look() {
    findings "$1" "${pages[@]}" >"$room/$1.findings"
    grep -vE '^[^:]*: fact |^looked at ' "$room/$1.findings"
    expect "all pages are looked at in $1" 0 "looked at ${#pages[@]}" '' tail -n 1 "$room/$1.findings"
}

# found NAME: what the browser found to stand in a page
found() { sed -n "s/^$1: fact //p" "$room/light.findings"; }

# known NAME: what stands in the page of a name, and what a publisher sees of it
known() { sed -n "s/^$1: //p" tests/pages.expected; }
known_to_publishers() { known "$1" | grep -vE '^(budget|bar|host|requests) '; }

# has_no_pictures NAME: a page without any
has_no_pictures() { ! grep -q '<svg' "$folder/$1.html"; }

# is_printed NAME: the page becomes a document of one sheet or more
is_printed() {
    browse --no-pdf-header-footer --print-to-pdf="$room/$1.pdf" "file://$folder/$1.html" >/dev/null
    [ "$(head -c 5 "$room/$1.pdf")" = '%PDF-' ] && grep -aq '/Type /Page\b' "$room/$1.pdf"
}

# take_picture FILE: the accident's page down to the end of its budgets
take_picture() {
    local height
    height=$(findings picture accident | sed -n 's/^accident: picture //p')
    [ -n "$height" ] && browse --window-size="900,$height" --screenshot="$1" "file://$folder/accident.html" >/dev/null
}

if [ -n "$picture" ]; then
    [ -n "$folder" ] || write_pages >/dev/null
    take_picture "$picture"
    exit
fi
[ -n "$folder" ] || write_pages
pages=()
for page in "$folder"/*.html; do
    [ ! -f "$page" ] || pages+=("$(basename "$page" .html)")
done
if [ "${#pages[@]}" -eq 0 ]; then
    echo "no pages are in $folder" >&2
    exit 2
fi

look light
look dark
for page in "${pages[@]}"; do
    name=${page%.publisher}
    if [ "$page" != "$name" ]; then
        holds "$page: it has no pictures" has_no_pictures "$page"
    fi
    if ! grep -q "^$name: " tests/pages.expected; then
        continue
    fi
    if [ "$page" = "$name" ]; then
        expect "$page: what stands in it" 0 "$(known "$name")" '' found "$page"
        holds "$page: it is printed" is_printed "$page"
    else
        expect "$page: what stands in it" 0 "$(known_to_publishers "$name")" '' found "$page"
    fi
done
