#!/usr/bin/env bash
# Walks pages of `simback page` in chromium by real key presses, and compares what they say with `simback play`.
# Usage: tests/browser.sh [PART..], with PART one of
#   embed     the program holds the template as page/template.html has it
#   hostile   a page of a run whose texts would leave their places if they could
#   messages  a page of a program whose hosts send and show such texts; it needs `rt`, which builds it in some minutes
#   walk      pages of three examples; the program is $SIMBACK, or `simback` on the PATH
#   picture   no test: takes docs/page.png anew
# Without a PART it runs the first four. It installs chromium and node from Debian if they are not there, so it needs
# root and the network the first time. It is no part of the gate.
set -euo pipefail
cd "$(dirname "$0")/.."
parts=("$@")
[ $# -gt 0 ] || parts=(embed hostile messages walk)
folder=$(mktemp -d)
trap 'rm -rf "$folder"' EXIT

need() {                                  # need COMMAND: of the package with its name
    command -v "$1" > /dev/null || { apt-get update -qq && apt-get install -y -qq "$1" fonts-dejavu-core; } >&2
}
drive() {                                 # drive SCRIPT ARGUMENT..
    need chromium
    command -v node > /dev/null || need nodejs
    local flags=--no-warnings
    node -e 'process.exit(typeof WebSocket === "function" ? 0 : 1)' || flags+=' --experimental-websocket'
    # shellcheck disable=SC2086
    node $flags "$@"
}
pages() {                                 # pages EXAMPLE..
    program=${SIMBACK:-$(command -v simback)} || { echo "build simback first, or set SIMBACK" >&2; exit 2; }
    for name in "$@"; do
        "$program" page "${options[@]}" "examples/$name.play" > "$folder/$name.html"
    done
}
options=()
for part in "${parts[@]}"; do
    case $part in
        embed)
            page/embed.py --check
            echo "embed: the program holds the template" ;;
        hostile)
            drive tests/browser/hostile.mjs "$folder" ;;
        messages)
            mkdir "$folder/copy"
            tar -c --exclude=out crates.txt HANDLES crates | tar -x -C "$folder/copy"
            sed -i -f tests/browser/messages.sed "$folder/copy/crates/example_counter/src/lib.rt"
            title='</title><script>alert(1)</script>'
            (cd "$folder/copy/crates/example_play" && rt try -- page --title "$title") < examples/counted-twice.play > "$folder/messages.html"
            drive tests/browser/messages.mjs "$folder/messages.html" "$title" ;;
        walk)
            names=(torn-commit partition lossy-direction)
            pages "${names[@]}"
            drive tests/browser/walk.mjs "$program" "$folder" "${names[@]}" ;;
        picture)
            options=(--title "A torn commit" --watch "agree first unless 0")
            pages torn-commit
            drive tests/browser/picture.mjs "$folder/torn-commit.html#p=9" docs/page.png ;;
        *)
            sed -n '2,10s/^# //p' "$0" >&2
            exit 2 ;;
    esac
done
