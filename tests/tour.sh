#!/usr/bin/env bash
# Runs each command of docs/TOUR.md, in its order, and compares what it prints with the page.
# The programs must be built, as README.md and the page say. It is no part of the gate.
set -euo pipefail
cd "$(dirname "$0")/.."
page=$PWD/docs/TOUR.md
export PATH="$PWD/crates/simback/out:$PWD/crates/example_play/out:$PATH"
for program in simback example_play; do
    command -v "$program" > /dev/null || { echo "build $program first" >&2; exit 2; }
done
folder=$(mktemp -d)
trap 'rm -rf "$folder"' EXIT
cp -r examples "$folder/examples"
cd "$folder"

# A block that begins with ```toml NAME is the file NAME. A block ```text has commands after `$ `, each with its output.
block='' command='' wanted='' count=0
compare() {
    [ -n "$command" ] || return 0
    local got
    got=$(bash -c "$command" 2>&1) || true
    count=$((count + 1))
    if [ "$got" != "${wanted%$'\n'}" ]; then
        printf '$ %s\nthe page says:\n%s\nthe program says:\n%s\n' "$command" "$wanted" "$got" >&2
        exit 1
    fi
    command='' wanted=''
}
while IFS= read -r line; do
    case "$block:$line" in
        :'```toml '*) block=file name=${line#'```toml '}; : > "$name" ;;
        :'```text'*) block=text ;;
        :*) ;;
        text:'```') compare; block='' ;;
        file:'```') block='' ;;
        file:*) printf '%s\n' "$line" >> "$name" ;;
        text:'$ '*) compare; command=${line#'$ '} ;;
        text:*) wanted+=$line$'\n' ;;
    esac
done < "$page"
echo "$count commands of the tour print what the page says"
