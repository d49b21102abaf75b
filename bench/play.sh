#!/usr/bin/env bash
# Measures how many lines of a script `simback play` answers in a second, on inputs of 60,000 lines.
# The program must be built: ./build.py
set -euo pipefail
cd "$(dirname "$0")/.."
program=crates/simback/out/simback
[ -x "$program" ] || { echo "build $program first" >&2; exit 2; }
folder=$(mktemp -d)
trap 'rm -rf "$folder"' EXIT

# One server and 31 clients of 1,000 operations each: 62,032 steps can happen.
scenario() {
    cat <<'TEXT'
format = 1
seed = "0000000000000000000000000000000000000000000000000000000000000000"
protocol = "echo"
tick = 100
latency_min = 10
latency_max = 20
loss = 0
servers = ["s"]
checkpoint = 1024
window = 4096
TEXT
    for i in $(seq 31); do
        printf '[[client]]\nname = "c%s"\nops = 1000\n' "$i"
    done
    echo ---
}

# lines COUNT LINE..: the lines in turn, so many in all
lines() {
    local count=$1
    shift
    yes "$(printf '%s\n' "$@")" | head -n "$count" || true
}

measure() {
    local name=$1 start end answered
    start=$(date +%s%N)
    "$program" play < "$folder/input" > "$folder/output"
    end=$(date +%s%N)
    answered=$(wc -l < "$folder/output")
    echo "$name: $answered lines, $((answered * 1000000000 / (end - start))) a second, the last: $(tail -n 1 "$folder/output")"
}

{ scenario; lines 60000 look; } > "$folder/input"
measure "look"
{ scenario; lines 60000 step; } > "$folder/input"
measure "step"
{ scenario; lines 60000 step look; } > "$folder/input"
measure "step, look"
{ scenario; lines 60000 step 'back 0'; } > "$folder/input"
measure "step, back 0"
{ scenario; lines 30000 step; lines 30000 'back 1'; } > "$folder/input"
measure "30,000 step, 30,000 back 1"
