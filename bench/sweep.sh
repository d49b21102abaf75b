#!/usr/bin/env bash
# Measures how many events `simback sweep` runs in a second of one worker: with conditions of several
# forms, and with planned faults. Each row is the best of three.
# The program must be built: ./build.py
set -euo pipefail
cd "$(dirname "$0")/.."
program=crates/simback/out/simback
[ -x "$program" ] || { echo "build $program first" >&2; exit 2; }

# A register of three servers and two clients, whose work takes more than 400 events.
scenario() {
    cat <<'TEXT'
format = 2
seed = "0000000000000000000000000000000000000000000000000000000000000000"
protocol = "abd"
tick = 100
latency_min = 5
latency_max = 45
loss = 0
disk_latency = 20
servers = ["a", "b", "c"]
checkpoint = 64
window = 64
[[client]]
name = "w"
ops = 30
[[client]]
name = "x"
ops = 30
TEXT
}

# measure NAME COND OPTION..: events a second, 2,500 seeds of 400 events each
measure() {
    local name=$1 cond=$2 best=0 start end rate answer
    shift 2
    for _ in 1 2 3; do
        start=$(date +%s%N)
        answer=$(scenario | "$program" sweep --workers 1 "$@" 0 2500 400 "$cond")
        end=$(date +%s%N)
        [ "$answer" = none ] || { echo "$name: $answer" >&2; exit 1; }
        rate=$((1000000 * 1000000 / ((end - start) / 1000)))
        [ "$rate" -le "$best" ] || best=$rate
    done
    printf '%-28s %10d events a second\n' "$name" "$best"
}

measure comparison 'w.next <= 99'
measure 'and' 'w.next <= 99 and x.next <= 99'
measure 'or' 'w.next <= 99 and up a or x.next <= 99'
measure 'count' 'count num <= 999 >= 1'
measure 'count of another probe' 'count num <= w.next >= 0'
measure 'agree by' 'agree num by num unless 0'
measure 'planned steps' 'w.next <= 99' --quiet 1
measure 'faults, one in 50' 'w.next <= 99' --faults 50
