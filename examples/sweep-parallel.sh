#!/usr/bin/env bash
# Sweeps in pieces with GNU parallel, on this machine or on many by ssh, and prints the answer of
# the whole, as `simback sweep --json` would: the least seed of all pieces, or null.
#
#   examples/sweep-parallel.sh FIRST COUNT PIECE EVENTS COND < INPUT
#
# FIRST, COUNT, EVENTS, COND and INPUT are those of `simback sweep`; PIECE is how many seeds one
# run of simback takes. Set SIMBACK to the program if it is not on the PATH of each machine, and
# PARALLEL to options of GNU parallel, such as '--sshloginfile machines --jobs 4'.
#
# Exit status: 0 with an answer; 1 or 2 where simback refuses the request; 5 where a piece got no
# answer after three tries. The answer is not known then, and nothing is printed.
set -euo pipefail

if [ $# -ne 5 ]; then
    sed -n '2,13s/^# \{0,1\}//p' "$0" >&2
    exit 2
fi
first=$1 count=$2 piece=$3 events=$4 cond=$5
for number in "$first" "$count" "$piece" "$events"; do
    if ! [[ $number =~ ^(0|[1-9][0-9]{0,17})$ ]]; then
        echo "sweep-parallel: '$number' is no whole number of at most 18 digits" >&2
        exit 2
    fi
done
if ((count == 0 || piece == 0)); then
    echo "sweep-parallel: COUNT and PIECE are at least 1" >&2
    exit 2
fi
simback=${SIMBACK:-simback}

# The input lies at the same path on each machine: parallel copies it there.
folder=$(mktemp -d "${TMPDIR:-/tmp}/simback-sweep.XXXXXX")
workers=
stop() {
    [ -z "$workers" ] || kill -TERM "$workers" 2>/dev/null || true
    [ -z "$workers" ] || kill -TERM "$workers" 2>/dev/null || true
    rm -rf "$folder"
}
trap stop EXIT
cat >"$folder/input"
cd "$folder"

# One seed shows whether simback takes the request at all. Its refusal is the answer.
if answer=$("$simback" sweep --json "$first" 1 "$events" "$cond" <input); then
    status=0
else
    status=$?
fi
if ((status == 1 || status == 2)); then
    [ -z "$answer" ] || printf '%s\n' "$answer"
    exit "$status"
elif ((status != 0)); then
    echo "sweep-parallel: $simback ended with status $status" >&2
    exit 5
fi

# Each piece prints its number and its answer on one line, once it has ended well. A piece that was
# killed is tried again, and parallel drops what it had printed.
pieces=$(((count + piece - 1) / piece))
printf -v quoted '%q ' "$simback" sweep --json
printf -v asked '%q %q' "$events" "$cond"
run="start=\$(($first + {} * $piece)); left=\$(($count - {} * $piece));
size=\$((left < $piece ? left : $piece));
answer=\$($quoted --workers 1 \$start \$size $asked <input) && echo {} \$answer"
mkfifo answers
seq 0 $((pieces - 1)) |
    parallel --no-notice --retries 3 --workdir "$folder" ${PARALLEL:+--basefile input --cleanup} "$run" >answers &
workers=$!

# A piece counts once. The answer is known when some piece has found a seed and each piece before
# it has ended, or when all have.
found='"place":([0-9]+|null),"seed":([0-9]+|null)[}]$'
declare -A ended=()
next=0 least=$pieces place=null seed=null
while ((next < least)) && read -r number line; do
    [ -z "${ended[$number]:-}" ] && [[ $line =~ $found ]] || continue
    ended[$number]=yes
    if [ "${BASH_REMATCH[2]}" != null ] && ((number < least)); then
        least=$number place=${BASH_REMATCH[1]} seed=${BASH_REMATCH[2]}
    fi
    while [ -n "${ended[$next]:-}" ]; do
        next=$((next + 1))
    done
done <answers

if ((next < least)); then
    echo "sweep-parallel: piece $next of $pieces got no answer" >&2
    exit 5
fi
printf '{"count":%s,"events":%s,"first":%s,"place":%s,"seed":%s}\n' \
    "$count" "$events" "$first" "$place" "$seed"
