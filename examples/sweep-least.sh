#!/usr/bin/env bash
# Prints the answer of a sweep that ran in pieces of one size, as `simback sweep --json` would over
# all its seeds.
#
#   examples/sweep-least.sh FOLDER PIECES
#
# FOLDER holds the answer of piece i in the file i, for i from 0 to PIECES - 1, as
# examples/sweep.slurm writes them: a line of `simback sweep --json`. If pieces before the least
# seed have no answer yet, the least seed is not known: then their numbers go to standard error,
# with commas between them as sbatch's --array takes them, and the status is 5.
set -euo pipefail

if [ $# -ne 2 ] || ! [[ $2 =~ ^[1-9][0-9]{0,8}$ ]]; then
    echo "usage: sweep-least.sh FOLDER PIECES" >&2
    exit 2
fi
folder=$1 pieces=$2

digits='([0-9]+)' found='([0-9]+|null)'
answer='^[{]"count":'$digits',"events":'$digits',"first":'$digits',"place":'$found',"seed":'$found'[}]$'
missing= place=null seed=null
for ((number = 0; number < pieces; number++)); do
    if [ ! -f "$folder/$number" ]; then
        missing+=,$number
        continue
    fi
    read -r line <"$folder/$number" || true
    if ! [[ $line =~ $answer ]]; then
        echo "sweep-least: $folder/$number has no answer of simback sweep --json" >&2
        exit 2
    fi
    if ((number == 0)); then
        count=$((BASH_REMATCH[1] * pieces)) events=${BASH_REMATCH[2]} first=${BASH_REMATCH[3]}
    fi
    if [ "${BASH_REMATCH[5]}" != null ]; then
        place=${BASH_REMATCH[4]} seed=${BASH_REMATCH[5]}
        break
    fi
done
if [ -n "$missing" ]; then
    echo "${missing#,}" >&2
    exit 5
fi
printf '{"count":%s,"events":%s,"first":%s,"place":%s,"seed":%s}\n' \
    "$count" "$events" "$first" "$place" "$seed"
