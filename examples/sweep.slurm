#!/usr/bin/env bash
#SBATCH --job-name=simback-sweep
#SBATCH --cpus-per-task=1
#SBATCH --output=/dev/null
# One piece of a sweep for each task of a job array of Slurm. Task i takes the PIECE seeds from
# FIRST + i * PIECE on, and writes the answer, a line of JSON, to the file FOLDER/i once it has
# ended well.
#
#   mkdir answers
#   sbatch --array=0-99 examples/sweep.slurm FIRST PIECE EVENTS COND INPUT answers
#   examples/sweep-least.sh answers 100
#
# INPUT and FOLDER are paths that all machines of the cluster see. A task that died is started
# again by its number; it writes the same file.
set -euo pipefail

if [ $# -ne 6 ]; then
    echo "usage: sbatch --array=0-N sweep.slurm FIRST PIECE EVENTS COND INPUT FOLDER" >&2
    exit 2
fi
first=$1 piece=$2 events=$3 cond=$4 input=$5 folder=$6
number=$SLURM_ARRAY_TASK_ID
start=$((first + number * piece))

"${SIMBACK:-simback}" sweep --json --workers "${SLURM_CPUS_PER_TASK:-1}" \
    "$start" "$piece" "$events" "$cond" "$input" >"$folder/.$number"
mv "$folder/.$number" "$folder/$number"
