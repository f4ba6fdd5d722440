#!/bin/sh
#SBATCH --job-name=sygus
#SBATCH --output=/dev/null
#SBATCH --ntasks=1
#SBATCH --cpus-per-task=1
#SBATCH --time=08:00:00
# Runs sygus on many problems as an array of Slurm jobs:
#
#     ls problems/*.sl >list.txt
#     sbatch --array=1-20 examples/slurm.sh PROGRAM list.txt results [OPTIONS OF SYGUS]
#
# Each of the 20 jobs takes every twentieth file of the list. Of the file in line K the folder has K.out, K.err and
# K.status, which is the status (124 where its time was up) and the file. A second call does what isn't done yet.
# SYGUS_SECONDS is the time of each file, 60 without it. How many ended by which status, and which files have no answer:
#
#     cut -d ' ' -f 1 results/*.status | sort | uniq -c
#     grep -hv '^0 ' results/*.status
set -u
if [ $# -lt 3 ] || [ -z "${SLURM_ARRAY_TASK_ID-}" ]; then
    echo "usage: sbatch --array=1-N examples/slurm.sh PROGRAM LIST RESULTS [OPTIONS OF SYGUS]" >&2
    exit 3
fi
program=$1 list=$2 results=$3
shift 3
mkdir -p "$results" || exit 5
total=$(($(wc -l <"$list"))) || exit 4
place=$SLURM_ARRAY_TASK_ID
while [ "$place" -le "$total" ]; do
    if [ ! -e "$results/$place.status" ]; then
        file=$(sed -n "${place}p" "$list")
        timeout "${SYGUS_SECONDS:-60}" "$program" "$@" -- "$file" \
            >"$results/$place.out" 2>"$results/$place.err" </dev/null
        echo "$? $file" >"$results/$place.status.new" && mv "$results/$place.status.new" "$results/$place.status"
    fi
    place=$((place + SLURM_ARRAY_TASK_COUNT))
done
