#!/usr/bin/env bash
# How many bytes a second `encode` writes and `decode` reads in version 1, compared with a plain copy of the same bytes: a million column buckets
# of 256 entries each; and how many entries a second `decode` looks at in version 1 and in version 2.
# Usage: bench/bucket.sh [RUNS]. Prints a line for each run. The program is bench/bucket.rt.txt.
set -u
cd "$(dirname "$0")/.." || exit 1
runs=${1:-5}
source bench/build.sh
build bucket air_base air_model bucket_codec byteorder
printf '%4s %14s %14s %14s %18s %18s\n' run encode decode copy 'version 1' 'version 2'
for run in $(seq "$runs"); do
    "$program" | awk -v run="$run" '{
        bytes = 1048 * 1000000
        printf "%4d %9.2f GB/s %9.2f GB/s %9.2f GB/s %8.2f entries/ns %8.2f entries/ns\n", run, bytes / $1 / 1000, bytes / $2 / 1000, bytes / $3 / 1000, 256000 / $2, 256000 / $4
    }'
done
