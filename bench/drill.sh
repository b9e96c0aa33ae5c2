#!/usr/bin/env bash
# How long `drill 1 40` and `drill 1 100` take, on 1, 2 and 4 processors: the whole run of the built program, from its start to
# its end, with the deck that it makes, the script, which is heard without its tape, and the eight readers' ethers.
# Usage: bench/drill.sh [RUNS]. Prints a row for each size and number of processors, with the median and the least of the runs.
set -u
cd "$(dirname "$0")/.." || exit 1
runs=${1:-15}
source bench/program.sh

printf '%-12s %10s %20s %12s\n' drill processors median-milliseconds least
for size in 40 100; do
    on_processors "$program" drill 1 "$size" | while read -r count median least; do printf '%-12s %10d %20s %12s\n' "1 $size" "$count" "$median" "$least"; done
done
