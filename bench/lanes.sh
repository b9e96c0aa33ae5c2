#!/usr/bin/env bash
# How long the kernels of `air_lanes` take for a row of 8, 64, 256, 1,024 and 65,535 entries, compared with a plain loop and with a
# plain copy of the row. Usage: bench/lanes.sh [RUNS]. Prints a table in nanoseconds, each the median of the runs, and how fast
# the kernel is compared with the copy. The program is bench/lanes.rt.txt.
set -u
cd "$(dirname "$0")/.." || exit 1
runs=${1:-5}
source bench/build.sh
build lanes air_lanes
median() { awk -v column="$1" '{ print $column }' | sort -n | awk '{ times[NR] = $1 } END { print times[int((NR + 1) / 2)] / 100 }'; }
for _ in $(seq "$runs"); do "$program"; done >"$scratch/times"
printf '%-16s %7s %10s %10s %10s %10s\n' kernel entries kernel loop copy speed
for kernel in max_into stamp first_not_below; do
    for length in 8 64 256 1024 65535; do
        grep "^$kernel $length " "$scratch/times" >"$scratch/of"
        printf '%s %s %s %s %s\n' "$kernel" "$length" "$(median 3 <"$scratch/of")" "$(median 4 <"$scratch/of")" "$(median 5 <"$scratch/of")"
    done
done | awk '{ printf "%-16s %7d %10.2f %10.2f %10.2f %9.0f%%\n", $1, $2, $3, $4, $5, 100 * $5 / $3 }'
