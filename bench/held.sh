#!/usr/bin/env bash
# How long `Held::clashes` takes with 1, 4 and 16 held reads over 64, 256 and 1,024 items, compared with a plain program that tests
# each held read in both directions. Usage: bench/held.sh [RUNS]. Prints a table in nanoseconds, each the median of the runs,
# and how many times as long as the plain program `clashes` takes. The program is bench/held.rt.txt.
set -u
cd "$(dirname "$0")/.." || exit 1
runs=${1:-11}
source bench/build.sh
build held air_base air_history held_reads column_check
median() { awk -v column="$1" '{ print $column }' | sort -n | awk '{ times[NR] = $1 } END { print times[int((NR + 1) / 2)] / 100 }'; }
for _ in $(seq "$runs"); do "$program" || exit 1; done >"$scratch/times"
printf '%6s %6s %10s %10s %10s\n' items held clashes plain ratio
for items in 64 256 1024; do
    for held in 1 4 16; do
        grep "^$items $held " "$scratch/times" >"$scratch/of"
        printf '%s %s %s %s\n' "$items" "$held" "$(median 3 <"$scratch/of")" "$(median 4 <"$scratch/of")"
    done
done | awk '{ printf "%6d %6d %10.2f %10.2f %10.2f\n", $1, $2, $3, $4, $3 / $4 }'
