#!/usr/bin/env bash
# How long `PixCache::keep` and `PixCache::get` take at rooms 8, 64 and 256 over 512 items. Each keep is of a newcomer that finds
# room or takes that of the least copy, with the drop of a copy to come; `replace` is a keep of an item that has one. Compared with them
# is a bare copy of a column. Usage: bench/kept.sh [RUNS]. Prints a table in nanoseconds, each the median of the runs. The
# program is bench/kept.rt.txt.
set -u
cd "$(dirname "$0")/.." || exit 1
runs=${1:-11}
source bench/build.sh
build kept air_base pix_cache
median() { awk -v column="$1" '{ print $column }' | sort -n | awk '{ times[NR] = $1 } END { print times[int((NR + 1) / 2)] / 100 }'; }
for _ in $(seq "$runs"); do "$program" || exit 1; done >"$scratch/times"
printf '%6s %10s %10s %10s %10s\n' room keep replace get copy
for room in 8 64 256; do
    grep "^$room " "$scratch/times" >"$scratch/of"
    printf '%6d %10.2f %10.2f %10.2f %10.2f\n' "$room" "$(median 2 <"$scratch/of")" "$(median 3 <"$scratch/of")" "$(median 4 <"$scratch/of")" "$(median 5 <"$scratch/of")"
done
