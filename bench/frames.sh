#!/usr/bin/env bash
# How many looks a second four monitors make next to a publisher, and how much they slow it down, with frames of 16, 64 and 256
# items. Usage: bench/frames.sh [RUNS]. Prints a table; each figure is the median of the runs: batches of two commits a second,
# made and published, alone and next to the monitors, and the looks a second of all four. The program is bench/frames.rt.txt.
set -u
cd "$(dirname "$0")/.." || exit 1
runs=${1:-11}
source bench/build.sh
build frames cycle_snapshot cycle_snapshot_tests
printf '%6s %15s %16s %9s %10s\n' items 'alone, /s' 'beside, /s' slowdown looks/s
for _ in $(seq "$runs"); do "$program"; done | awk '
    function median(list, n, i, j, t) {
        for (i = 1; i <= n; i++) for (j = i + 1; j <= n; j++) if (list[j] < list[i]) { t = list[i]; list[i] = list[j]; list[j] = t }
        return list[int((n + 1) / 2)]
    }
    { n = $1; k = ++count[n]; alone[n, k] = $2 * 1e9 / $3; beside[n, k] = $2 * 1e9 / $4; looks[n, k] = $5 * 1e9 / $4; if (k == 1) order[++sizes] = n }
    END {
        for (s = 1; s <= sizes; s++) {
            n = order[s]
            for (r = 1; r <= count[n]; r++) { a[r] = alone[n, r]; b[r] = beside[n, r]; l[r] = looks[n, r] }
            x = median(a, count[n]); y = median(b, count[n])
            printf "%6d %15d %16d %9.2f %10d\n", n, x, y, x / y, median(l, count[n])
        }
    }'
