#!/usr/bin/env bash
# What the three policies accept, and what they cost, on one deck: 40 items on three disks, 4 updaters with 250 updates each,
# 20 cycles with 50 commits after each start, 8 readers with 10 queries each.
# Usage: bench/policies.sh [RUNS]. Prints a row a policy: verdicts by kind, bytes of the tape, and the median of the runs' times.
set -u
cd "$(dirname "$0")/.." || exit 1
runs=${1:-9}
source bench/program.sh

# deck POLICY: the deck above, judged by the policy
deck() {
    awk -v policy="$1" 'BEGIN {
        for (i = 0; i < 40; i++) printf "item,%d,%d,%d\n", i, 100 + i, 40 - i
        print "disk,4,4"; print "disk,12,2"; print "disk,24,1"
        for (u = 0; u < 4; u++) for (k = 0; k < 250; k++) {
            a = (10 * u + k) % 40; b = (a + 1) % 40
            printf "update,%d,%d,%d=%d+1\n", u, a, b, a
        }
        for (r = 0; r < 8; r++) print "reader,0,0,3"
        for (r = 0; r < 8; r++) for (q = 0; q < 10; q++) printf "query,%d,%d %d %d\n", r, (r + q) % 40, (r + q + 13) % 40, (r + q + 26) % 40
        printf "script"; mark = ","
        for (c = 0; c < 20; c++) { printf "%ss", mark; mark = " "; for (k = 0; k < 50; k++) printf " %d", (50 * c + k) % 4 }
        printf "\nset,policy,%s\n", policy
    }'
}

printf '%-8s %8s %8s %10s %10s %14s\n' policy accept abort unfinished bytes milliseconds
for policy in F D R; do
    deck "$policy" >"$scratch/deck.csv"
    "$program" script "$scratch/deck.csv" "$scratch/tape" >"$scratch/report" || exit 1
    time=$(median "$program" script "$scratch/deck.csv" "$scratch/tape")
    printf '%-8s %8s %8s %10s %10s %11s.%02d\n' "$policy" "$(grep -c '^accept' "$scratch/report")" "$(grep -c '^abort' "$scratch/report")" \
        "$(grep -c '^unfinished' "$scratch/report")" "$(wc -c <"$scratch/tape")" $((time / 100)) $((time % 100))
done
