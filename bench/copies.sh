#!/usr/bin/env bash
# What room for copies saves, on one deck: 40 items on three disks, 4 updaters with 25 updates each, 20 cycles with 5 commits
# after each start, 8 readers with 40 queries of three items each, one of each disk, whose copies are too old after ten cycles.
# Usage: bench/copies.sh. Prints a row a room: opened, dozed, late and copied of all readers, and verdicts by kind.
set -u
cd "$(dirname "$0")/.." || exit 1
source bench/program.sh

# deck ROOM: the deck above, with room for this many copies
deck() {
    awk -v room="$1" 'BEGIN {
        for (i = 0; i < 40; i++) printf "item,%d,%d,%d\n", i, 100 + i, 40 - i
        print "disk,4,4"; print "disk,12,2"; print "disk,24,1"
        for (u = 0; u < 4; u++) for (k = 0; k < 25; k++) {
            a = (10 * u + 3 * k) % 40; b = (a + 1) % 40
            printf "update,%d,%d,%d=%d+1\n", u, a, b, a
        }
        for (r = 0; r < 8; r++) printf "reader,%d,10,3\n", room
        for (r = 0; r < 8; r++) for (q = 0; q < 40; q++) printf "query,%d,%d %d %d\n", r, (r + q) % 4, 4 + (r + 3 * q) % 12, 16 + (3 * r + 7 * q) % 24
        printf "script"; mark = ","
        for (c = 0; c < 20; c++) { printf "%ss", mark; mark = " "; for (k = 0; k < 5; k++) printf " %d", (5 * c + k) % 4 }
        print ""
    }'
}

# sum FIELD: that field of the counts of all readers
sum() { awk -F, -v field="$1" '$1 == "counts" { n += $field } END { print n + 0 }' "$scratch/report"; }

printf '%-6s %8s %8s %8s %8s %8s %8s %10s\n' room opened dozed late copied accept abort unfinished
for room in 0 2 8 40; do
    deck "$room" >"$scratch/deck.csv"
    "$program" script "$scratch/deck.csv" >"$scratch/report" || exit 1
    printf '%-6s %8s %8s %8s %8s %8s %8s %10s\n' "$room" "$(sum 3)" "$(sum 4)" "$(sum 5)" "$(sum 8)" \
        "$(grep -c '^accept' "$scratch/report")" "$(grep -c '^abort' "$scratch/report")" "$(grep -c '^unfinished' "$scratch/report")"
done
