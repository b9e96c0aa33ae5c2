#!/usr/bin/env bash
# How long `run` takes, with and without monitors: the deck of 40 items on three disks with 1,000 updates and 20 cycles; and a
# flat one of 256 items, 4 updaters, 20,000 updates and 1,000 cycles, compared with a plain copy of its tape.
# Usage: bench/run.sh [RUNS]. Prints a row a deck and number of monitors: the median of the runs' times, with the commits and the
# bytes of the tape, and how many of each that is a second.
set -u
cd "$(dirname "$0")/.." || exit 1
runs=${1:-9}
source bench/program.sh

# deck ITEMS UPDATES CYCLES MONITORS: UPDATES updates of each of four updaters, eight readers of ten queries; three disks where
# there are 40 items, else one
deck() {
    awk -v n="$1" -v each="$2" -v cycles="$3" -v monitors="$4" 'BEGIN {
        for (i = 0; i < n; i++) printf "item,%d,%d,%d\n", i, 100 + i, n - i
        if (n == 40) { print "disk,4,4"; print "disk,12,2"; print "disk,24,1" } else printf "disk,%d,1\n", n
        for (u = 0; u < 4; u++) for (k = 0; k < each; k++) {
            a = (10 * u + k) % n; b = (a + 1) % n
            printf "update,%d,%d,%d=%d+1\n", u, a, b, a
        }
        for (r = 0; r < 8; r++) print "reader,4,8,3"
        for (r = 0; r < 8; r++) for (q = 0; q < 10; q++) printf "query,%d,%d %d %d\n", r, (r + q) % n, (r + q + 13) % n, (r + q + 26) % n
        printf "set,cycles,%d\nset,monitors,%d\nset,seed,7\nset,loss,5\nset,again,3\nset,late,10\n", cycles, monitors
    }'
}

# row NAME COMMITS COMMAND..: a row of the table
row() {
    local name=$1 commits=$2 time bytes
    shift 2
    time=$(median "$@")
    bytes=$(wc -c <"$scratch/run.tape")
    [ "$time" -gt 0 ] || time=1
    printf '%-44s %9s.%02d %8s %12s %12s %8s\n' "$name" $((time / 100)) $((time % 100)) "$commits" "$bytes" $((commits * 100000 / time)) $((bytes / 10 / time))
}

printf '%-44s %12s %8s %12s %12s %8s\n' command milliseconds commits bytes commits/s MB/s
for monitors in 0 4; do
    deck 40 250 20 "$monitors" >"$scratch/deck.csv"
    row "run: 40 items, 20 cycles, monitors: $monitors" 1000 "$program" run "$scratch/deck.csv" "$scratch/run.tape"
done
for monitors in 0 4; do
    deck 256 5000 1000 "$monitors" >"$scratch/deck.csv"
    row "run: 256 items, 1,000 cycles, monitors: $monitors" 20000 "$program" run "$scratch/deck.csv" "$scratch/run.tape"
done
row 'a plain copy of that tape' 0 cp "$scratch/run.tape" "$scratch/copy.tape"
