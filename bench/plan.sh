#!/usr/bin/env bash
# How long `Program::plan` takes: on a deck of 256 items on eight disks whose program has 16,384 slots, and on 100 random
# decks. Usage: bench/plan.sh [RUNS]. Prints a table; each time is the median of the runs, for 100 plans of the first deck
# and for a plan of each random deck. The program is bench/plan.rt.txt.
set -u
cd "$(dirname "$0")/.." || exit 1
runs=${1:-11}
source bench/build.sh
build plan item_catalog chunk_program
if ! "$program" >/dev/null; then
    echo "the program could not read or plan its decks"
    exit 1
fi
printf '%-8s %6s %9s %13s\n' decks plans slots microseconds
for _ in $(seq "$runs"); do "$program"; done | sort -k1,1 -k4,4n | awk '
    { rows[$1, ++count[$1]] = $0; if (count[$1] == 1) order[++sizes] = $1 }
    END { for (s = 1; s <= sizes; s++) { n = order[s]; split(rows[n, int((count[n] + 1) / 2)], part, " ")
        printf "%-8s %6d %9d %13d\n", part[1], part[2], part[3], part[4] } }'
