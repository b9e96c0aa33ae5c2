#!/usr/bin/env bash
# How long `script` takes with and without an ether, on 1, 2 and 4 processors: 256 items on one flat disk, 800 updates, 1,000
# cycles, 8 readers with 4 queries each.
# Usage: bench/ethers.sh [RUNS]. Prints a row for each ether and number of processors, with the median of the runs.
set -u
cd "$(dirname "$0")/.." || exit 1
runs=${1:-5}
source bench/program.sh

# row NAME SETTING..: the rows of the deck with these records after it
row() {
    local name=$1
    shift
    { flat 256 800 1000 8; printf '%s\n' "$@"; } >"$scratch/deck.csv"
    on_processors "$program" script "$scratch/deck.csv" | while read -r count median _; do printf '%-32s %12d %14s\n' "$name" "$count" "$median"; done
}

printf '%-32s %12s %14s\n' ether processors milliseconds
row none set,seed,7
row '1 of 100 lost' set,seed,7 set,loss,1
row '10 lost, 10 twice, 30 late' set,seed,7 set,loss,10 set,again,10 set,late,30
