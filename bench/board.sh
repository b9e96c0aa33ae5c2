#!/usr/bin/env bash
# How long `Board::apply` takes on boards of 64, 256 and 1,024 items, with updates of four reads and two writes.
# Usage: bench/board.sh [RUNS]. Prints a table; each time is the median of the runs. The program is bench/board.rt.txt.
set -u
cd "$(dirname "$0")/.." || exit 1
runs=${1:-11}
source bench/build.sh
build board air_base air_history control_matrix
printf '%6s %17s\n' items nanoseconds
for _ in $(seq "$runs"); do "$program"; done | sort -k1,1n -k2,2n | awk '
    { times[$1, ++count[$1]] = $2; if (count[$1] == 1) order[++sizes] = $1 }
    END { for (s = 1; s <= sizes; s++) { n = order[s]; printf "%6d %17d\n", n, times[n, int((count[n] + 1) / 2)] } }'
