#!/usr/bin/env bash
# How many bytes a second a cycle of 256 items is aired into a mast that gathers a tape, compared with a plain copy of as many bytes.
# Usage: bench/airing.sh [RUNS]. Prints a table; each figure is the median of the runs: `anew` where one tape of 1,000
# cycles takes memory that was never touched, `again` where each cycle has its own tape. The program is bench/airing.rt.txt.
set -u
cd "$(dirname "$0")/.." || exit 1
runs=${1:-11}
source bench/build.sh
build airing air_base air_history air_model control_matrix item_catalog chunk_program air_sender
printf '%-12s %12s\n' memory 'GB a second'
for _ in $(seq "$runs"); do "$program"; done | sort -k1,1 -k2,2 -k3,3n | awk '
    { name = $1 " " $2; times[name, ++count[name]] = $3; if (count[name] == 1) order[++names] = name }
    END { for (s = 1; s <= names; s++) { n = order[s]; printf "%-12s %12.2f\n", n, 269312 / times[n, int((count[n] + 1) / 2)] } }'
