#!/usr/bin/env bash
# How long `split` takes over real files, and how much memory: 256 items on eight disks, with frequencies 1, and with 8 down to 1.
# Usage: bench/split.sh [RUNS]. Prints a table; each time is the median of the runs and the least, the memory the peak that GNU time
# tells (a dash where it is not installed). The aim is 30 ms, in less than 16 MB.
set -u
cd "$(dirname "$0")/.." || exit 1
runs=${1:-15}
source bench/program.sh

# eight NAME FREQUENCIES: a row for 256 items on eight disks of these frequencies
eight() {
    local name=$1 median least peak=-
    awk -v freqs="$2" 'BEGIN {
        for (i = 0; i < 256; i++) printf "item,%d,0,%d\n", i, (i * 37) % 101
        split(freqs, f); for (d = 1; d <= 8; d++) printf "disk,32,%d\n", f[d]
    }' >"$scratch/split.csv"
    read -r median least < <(times "$program" split "$scratch/split.csv")
    [ -x /usr/bin/time ] && peak=$(/usr/bin/time -f %M "$program" split "$scratch/split.csv" 2>&1 >/dev/null | tail -n 1)
    printf '%-20s %8s %8s %10s\n' "$name" "$median" "$least" "$peak"
}

printf '%-20s %8s %8s %10s\n' frequencies ms least peak-KiB
eight 'eight times 1' '1 1 1 1 1 1 1 1'
eight '8 down to 1' '8 7 6 5 4 3 2 1'
