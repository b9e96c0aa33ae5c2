#!/usr/bin/env bash
# How long the commands take over real files, and how much memory.
# Usage: bench/commands.sh [RUNS]. Prints a table; each time is the median of the runs, the memory the peak that GNU time
# tells (a dash where it is not installed), and the speed that of the bytes read or written, compared with a plain copy of as many.
set -u
cd "$(dirname "$0")/.." || exit 1
runs=${1:-5}
source bench/program.sh

# row NAME BYTES COMMAND..: a row of the table; with bytes above 0 also their speed
row() {
    local name=$1 bytes=$2 time peak=- speed=-
    shift 2
    time=$(median "$@")
    [ -x /usr/bin/time ] && peak=$(/usr/bin/time -f %M "$@" 2>&1 >/dev/null | tail -n 1)
    [ "$bytes" -gt 0 ] && [ "$time" -gt 0 ] && speed=$((bytes / 10 / time))
    printf '%-44s %9s.%02d %10s %12s %8s\n' "$name" $((time / 100)) $((time % 100)) "$peak" "$bytes" "$speed"
}

printf '%-44s %12s %10s %12s %8s\n' command milliseconds peak-KiB bytes MB/s
for double in 1 2 4; do
    flat 64 $((400 * double)) $((40 * double)) 8 >"$scratch/flat.csv"
    row "script: 64 items, $((400 * double)) updates, $((40 * double)) starts, 8 readers" 0 "$program" script "$scratch/flat.csv"
done
flat 256 200 200 8 >"$scratch/wide.csv"
"$program" script "$scratch/wide.csv" "$scratch/wide.tape" >/dev/null || exit 1
bytes=$(wc -c <"$scratch/wide.tape")
row 'script: 256 items, 200 starts, its tape' "$bytes" "$program" script "$scratch/wide.csv" "$scratch/wide.tape"
row 'a plain copy of that tape' "$bytes" cp "$scratch/wide.tape" "$scratch/copy.tape"
for readers in 1 8 64; do
    flat 256 0 952 "$readers" >"$scratch/tune.csv"
    [ -e "$scratch/tune.tape" ] || "$program" script "$scratch/tune.csv" "$scratch/tune.tape" >/dev/null || exit 1
    bytes=$(wc -c <"$scratch/tune.tape")
    row "tune: 256 items, 952 cycles, readers: $readers" "$bytes" "$program" tune "$scratch/tune.csv" "$scratch/tune.tape"
done
row 'reading that tape alone' "$bytes" cat "$scratch/tune.tape"
awk 'BEGIN {
    for (i = 0; i < 256; i++) printf "item,%d,0,%d\n", i, (i * 37) % 101
    split("64 32 16 8 4 2 1 1", f); for (d = 1; d <= 8; d++) printf "disk,32,%d\n", f[d]
}' >"$scratch/plan.csv"
row 'plan: 256 items, 8 disks' 0 "$program" plan "$scratch/plan.csv"
