#!/usr/bin/env bash
# How long `audit` takes over real files: 20,000 commits with 2,422 lines of verdicts, and 300 commits with 160,000, under each
# policy. Each update adds nothing to what it reads, so all values are right, and a line is judged up to the first read that doesn't pass.
# Usage: bench/audit.sh [RUNS]. Prints a row for each policy and report, with the median and the least of the runs.
set -u
cd "$(dirname "$0")/.." || exit 1
runs=${1:-5}
source bench/program.sh

# deck POLICY COMMITS: 64 items, an updater with this many updates of four reads and two writes, eight readers with four queries each
deck() {
    awk -v policy="$1" -v u="$2" 'BEGIN {
        n = 64
        for (i = 0; i < n; i++) printf "item,%d,%d,1\n", i, i * 1000003
        printf "disk,%d,1\n", n
        for (k = 0; k < u; k++) {
            a = (k * 7) % n; b = (a + 1 + k % 5) % n; c = (a + 11) % n; d = (a + 23) % n
            printf "update,0,%d %d %d %d,%d=%d+0 %d=%d+0\n", a, b, c, d, a, a, c, c
        }
        for (q = 0; q < 8; q++) {
            printf "reader,0,0,16\n"
            for (k = 0; k < 4; k++) printf "query,%d,%d %d %d\n", q, (q * 5 + k) % n, (q * 5 + k + 9) % n, (q * 5 + k + 30) % n
        }
        printf "set,policy,%s\n", policy
    }'
}

# report COMMITS LINES: a start after each hundredth of the commits, and this many accepts whose reads are of rising cycles
report() {
    awk -v u="$1" -v lines="$2" 'BEGIN {
        n = 64; cycles = 100
        for (k = 0; k < u; k++) {
            if (k % int(u / cycles) == 0) printf "start\n"
            printf "commit,0,%d\n", k
        }
        for (l = 0; l < lines; l++) {
            q = l % 8; k = int(l / 8) % 4; c = 1 + l % (cycles - 2)
            printf "accept,%d,%d,1,", q, k
            a = (q * 5 + k) % n; b = (a + 9) % n; d = (a + 30) % n
            printf "%d@%d=%d %d@%d=%d %d@%d=%d\n", a, c, a * 1000003, b, c + 1, b * 1000003, d, c + 2, d * 1000003
        }
    }'
}

printf '%-8s %8s %8s %20s %12s\n' policy commits lines median-milliseconds least
for policy in F D R; do
    for size in '20000 2422' '300 160000'; do
        read -r commits lines <<<"$size"
        deck "$policy" "$commits" >"$scratch/deck.csv"
        report "$commits" "$lines" >"$scratch/report.csv"
        read -r median least < <(times "$program" audit "$scratch/deck.csv" "$scratch/report.csv")
        printf '%-8s %8d %8d %20s %12s\n' "$policy" "$commits" "$lines" "$median" "$least"
    done
done
