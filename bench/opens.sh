#!/usr/bin/env bash
# The table of "What nobody opens" in bench/README.md: how long the commands take in which most of what is aired is opened by nobody, compared with
# an unproved program that prints the same bytes. Its milliseconds are written here, since it isn't in the repository: they are of another day.
# Usage: bench/opens.sh [RUNS] [WORDS]. Prints a row for each work whose name has the WORDS (default: all): the other program's milliseconds, the
# median and the least of the runs, how many times the other's the least is, and the aim. With COUNT=1 a row has the other program's milliseconds, and
# the millions of instructions of one run by callgrind, which don't depend on other work. Counting all rows takes half an hour or more.
set -u
cd "$(dirname "$0")/.." || exit 1
runs=${1:-5}
words=${2:-}
source bench/program.sh

# deck CYCLES READERS QUERIES: 256 items, the first 49 aired four times a cycle, 800 updates; each reader has as many queries
deck() {
    flat 256 800 "$1" 0 | awk -v readers="$2" -v queries="$3" '
        /^disk/ { print "disk,49,4"; print "disk,207,1"; next }
        /^script/ {
            for (r = 0; r < readers; r++) {
                print "reader,0,0,3"
                for (k = 0; k < queries; k++) printf "query,%d,%d %d %d\n", r, (r * 5 + k) % 256, (r * 5 + k + 9) % 256, (r * 5 + k + 30) % 256
            }
        }
        { print }'
    echo set,seed,7
}
ethers() { printf '%s\n' set,loss,10 set,again,10 set,late,30; }

# jobs: a deck of a run, on the same disks: four updaters with 5,000 updates each, eight readers of ten queries over an ether
jobs() {
    awk 'BEGIN {
        n = 256
        for (i = 0; i < n; i++) printf "item,%d,%d,%d\n", i, 100 + i, n - i
        print "disk,49,4"; print "disk,207,1"
        for (u = 0; u < 4; u++) for (k = 0; k < 5000; k++) { a = (10 * u + k) % n; printf "update,%d,%d,%d=%d+1\n", u, a, (a + 1) % n, a }
        for (r = 0; r < 8; r++) print "reader,4,8,3"
        for (r = 0; r < 8; r++) for (q = 0; q < 10; q++) printf "query,%d,%d %d %d\n", r, (r + q) % n, (r + q + 13) % n, (r + q + 26) % n
        print "set,cycles,1000"; print "set,seed,7"; print "set,loss,5"; print "set,again,3"; print "set,late,10"
    }'
}

# judged COMMITS: a deck of 64 items for an audit; lines COMMITS LINES: its report
judged() {
    awk -v u="$1" 'BEGIN {
        n = 64
        for (i = 0; i < n; i++) printf "item,%d,%d,1\n", i, i * 1000003
        printf "disk,%d,1\n", n
        for (k = 0; k < u; k++) { a = (k * 7) % n; c = (a + 11) % n; printf "update,0,%d %d %d %d,%d=%d+0 %d=%d+0\n", a, (a + 1 + k % 5) % n, c, (a + 23) % n, a, a, c, c }
        for (q = 0; q < 8; q++) { print "reader,0,0,16"; for (k = 0; k < 4; k++) printf "query,%d,%d %d %d\n", q, (q * 5 + k) % n, (q * 5 + k + 9) % n, (q * 5 + k + 30) % n }
    }'
}
lines() {
    awk -v u="$1" -v lines="$2" 'BEGIN {
        n = 64
        for (k = 0; k < u; k++) { if (k % int(u / 100) == 0) print "start"; printf "commit,0,%d\n", k }
        for (l = 0; l < lines; l++) {
            q = l % 8; k = int(l / 8) % 4; c = 1 + l % 98; a = (q * 5 + k) % n; b = (a + 9) % n; d = (a + 30) % n
            printf "accept,%d,%d,1,%d@%d=%d %d@%d=%d %d@%d=%d\n", q, k, a, c, a * 1000003, b, c + 1, b * 1000003, d, c + 2, d * 1000003
        }
    }'
}

# row NAME UNPROVED AIM COMMAND..: a row of the table
row() {
    local name=$1 unproved=$2 aim=$3 median least
    shift 3
    case $name in *"$words"*) ;; *) return ;; esac
    if [ -n "${COUNT:-}" ]; then
        valgrind --tool=callgrind --callgrind-out-file=/dev/null "$@" 2>"$scratch/count" >/dev/null
        printf '%-64s %9s %12s\n' "$name" "$unproved" "$(awk '/Collected/ { printf "%.1f", $4 / 1e6 }' "$scratch/count")"
        return
    fi
    read -r median least < <(times "$@")
    awk -v name="$name" -v u="$unproved" -v m="$median" -v l="$least" -v aim="$aim" 'BEGIN { printf "%-64s %9s %9.1f %9.1f %7.1f %5s\n", name, u, m, l, l / u, aim }'
}

if [ -n "${COUNT:-}" ]; then
    command -v valgrind >/dev/null || { echo 'skipped: valgrind is missing, so nothing is counted'; exit 0; }
    printf '%-64s %9s %12s\n' work unproved instructions
else
    printf '%-64s %9s %9s %9s %7s %5s\n' work unproved median least times aim
fi
deck 1000 8 4 >"$scratch/few.csv"
{ cat "$scratch/few.csv"; ethers; } >"$scratch/lost.csv"
{ deck 1000 64 150; ethers; } >"$scratch/many.csv"
row 'script, 256 items, 1,000 cycles, 8 readers over ethers' 14 3 "$program" script "$scratch/lost.csv"
row 'the same script without ethers' 18 3 "$program" script "$scratch/few.csv"
row 'the same script, 64 readers, 9,600 queries, ethers' 34 3 "$program" script "$scratch/many.csv"
row 'the same script with its tape of 424 MB' 222 2 "$program" script "$scratch/few.csv" "$scratch/air.tape"
rm -f "$scratch/air.tape"
jobs >"$scratch/jobs.csv"
row 'run, 256 items, 1,000 cycles, tape of 424 MB' 224 2 "$program" run "$scratch/jobs.csv" "$scratch/air.tape"
deck 609 8 4 >"$scratch/tune.csv"
tune='tune, 258 MB, 8 readers'
[[ $tune != *"$words"* ]] || "$program" script "$scratch/tune.csv" "$scratch/air.tape" >/dev/null || exit 1
row "$tune" 101 1.5 "$program" tune "$scratch/tune.csv" "$scratch/air.tape"
rm -f "$scratch/air.tape"
row 'drill 1 40' 1.6 3 "$program" drill 1 40
row 'drill 1 100' 3.5 3 "$program" drill 1 100
for size in '20000 2422 27' '300 160000 102'; do
    read -r commits count unproved <<<"$size"
    judged "$commits" >"$scratch/judged.csv"
    lines "$commits" "$count" >"$scratch/report.csv"
    row "audit, $commits commits, $count lines" "$unproved" 3 "$program" audit "$scratch/judged.csv" "$scratch/report.csv"
done
awk 'BEGIN {
    for (i = 0; i < 256; i++) printf "item,%d,0,%d\n", i, (i * 37) % 101
    split("64 32 16 8 4 2 1 1", f); for (d = 1; d <= 8; d++) printf "disk,32,%d\n", f[d]
}' >"$scratch/plan.csv"
row 'process start' 0.9 - "$program" --version
row 'plan, 8 disks' 1.5 - "$program" plan "$scratch/plan.csv"
