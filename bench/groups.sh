#!/usr/bin/env bash
# How long `script` takes by groups, how much memory, and how many attempts end in an abort: 256 items in 1,000 cycles with three updates a cycle and 8
# readers, with groups of 0, 1, 8 and 256 items; and 1,024 items of version 2 in 900 cycles with groups of 0, 8 and 1,024. Then `audit` of 1,000 verdict lines over 10,000
# commits, with groups of 0, 8 and 1,024.
# Usage: bench/groups.sh [RUNS].
# Prints a row for each: the median of the runs and the least in milliseconds, the most memory in kilobytes (a dash where GNU time is missing), and the
# aborts. Then a line for each aim, with what was found: an audit by groups takes at most ten times as long as one without, and a run by groups takes at
# most one board's room more (4 bytes for each pair of items). Its status is 1 where one is missed.
set -u
cd "$(dirname "$0")/.." || exit 1
runs=${1:-5}
source bench/program.sh
missed=0
declare -A least_of peak_of

# peak COMMAND..: the most memory of a command
peak() {
    if [ -x /usr/bin/time ]; then /usr/bin/time -f %M "$@" 2>&1 >/dev/null | tail -n 1; else echo -; fi
}

# row NAME COMMAND..: a row of the table; what it has is kept by the name
row() {
    local name=$1 median least
    shift
    read -r median least < <(times "$program" "$@")
    least_of[$name]=$least peak_of[$name]=$(peak "$program" "$@")
    printf '%-36s %12s %12s %10s %8s\n' "$name" "$median" "$least" "${peak_of[$name]}" "$("$program" "$@" | grep -c '^abort\|^differs')"
}

# aim WHAT FOUND WANTED: whether the number that was found is at most the one that is wanted
aim() {
    local told=met
    awk -v found="$2" -v wanted="$3" 'BEGIN { exit !(found + 0 > 0 && found + 0 <= wanted + 0) }' || { told=missed missed=1; }
    printf '%s: %s of at most %s: %s\n' "$1" "$2" "$3" "$told"
}

# deck ITEMS CYCLES COMMITS READERS QUERIES: a deck of a flat disk whose updaters write one item each, some of what they read another
deck() {
    awk -v n="$1" -v cycles="$2" -v each="$3" -v readers="$4" -v queries="$5" 'BEGIN {
        for (i = 0; i < n; i++) print "item," i "," i ",1"
        print "disk," n ",1"
        for (k = 0; k < each * cycles; k++) print "update,0," (k * 7) % n "," (k * 13 + 5) % n "=" (k * 7) % n "+1"
        for (r = 0; r < readers; r++) {
            print "reader,0,0,16"
            for (q = 0; q < queries; q++) print "query," r "," (r * 31 + q * 17) % n " " (r * 31 + q * 17 + n / 2) % n " " (r * 31 + q * 17 + n - 3) % n
        }
        line = ""
        for (c = 0; c < cycles; c++) { line = line "s "; for (k = 0; k < each; k++) line = line "0 "; if (c % 100 == 99 || c == cycles - 1) { sub(/ $/, "", line); print "script," line; line = "" } }
    }'
}

printf '%-36s %12s %12s %10s %8s\n' command milliseconds least kilobytes aborts
for group in 0 1 8 256; do
    { deck 256 1000 3 8 100 && echo "set,group,$group"; } >"$scratch/deck.csv"
    row "script, 256 items, group $group" script "$scratch/deck.csv"
done
for group in 0 8 1024; do
    { deck 1024 900 3 8 100 && printf 'set,version,2\nset,group,%s\n' "$group"; } >"$scratch/deck.csv"
    row "script, 1024 items, group $group" script "$scratch/deck.csv"
done
for group in 0 8 1024; do
    { deck 1024 500 20 8 125 && printf 'set,version,2\nset,group,%s\n' "$group"; } >"$scratch/deck.csv"
    "$program" script "$scratch/deck.csv" | awk '/^(accept|abort|aged|unfinished)/ { if (++lines > 1000) next } { print }' >"$scratch/report.csv"
    row "audit, 10000 commits, group $group" audit "$scratch/deck.csv" "$scratch/report.csv"
done

echo
for group in 8 1024; do
    aim "audit by groups of $group, milliseconds" "${least_of["audit, 10000 commits, group $group"]}" "$(awk -v t="${least_of['audit, 10000 commits, group 0']}" 'BEGIN { print 10 * t }')"
done
if [ "${peak_of['script, 256 items, group 0']}" = - ]; then
    echo 'skipped: GNU time is missing, so memory is not measured'
else
    for group in 8 256; do aim "script of 256 items by groups of $group, kilobytes" "${peak_of["script, 256 items, group $group"]}" "$((${peak_of['script, 256 items, group 0']} + 256))"; done
    for group in 8 1024; do aim "script of 1024 items by groups of $group, kilobytes" "${peak_of["script, 1024 items, group $group"]}" "$((${peak_of['script, 1024 items, group 0']} + 4096))"; done
fi
exit "$missed"
