#!/usr/bin/env bash
# How many casts of 2,400 buckets of 1,048 bytes a listener on this machine hears whole, with the system's buffer as it is, and whether each
# listener ends: first with nothing next to them, then with two processes that take a processor each. The deck has 256 items on two disks, of
# which a cycle airs 44 twice, in 300 slots, and eight cycles; what a listener heard are its counts but the copies.
# Usage: bench/heard.sh [CASTS]. Prints a row for each: casts, those heard whole (aim: 99 of 100), the fewest buckets heard, listeners that
# ended, and how many milliseconds the casts took, as a median.
set -u
cd "$(dirname "$0")/.." || exit 1
runs=${1:-100}
source bench/program.sh
busy=()
trap 'for group in ${busy[@]+"${busy[@]}"}; do kill "$group" 2>/dev/null; done; rm -rf "$scratch"' EXIT

awk 'BEGIN {
    for (i = 0; i < 256; i++) printf "item,%d,%d,%d\n", i, i * 1000003, 256 - i
    print "disk,44,2\ndisk,212,1"
    for (k = 0; k < 1000; k++) printf "update,%d,%d,%d=%d+1\n", k % 4, k % 256, (k + 1) % 256, k % 256
    print "reader,0,0,3\nquery,0,0 100 255\nset,cycles,8"
}' >"$scratch/deck.csv"

# Into `port`, the first one from 4100 on at which no socket of this machine hears
find_port() {
    port=4100
    while is_heard "$port"; do port=$((port + 1)); done
}

# is_heard PORT: whether a socket of this machine hears there
is_heard() { grep -qs "$(printf ':%04X ' "$1")" /proc/net/udp /proc/net/udp6; }

# one: casts once to a listener, and prints how many buckets it heard, its status and the milliseconds of the cast
one() {
    local ear began ended status
    find_port
    timeout 120 "$program" listen "$scratch/deck.csv" "$port" >"$scratch/heard" 2>/dev/null &
    ear=$!
    until is_heard "$port" || ! kill -0 "$ear" 2>/dev/null; do sleep 0.01; done
    began=$EPOCHREALTIME
    "$program" cast "$scratch/deck.csv" "$port" >/dev/null || exit 1
    ended=$EPOCHREALTIME
    wait "$ear"
    status=$?
    awk -F , -v status="$status" -v took="$(((${ended/./} - ${began/./}) / 1000))" '
        /^counts,/ { heard = $3 + $4 + $5 + $6 + $7 } END { print heard + 0, status, took }' "$scratch/heard"
}

# row NAME: this many casts, and a row of what came of them
row() {
    for _ in $(seq "$runs"); do one; done | sort -n -k 3 | awk -v name="$1" '{
        whole += $1 == 2400; ended += $2 == 0; took[NR] = $3
        if (NR == 1 || $1 < least) least = $1
    } END { printf "%-20s %6d %6d %8d %6d %8d\n", name, NR, whole, least, ended, took[int((NR + 1) / 2)] }'
}

printf '%-20s %6s %6s %8s %6s %8s\n' beside casts whole fewest ended 'cast, ms'
row nothing
for _ in 1 2; do
    while :; do :; done &
    busy+=($!)
done
row 'two busy processes'
