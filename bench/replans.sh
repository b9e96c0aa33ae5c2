#!/usr/bin/env bash
# How long `script` with its tape and `tune` of that tape take, and how much memory, where the program changes over: 256 items on three disks, 1,000
# cycles, 800 updates, 8 and 64 readers, each with room for 16 copies, and 0, 1 and 16 replans, the last of them in cycle 961 (with one: in 501). A replan cuts
# the items into the same disks in another order, so that each cycle has 352 slots, in every edition.
# Usage: bench/replans.sh [RUNS]. With BEFORE set to a program that knows no replans, the decks without one are timed with it, too.
# Prints a row for each deck and command: the median of the runs and the least in milliseconds, the bytes of the tape, and the most memory in kilobytes (a dash
# where GNU time is missing). Then a line for each aim, with what was found: with no replan at most 3 per cent slower than before, with 16 at
# most 10 per cent slower than with none, and with 64 readers and 16 replans less than 64 MB. Its status is 1 where one is missed.
set -u
cd "$(dirname "$0")/.." || exit 1
runs=${1:-9}
source bench/program.sh
missed=0
declare -A least_of peak_of

# deck READERS REPLANS: the deck
deck() {
    flat 256 800 1000 "$1" | awk -v replans="$2" '
        /^disk/ { print "disk,16,4"; print "disk,48,2"; print "disk,192,1"; next }
        /^reader/ { print "reader,16,9,3"; next }
        { print }
        END {
            for (k = 1; k <= replans; k++)
                print "replan," (replans == 1 ? 501 : 60 * k + 1) "," (k % 2 ? "48 16 192,2 4 1" : "16 48 192,4 2 1")
        }'
}

# peak COMMAND..: the most memory of a command
peak() {
    if [ -x /usr/bin/time ]; then /usr/bin/time -f %M "$@" 2>&1 >/dev/null | tail -n 1; else echo -; fi
}

# row NAME COMMAND..: a row of the table; what it has is kept by the name
row() {
    local name=$1 median least
    shift
    read -r median least < <(times "$@")
    least_of[$name]=$least peak_of[$name]=$(peak "$@")
    printf '%-40s %12s %12s %12s %10s\n' "$name" "$median" "$least" "$(stat -c %s "$scratch/air.tape")" "${peak_of[$name]}"
}

# both READERS REPLANS: the rows of a deck
both() {
    deck "$1" "$2" >"$scratch/deck.csv"
    row "script, $1 readers, $2 replans" "$program" script "$scratch/deck.csv" "$scratch/air.tape"
    row "tune, $1 readers, $2 replans" "$program" tune "$scratch/deck.csv" "$scratch/air.tape"
    if [ "$2" = 0 ] && [ -n "${BEFORE:-}" ]; then
        row "script, $1 readers, before" "$BEFORE" script "$scratch/deck.csv" "$scratch/air.tape"
        row "tune, $1 readers, before" "$BEFORE" tune "$scratch/deck.csv" "$scratch/air.tape"
    fi
    rm -f "$scratch/air.tape"
}

# aim WHAT FOUND WANTED: whether the number that was found is at most the one that is wanted
aim() {
    local told=met
    awk -v found="$2" -v wanted="$3" 'BEGIN { exit !(found + 0 <= wanted + 0) }' || { told=missed missed=1; }
    printf '%s: %s of at most %s: %s\n' "$1" "$2" "$3" "$told"
}

# slower NAME OTHER PERCENT: whether the least time of a row is at most that much above the other's
slower() {
    aim "$1 beside $2, milliseconds" "${least_of[$1]}" "$(awk -v t="${least_of[$2]}" -v more="$3" 'BEGIN { printf "%.2f", t * (100 + more) / 100 }')"
}

printf '%-40s %12s %12s %12s %10s\n' command milliseconds least bytes kilobytes
for readers in 8 64; do
    for replans in 0 1 16; do both "$readers" "$replans"; done
done

echo
for readers in 8 64; do
    for command in script tune; do
        none="$command, $readers readers, 0 replans"
        [ -z "${BEFORE:-}" ] || slower "$none" "$command, $readers readers, before" 3
        slower "$command, $readers readers, 16 replans" "$none" 10
    done
done
[ -n "${BEFORE:-}" ] || echo 'skipped: BEFORE names no program, so nothing is compared with before'
if [ "${peak_of['script, 64 readers, 16 replans']}" = - ]; then
    echo 'skipped: GNU time is missing, so memory is not measured'
else
    for command in script tune; do aim "$command of 64 readers and 16 replans, kilobytes" "${peak_of["$command, 64 readers, 16 replans"]}" 64000; done
fi
exit "$missed"
