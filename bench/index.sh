#!/usr/bin/env bash
# How long `beam` takes compared with `script` with its tape, and `seek` compared with a bare pass over the file, and how much memory: 256 items on three disks, 352 slots
# a cycle, 602 cycles, one reader. The last item is sought from record 0 on, and from the last record on.
# Usage: bench/index.sh [RUNS].
# Prints a row for each command: the median of the runs and the least in milliseconds, the bytes of the tape, and the most memory in kilobytes (a dash
# where GNU time is missing). Then a line for each aim, with what was found: `beam` takes at most 1.2 times as long as `script` and less than 32 MB, `seek` at
# most twice as long as `cksum`, which reads each byte of the file once, and less than 24 MB. Its status is 1 where one is missed.
set -u
cd "$(dirname "$0")/.." || exit 1
runs=${1:-9}
source bench/program.sh
missed=0
declare -A least_of peak_of

# peak COMMAND..: the most memory of a command
peak() {
    if [ -x /usr/bin/time ]; then /usr/bin/time -f %M "$@" 2>&1 >/dev/null | tail -n 1; else echo -; fi
}

# row NAME TAPE COMMAND..: a row of the table; what it has is kept by the name
row() {
    local name=$1 tape=$2 median least
    shift 2
    read -r median least < <(times "$@")
    least_of[$name]=$least peak_of[$name]=$(peak "$@")
    printf '%-30s %12s %12s %12s %10s\n' "$name" "$median" "$least" "$(stat -c %s "$tape")" "${peak_of[$name]}"
}

# aim WHAT FOUND WANTED: whether the number that was found is at most the one that is wanted
aim() {
    local told=met
    awk -v found="$2" -v wanted="$3" 'BEGIN { exit !(found + 0 <= wanted + 0) }' || { told=missed missed=1; }
    printf '%s: %s of at most %s: %s\n' "$1" "$2" "$3" "$told"
}

# slower NAME OTHER TIMES: whether the least time of a row is at most this many times the other's
slower() {
    aim "$1 beside $2, milliseconds" "${least_of[$1]}" "$(awk -v t="${least_of[$2]}" -v times="$3" 'BEGIN { printf "%.2f", t * times }')"
}

flat 256 800 602 1 | awk '/^disk/ { print "disk,16,4"; print "disk,48,2"; print "disk,192,1"; next } { print }' >"$scratch/deck.csv"
printf '%-30s %12s %12s %12s %10s\n' command milliseconds least bytes kilobytes
row script "$scratch/air.tape" "$program" script "$scratch/deck.csv" "$scratch/air.tape"
row beam "$scratch/indexed.tape" "$program" beam "$scratch/deck.csv" "$scratch/indexed.tape"
last=$("$program" beam "$scratch/deck.csv" "$scratch/indexed.tape" | awk -F, '{ print $2 - 1 }')
row 'seek from record 0' "$scratch/indexed.tape" "$program" seek "$scratch/indexed.tape" 255 0
row 'seek from the last record' "$scratch/indexed.tape" "$program" seek "$scratch/indexed.tape" 255 "$last"
row cksum "$scratch/indexed.tape" cksum "$scratch/indexed.tape"

echo
slower beam script 1.2
for name in 'seek from record 0' 'seek from the last record'; do slower "$name" cksum 2; done
if [ "${peak_of[beam]}" = - ]; then
    echo 'skipped: GNU time is missing, so memory is not measured'
else
    aim 'beam, kilobytes' "${peak_of[beam]}" 32000
    for name in 'seek from record 0' 'seek from the last record'; do aim "$name, kilobytes" "${peak_of[$name]}" 24000; done
fi
exit "$missed"
