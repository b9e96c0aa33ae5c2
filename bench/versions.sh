#!/usr/bin/env bash
# How long `script` with its tape and `tune` of that tape take, and how much memory, in both versions of a bucket: 64 and 256 items in 1,000
# cycles, and 1,024 items, which version 2 alone takes, in 900; one flat disk, 800 updates, 8 readers.
# Usage: bench/versions.sh [RUNS]. Prints a row for each deck and command: the median of the runs and the least in milliseconds, the bytes of the
# tape, and the most memory in kilobytes (a dash where GNU time is missing). Then a line for each aim, with what was found: the bytes of each
# tape, that version 2 takes no longer than version 1, and that `script` of 1,024 items takes less than 128 MB. Its status is 1 where one is missed.
set -u
cd "$(dirname "$0")/.." || exit 1
runs=${1:-5}
source bench/program.sh
missed=0
declare -A median_of bytes_of peak_of

# peak COMMAND..: the most memory of a command
peak() {
    if [ -x /usr/bin/time ]; then /usr/bin/time -f %M "$@" 2>&1 >/dev/null | tail -n 1; else echo -; fi
}

# row NAME COMMAND..: a row of the table; what it has is kept by the name
row() {
    local name=$1 median least
    shift
    read -r median least < <(times "$program" "$@")
    median_of[$name]=$median bytes_of[$name]=$(stat -c %s "$scratch/air.tape") peak_of[$name]=$(peak "$program" "$@")
    printf '%-36s %12s %12s %12s %10s\n' "$name" "$median" "$least" "${bytes_of[$name]}" "${peak_of[$name]}"
}

# both ITEMS VERSION CYCLES: the rows of a deck
both() {
    { flat "$1" 800 "$3" 8 && echo "set,version,$2"; } >"$scratch/deck.csv"
    row "script, $1 items, version $2" script "$scratch/deck.csv" "$scratch/air.tape"
    row "tune, $1 items, version $2" tune "$scratch/deck.csv" "$scratch/air.tape"
    rm -f "$scratch/air.tape"
}

# aim WHAT FOUND WANTED: whether the number that was found is at most the one that is wanted
aim() {
    local told=met
    awk -v found="$2" -v wanted="$3" 'BEGIN { exit !(found + 0 <= wanted + 0) }' || { told=missed missed=1; }
    printf '%s: %s of at most %s: %s\n' "$1" "$2" "$3" "$told"
}

# length DECK BYTES: whether a tape has the bytes that are wanted
length() {
    local found=${bytes_of["script, $1"]} told=met
    [ "$found" = "$2" ] || { told=missed missed=1; }
    printf 'tape, %s: %s bytes of %s: %s\n' "$1" "$found" "$2" "$told"
}

printf '%-36s %12s %12s %12s %10s\n' command milliseconds least bytes kilobytes
for items in 64 256; do
    for version in 1 2; do both "$items" "$version" 1000; done
done
both 1024 2 900

echo
length '64 items, version 1' 18176000
length '64 items, version 2' 5888000
length '256 items, version 1' 269312000
length '256 items, version 2' 72704000
length '1024 items, version 2' 969523200
for items in 64 256; do
    for command in script tune; do
        aim "$command of $items items, milliseconds of version 2" "${median_of["$command, $items items, version 2"]}" "${median_of["$command, $items items, version 1"]}"
    done
done
if [ "${peak_of['script, 1024 items, version 2']}" = - ]; then
    echo 'skipped: GNU time is missing, so memory is not measured'
else
    aim 'script of 1024 items, kilobytes' "${peak_of['script, 1024 items, version 2']}" 128000
fi
exit "$missed"
