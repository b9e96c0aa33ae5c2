#!/usr/bin/env bash
# How long `read_deck` takes, and how much memory, compared with a bare pass over the records of the same text.
# Usage: bench/catalog.sh [RUNS]. Prints a table; pass and deck are run in turns, and each time is the least of the runs, as
# other work on the machine only adds to it. Each memory is the peak of the process that GNU time tells (a dash where it is
# not installed), with that of reading the file alone before it. The program is bench/catalog.rt.txt.
set -u
cd "$(dirname "$0")/.." || exit 1
runs=${1:-9}
source bench/build.sh
build catalog air_base air_history air_model item_catalog csv

# deck UPDATES AMOUNT: 256 items, this many updates of sixteen reads and sixteen writes each, and 10,000 queries of sixteen items
deck() {
    awk -v u="$1" -v amount="$2" 'BEGIN {
        for (i = 0; i < 256; i++) printf "item,%d,%d,1\n", i, i
        printf "disk,256,1\nreader,0,0,1\n"
        for (k = 0; k < u; k++) {
            printf "update,%d,", k % 16
            for (j = 0; j < 16; j++) printf "%s%d", (j ? " " : ""), (k + 7 * j) % 256
            printf ","
            for (j = 0; j < 16; j++) printf "%s%d=%d%s%s", (j ? " " : ""), (k + 5 * j + 1) % 256, (k + 7 * j) % 256, (j % 2 ? "-" : "+"), amount
            printf "\n"
        }
        for (k = 0; k < 10000; k++) {
            printf "query,0,"
            for (j = 0; j < 16; j++) printf "%s%d", (j ? " " : ""), (k + 3 * j) % 256
            printf "\n"
        }
    }'
}

# wide UPDATES: a deck of version 2 of 1,024 items, this many updates whose reads and writes are of items from 1,000 on, whose numbers have four digits
wide() {
    awk -v u="$1" 'BEGIN {
        printf "set,version,2\n"
        for (i = 0; i < 1024; i++) printf "item,%d,%d,1\n", i, i
        printf "disk,1024,1\nreader,0,0,1\n"
        for (k = 0; k < u; k++) {
            printf "update,%d,", k % 16
            for (j = 0; j < 16; j++) printf "%s%d", (j ? " " : ""), 1000 + (k + j) % 24
            printf ","
            for (j = 0; j < 16; j++) printf "%s%d=%d%s12", (j ? " " : ""), 1000 + (k + j) % 24, 1000 + (k + j) % 24, (j % 2 ? "-" : "+")
            printf "\n"
        }
        printf "query,0,0\n"
    }'
}

# fill FILE BYTES: as many line ends at the end of the file, which are no records, as it lacks of these bytes
fill() {
    head -c $(($2 - $(wc -c <"$1"))) /dev/zero | tr '\0' '\n' >>"$1"
}

# least TIME SO_FAR: the lesser of the two, where there is one so far
least() {
    if [ -n "$2" ] && [ "$2" -le "$1" ]; then echo "$2"; else echo "$1"; fi
}

# peak WHAT FILE: the KiB that the process took at most
peak() {
    if [ -x /usr/bin/time ]; then /usr/bin/time -f %M "$program" "$1" "$2" 2>&1 >/dev/null | tail -n 1; else echo -; fi
}

# row NAME FILE: a line of the table
row() {
    local bare= deck=
    for _ in $(seq "$runs"); do
        bare=$(least "$("$program" records "$2")" "$bare")
        deck=$(least "$("$program" deck "$2")" "$deck")
    done
    printf '%-38s %10s %9d.%03d %9d.%03d %5d.%02d %10s %10s %10s\n' "$1" "$(wc -c <"$2")" \
        $((bare / 1000)) $((bare % 1000)) $((deck / 1000)) $((deck % 1000)) $((deck / bare)) $((deck * 100 / bare % 100)) \
        "$(peak bytes "$2")" "$(peak records "$2")" "$(peak deck "$2")"
}

printf '%-38s %10s %13s %13s %8s %10s %10s %10s\n' deck bytes 'pass, ms' 'read_deck, ms' times 'file, KiB' 'pass, KiB' 'deck, KiB'
for updates in 25000 50000 100000; do
    deck "$updates" 12 >"$scratch/deck.csv"
    row "$updates updates, amounts of 2 digits" "$scratch/deck.csv"
done
deck 100000 123456789 >"$scratch/deck.csv"
row '100000 updates, amounts of 9 digits' "$scratch/deck.csv"
deck 100000 18446744073709551615 >"$scratch/deck.csv"
row '100000 updates, amounts of 20 digits' "$scratch/deck.csv"
fill "$scratch/deck.csv" 67108864
row 'the same, filled up to 67108864 bytes' "$scratch/deck.csv"
wide 50000 >"$scratch/deck.csv"
row '50000 updates of items from 1,000 on' "$scratch/deck.csv"
