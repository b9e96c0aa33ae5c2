#!/usr/bin/env bash
# How long `script` and `tune` take, and how much memory, over tapes of many cycles: 256 items, the first 49 aired four times a
# cycle, 800 updates; each compared with a plain copy of as many bytes in the same run: in memory, by cp, or by cat to a pipe. What encoding
# costs `bench/bare.sh` measures: without a tape nothing is encoded but what readers open.
# Usage: bench/pieces.sh [RUNS]. Prints a row for each command and number of readers (median milliseconds, the copy's, their
# quotient), and then the most memory at 100, 1,000 and 2,400 cycles (kilobytes, with GNU time).
set -u
cd "$(dirname "$0")/.." || exit 1
runs=${1:-5}
source bench/program.sh
ethers=(set,loss,10 set,again,10 set,late,30)

# deck CYCLES READERS [SETTING..]
deck() {
    { flat 256 800 "$1" "$2" | sed 's/^disk,256,1$/disk,49,4\ndisk,207,1/'; shift 2; printf '%s\n' set,seed,7 "$@"; } >"$scratch/deck.csv"
}

row() { awk -v name="$1" -v a="$2" -v b="$3" 'BEGIN { printf "%-50s %10.1f %10.1f %8.2f\n", name, a, b, a / b }'; }
middle() { times "$@" | cut -d' ' -f1; }
report() { "$program" script "$scratch/deck.csv" "$@"; }

# in_memory: how many milliseconds a copy of the tape takes in memory
in_memory() {
    python3 -c 'import sys, time
tape, took = open(sys.argv[1], "rb").read(), []
for _ in range(int(sys.argv[2])):
    began = time.perf_counter()
    copy = bytearray(tape)
    took.append(time.perf_counter() - began)
    copy = None
print(1000 * sorted(took)[len(took) // 2])' "$scratch/air.tape" "$runs"
}

printf '%-50s %10s %10s %8s\n' command milliseconds copy quotient
for readers in 0 1 8 64; do
    deck 1000 "$readers"
    report "$scratch/air.tape" >/dev/null || exit 1
    copy=$(middle cp "$scratch/air.tape" "$scratch/copy.tape")
    memory=$(in_memory)
    row "script, $readers readers (a copy in memory)" "$(middle report)" "$memory"
    row "script with its tape, $readers readers (cp)" "$(middle report "$scratch/out.tape")" "$copy"
    deck 1000 "$readers" "${ethers[@]}"
    row "script over ethers, $readers readers (a copy in memory)" "$(middle report)" "$memory"
    row "script over ethers with its tape, $readers readers (cp)" "$(middle report "$scratch/out.tape")" "$copy"
    deck 609 "$readers"
    report "$scratch/air.tape" >/dev/null || exit 1
    row "tune of $(stat -c %s "$scratch/air.tape") bytes, $readers readers (cat)" "$(middle "$program" tune "$scratch/deck.csv" "$scratch/air.tape")" "$(middle sh -c 'cat "$1" | cat >/dev/null' - "$scratch/air.tape")"
    rm -f "$scratch"/*.tape
done

[ -x /usr/bin/time ] || { echo "skipped: GNU time is missing, so memory isn't measured"; exit 0; }
printf '\n%-60s %10s\n' command kilobytes
# most COMMAND..: the most memory of a command that ends with 0, or with 6 where a tape is cut
most() {
    /usr/bin/time -q -f %M -o "$scratch/most" "$@" >/dev/null 2>&1
    case $? in 0 | 6) cat "$scratch/most" ;; *) exit 1 ;; esac
}
peak() { printf '%-60s %10s\n' "$1" "$(most "$program" "${@:2}")"; }
for cycles in 100 1000 2400; do
    for readers in 1 8 64; do
        deck "$cycles" "$readers"
        peak "script, $cycles cycles, $readers readers" script "$scratch/deck.csv"
        peak "script with its tape, $cycles cycles, $readers readers" script "$scratch/deck.csv" "$scratch/air.tape"
        peak "tune, $cycles cycles, $readers readers" tune "$scratch/deck.csv" "$scratch/air.tape"
        truncate -s -1 "$scratch/air.tape"
        peak "tune of a cut tape, $cycles cycles, $readers readers" tune "$scratch/deck.csv" "$scratch/air.tape"
        deck "$cycles" "$readers" "${ethers[@]}"
        peak "script over ethers, $cycles cycles, $readers readers" script "$scratch/deck.csv"
        peak "script over ethers with its tape, $cycles cycles, $readers readers" script "$scratch/deck.csv" "$scratch/air.tape"
        rm -f "$scratch"/*.tape
    done
done
