#!/usr/bin/env bash
# How long `read_report` takes, and how much memory, compared with a bare pass over the records of the same text.
# Usage: bench/reports.sh [BYTES [RUNS]]. Prints a table: the report of a busy deck first, then one of each kind of line, each of
# about this many bytes (134,217,728 where none are told, the limit of a report). Pass and report are read in turns, and each time
# is the least of the runs, as other work on the machine only adds to it. Each memory is the peak of the process that GNU time
# tells (a dash where it is not installed), with that of reading the files alone before it; a line is what the report takes more,
# by the number of lines. The program is bench/reports.rt.txt.
set -u
cd "$(dirname "$0")/.." || exit 1
size=${1:-134217728}
runs=${2:-5}
source bench/build.sh
build reports air_base air_history air_model item_catalog air_report csv

# 256 items, 16 updaters with 6,250 updates each, 64 readers of 16 tries with 156 queries of sixteen items each, and 16 monitors
awk 'BEGIN {
    for (i = 0; i < 256; i++) printf "item,%d,%d,1\n", i, i
    print "disk,256,1"
    for (k = 0; k < 100000; k++) printf "update,%d,,%d=%d\n", k % 16, k % 256, k
    for (r = 0; r < 64; r++) print "reader,0,0,16"
    for (k = 0; k < 64 * 156; k++) {
        printf "query,%d,", k % 64
        for (j = 0; j < 16; j++) printf "%s%d", (j ? " " : ""), (k + 3 * j) % 256
        printf "\n"
    }
    print "set,monitors,16"
}' >"$scratch/deck.csv"

# report KIND BYTES: lines of the kind, until there are no fewer than this many bytes except for the last line. What is read has values of
# twenty digits and cycles of four. `busy` has every update's commit with 10,000 starts among them, then in turn an accept and three
# aborts a query until a tenth of the bytes is left, counts of each reader, and glances and looks
report() {
    awk -v kind="$1" -v size="$2" '
        function put(line) { bytes += length(line) + 1; if (bytes > size) exit; print line }
        function reads(k, count, j, text) {
            for (j = 0; j < count; j++) text = text (j ? " " : "") (k + 3 * j) % 256 "@" 1000 + (k + j) % 9000 "=18446744073709551615"
            return text
        }
        function asked(k, try) { return k % 64 "," int(k / 64) % 156 "," try }
        function accept(k) { return "accept," asked(k, 4) "," reads(k % 9984, 16) }
        function abort(k, try) { return "abort," asked(k, try) "," reads(k % 9984, 1 + 5 * (try - 1)) "," ((k % 9984) + 3 * (1 + 5 * (try - 1))) % 256 "@9999," (k % 9984) % 256 }
        function look(tag, k) { return tag "," k % 16 "," k % 10000 ",18446744073709551615" }
        BEGIN {
            if (kind != "starts" && kind != "counts") for (k = 0; k < 10000; k++) put("start")
            if (kind == "busy") {
                for (k = 0; k < 100000; k++) put("commit," k % 16 "," int(k / 16))
                for (k = 0; bytes < size * 9 / 10; k++) { for (t = 1; t < 4; t++) put(abort(k, t)); put(accept(k)) }
                for (r = 0; r < 64; r++) put("counts," r ",18446744073709551615,18446744073709551615,0,0,0,0")
                for (k = 0; bytes < size * 19 / 20; k++) put(look("glance", k))
                for (k = 0; ; k++) put(look("look", k))
            }
            for (k = 0; ; k++) {
                if (kind == "starts") put("start")
                if (kind == "accepts") put(accept(k))
                if (kind == "aborts") put(abort(k, 1))
                if (kind == "unfinished") put("unfinished," asked(k, 1) ",")
                if (kind == "counts") put("counts," k % 64 ",0,0,0,0,0,0")
                if (kind == "looks") put("look," k % 16 ",0,0")
            }
        }'
}

# least TIME SO_FAR: the lesser of the two, where there is one so far
least() {
    if [ -n "$2" ] && [ "$2" -le "$1" ]; then echo "$2"; else echo "$1"; fi
}

# peak WHAT: the KiB that the process took at most
peak() {
    if [ -x /usr/bin/time ]; then /usr/bin/time -f %M "$program" "$1" "$scratch/deck.csv" "$scratch/report.csv" 2>&1 >/dev/null | tail -n 1; else echo -; fi
}

# row NAME: a line of the table
row() {
    local bare= report= lines file taken each=-
    for _ in $(seq "$runs"); do
        bare=$(least "$("$program" records "$scratch/deck.csv" "$scratch/report.csv")" "$bare")
        report=$(least "$("$program" report "$scratch/deck.csv" "$scratch/report.csv")" "$report")
    done
    lines=$(wc -l <"$scratch/report.csv")
    file=$(peak bytes)
    taken=$(peak report)
    if [ "$taken" != - ]; then each=$(((taken - file) * 1024 / lines)); fi
    printf '%-30s %10s %9s %9d.%03d %9d.%03d %5d.%02d %9s %9s %8s\n' "$1" "$(wc -c <"$scratch/report.csv")" "$lines" \
        $((bare / 1000)) $((bare % 1000)) $((report / 1000)) $((report % 1000)) $((report / bare)) $((report * 100 / bare % 100)) "$file" "$taken" "$each"
}

printf '%-30s %10s %9s %13s %13s %8s %9s %9s %8s\n' report bytes lines 'pass, ms' 'report, ms' times 'files, KiB' 'all, KiB' 'a line, B'
for part in 4 2 1; do
    report busy $((size / part)) >"$scratch/report.csv"
    row "busy, 1/$part of the bytes"
done
for kind in starts accepts aborts unfinished counts looks; do
    report "$kind" "$size" >"$scratch/report.csv"
    row "$kind alone"
done
