# Sourced by the scripts that time the whole program, from the top of the repository, with `runs` set: has the program built, or
# takes the one that AIRDISK names, makes a folder $scratch that goes away at the end, and tells how long a command takes.
program=${AIRDISK:-$PWD/crates/airdisk/out/airdisk}
scratch=$(mktemp -d) || exit 1
trap 'rm -rf "$scratch"' EXIT
[ -n "${AIRDISK:-}" ] || (cd crates/airdisk && rt run -- --version) >/dev/null 2>&1
[ -x "$program" ] || exit 1

# each COMMAND..: the time of each run in hundredths of a millisecond, from the shell, the least first; a run ends with 0, or with 9
each() {
    for _ in $(seq "$runs"); do
        local began=$EPOCHREALTIME
        "$@" >/dev/null
        case $? in 0 | 9) ;; *) exit 1 ;; esac
        local ended=$EPOCHREALTIME
        echo $(((${ended/./} - ${began/./}) / 10))
    done | sort -n
}

# median COMMAND..: the median of these times
median() { each "$@" | sed -n "$(((runs + 1) / 2))p"; }

# times COMMAND..: the median and the least of these times, in milliseconds
times() { each "$@" | awk -v n="$runs" '{ t[NR] = $1 } END { printf "%.2f %.2f\n", t[int((n + 1) / 2)] / 100, t[1] / 100 }'; }

# on_processors COMMAND..: the command's `times` on 1, 2 and 4 processors, a line each with the number before them
on_processors() {
    for count in 1 2 4; do echo "$count $(times taskset -c "0-$((count - 1))" "$@")"; done
}

# flat ITEMS UPDATES STARTS READERS: a deck of one flat disk; the script starts a cycle after each equal part of the updates
flat() {
    awk -v n="$1" -v u="$2" -v s="$3" -v r="$4" 'BEGIN {
        for (i = 0; i < n; i++) printf "item,%d,%d,%d\n", i, i * 1000003, n - i
        printf "disk,%d,1\n", n
        for (k = 0; k < u; k++) {
            a = (k * 7) % n; b = (a + 1 + k % 5) % n; c = (a + 11) % n; d = (a + 23) % n
            printf "update,%d,%d %d %d %d,%d=%d+%d %d=%d\n", k % 4, a, b, c, d, a, b, k, c, k
        }
        for (q = 0; q < r; q++) {
            printf "reader,0,0,3\n"
            for (k = 0; k < 4; k++) printf "query,%d,%d %d %d\n", q, (q * 5 + k) % n, (q * 5 + k + 9) % n, (q * 5 + k + 30) % n
        }
        printf "script,"; done = 0
        for (k = 0; k < s; k++) {
            while (done < int(u * (k + 1) / s)) { printf "%d ", done % 4; done++ }
            printf "s%s", (k < s - 1 ? " " : "\n")
        }
    }'
}
