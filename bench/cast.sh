#!/usr/bin/env bash
# How many datagrams a second `cast` sends to a port at which nobody listens, compared with a bare loop of `sendto` that sends as many of the
# same size from a socket of the same kind. The loop is in C where cc is there, and in Python else; the times are those of the whole
# commands, so `cast` also reads its deck, commits 1,000 updates and prints the history.
# Usage: bench/cast.sh [RUNS]. Prints a row for each size: the median of the runs of each, and the first by the second (aim: 0.7).
set -u
cd "$(dirname "$0")/.." || exit 1
runs=${1:-9}
source bench/program.sh

# silent: the first port from 4100 on at which no socket of this machine hears
silent() {
    local port=4100
    while grep -qs "$(printf ':%04X ' "$port")" /proc/net/udp /proc/net/udp6; do port=$((port + 1)); done
    echo "$port"
}

# loop DATAGRAMS BYTES PORT: this many datagrams, and the end mark
if command -v cc >/dev/null 2>&1; then
    cat >"$scratch/loop.c" <<'END'
#include <arpa/inet.h>
#include <stdlib.h>
#include <sys/socket.h>

int main(int words, char **word) {
    static char bytes[2048] = "AD";
    if (words != 4) return 1;
    long datagrams = atol(word[1]), size = atol(word[2]);
    struct sockaddr_in from = {.sin_family = AF_INET, .sin_addr.s_addr = htonl(INADDR_LOOPBACK)}, to = from;
    to.sin_port = htons(atoi(word[3]));
    int out = socket(AF_INET, SOCK_DGRAM, 0);
    if (out < 0 || size > 2048 || bind(out, (struct sockaddr *)&from, sizeof from) != 0) return 1;
    for (long k = 0; k < datagrams; k++)
        if (sendto(out, bytes, size, 0, (struct sockaddr *)&to, sizeof to) != size) return 1;
    return sendto(out, bytes, 0, 0, (struct sockaddr *)&to, sizeof to) != 0;
}
END
    cc -O2 -o "$scratch/loop" "$scratch/loop.c" || exit 1
    written=C
else
    cat >"$scratch/loop" <<'END'
#!/usr/bin/env python3
import socket, sys
datagrams, size, port = map(int, sys.argv[1:])
out, data, to = socket.socket(socket.AF_INET, socket.SOCK_DGRAM), bytes(size), ("127.0.0.1", port)
out.bind(("127.0.0.1", 0))
for _ in range(datagrams):
    out.sendto(data, to)
out.sendto(b"", to)
END
    chmod +x "$scratch/loop"
    written=Python
fi

printf '%6s %6s %10s %16s %16s %6s\n' items bytes datagrams 'cast: a second' "$written: a second" times
for size in '16 10000' '40 10000' '256 2000'; do
    read -r items cycles <<<"$size"
    bytes=$((24 + 4 * items)) datagrams=$((items * cycles)) port=$(silent)
    { flat "$items" 1000 1 0; echo "set,cycles,$cycles"; } >"$scratch/deck.csv"
    ours=$(median "$program" cast "$scratch/deck.csv" "$port")
    other=$(median "$scratch/loop" "$datagrams" "$bytes" "$port")
    [ "$ours" -gt 0 ] && [ "$other" -gt 0 ] || exit 1
    awk -v i="$items" -v b="$bytes" -v n="$datagrams" -v ours="$ours" -v other="$other" 'BEGIN {
        printf "%6d %6d %10d %16d %16d %6.2f\n", i, b, n, n * 100000 / ours, n * 100000 / other, other / ours }'
done
