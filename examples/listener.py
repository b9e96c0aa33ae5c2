#!/usr/bin/env python3
"""A listener in plain Python: it lets the readers of a deck hear the air, as receiver.py lets them hear a tape.

usage: examples/listener.py DECK PORT    hears datagrams at 127.0.0.1:PORT, and prints what `airdisk listen DECK PORT` prints; but first each
                                         bucket as it comes, in a line without a comma: <item>@<cycle>=<value>, `idle`, `foreign` or its fault
       examples/listener.py PORT         prints all that each bucket says as it comes, or its fault

An empty datagram is the end mark; an interrupt (Ctrl-C) sends one.
"""
import errno
import re
import signal
import socket
import sys

from receiver import decode, report
from receiver_deck import IDLE, read_deck


def port_of(word):
    """The port that a word spells."""
    if not re.fullmatch("[0-9]{1,5}", word) or not 1 <= int(word) <= 65535:
        sys.exit(f"listener.py: the port is {word}: a number from 1 to 65535 is wanted")
    return int(word)


def datagrams(port, most):
    """What arrives at the port, as it comes, up to the end mark or to this many datagrams; each is cut to 2,048 bytes."""
    with socket.socket(socket.AF_INET, socket.SOCK_DGRAM) as ear:
        ear.setsockopt(socket.SOL_SOCKET, socket.SO_RCVBUF, 1 << 22)
        try:
            ear.bind(("127.0.0.1", port))
        except OSError as error:
            hint = ": does another program listen there?" if error.errno == errno.EADDRINUSE else ""
            sys.exit(f"listener.py: port {port} can't be had: {error.strerror}{hint}")
        signal.signal(signal.SIGINT, lambda *_: ear.sendto(b"", ear.getsockname()))
        while most > 0 and (data := ear.recv(2048)):
            yield data
            most -= 1


def brief(deck, bucket):
    """What a bucket is to the readers of a deck."""
    if isinstance(bucket, str):
        return bucket
    if not deck.fits(bucket):
        return "foreign"
    return "idle" if bucket.kind == IDLE else f"{bucket.item}@{bucket.cycle}={bucket.value}"


def heard(deck, port):
    """The buckets that come, or their faults; each is printed first."""
    for bucket in map(decode, datagrams(port, deck.hears if deck else sys.maxsize)):
        print(brief(deck, bucket) if deck else bucket, flush=True)
        yield bucket


def main(words):
    if len(words) == 2:
        deck = read_deck(words[0])
        report(deck, heard(deck, port_of(words[1])))
    elif len(words) == 1:
        list(heard(None, port_of(words[0])))
    else:
        sys.exit(__doc__)


if __name__ == "__main__":
    main(sys.argv[1:])
