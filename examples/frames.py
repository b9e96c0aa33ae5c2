#!/usr/bin/env python3
"""Carries datagrams over a line of bytes, as a serial line is one: each is a frame, which shows where it ends and whether it was changed.

usage: examples/frames.py out PORT >LINE    hears datagrams at 127.0.0.1:PORT, and writes their frames as fast as the line takes them
       examples/frames.py in PORT <LINE     sends the datagram of each frame to 127.0.0.1:PORT

Both end with the end mark, which is an empty datagram, `in` also with its line. A frame is the bytes of the datagram, then the CRC-32 of these
bytes with `AD` after them, high byte first, where 0xDB is written as 0xDB 0xDD and 0xC0 as 0xDB 0xDC; and then 0xC0 (as in SLIP, RFC
1055). What is no frame is left out and counted: so what a line changes is lost, and not heard as something else.
"""
import os
import socket
import sys
import threading
import zlib
from queue import SimpleQueue

END, MOST = b"\xc0", 9000


def check(data):
    return zlib.crc32(data + b"AD").to_bytes(4, "big")


def framed(data):
    """The frame of a datagram."""
    return (data + check(data)).replace(b"\xdb", b"\xdb\xdd").replace(END, b"\xdb\xdc") + END


def unframed(frame):
    """The datagram of a frame, which is here without its last byte; None if it is none."""
    whole = frame.replace(b"\xdb\xdc", END).replace(b"\xdb\xdd", b"\xdb")
    return whole[:-4] if len(whole) >= 4 and whole[-4:] == check(whole[:-4]) else None


def hear(port, heard):
    """Puts what arrives at the port where it is waited for, up to the end mark."""
    with socket.socket(socket.AF_INET, socket.SOCK_DGRAM) as ear:
        ear.setsockopt(socket.SOL_SOCKET, socket.SO_RCVBUF, 1 << 22)
        ear.bind(("127.0.0.1", port))
        data = b"."
        while data:
            data = ear.recv(2048)
            heard.put(data)


def send_out(port):
    """A slow line doesn't keep from hearing: what waits for it is kept in memory."""
    heard, data = SimpleQueue(), b"."
    threading.Thread(target=hear, args=(port, heard), daemon=True).start()
    while data:
        data = heard.get()
        sys.stdout.buffer.write(framed(data))
        sys.stdout.buffer.flush()


def bring_in(port):
    """How many frames were left out."""
    rest, dropped = b"", 0
    with socket.socket(socket.AF_INET, socket.SOCK_DGRAM) as mast:
        while more := os.read(0, 65536):
            *frames, rest = (rest + more).split(END)
            rest = rest[-MOST:]
            for data in map(unframed, frames):
                if data is None:
                    dropped += 1
                    continue
                mast.sendto(data, ("127.0.0.1", port))
                if not data:
                    return dropped
    return dropped


def main(words):
    if len(words) != 2 or words[0] not in ("out", "in"):
        sys.exit(__doc__)
    if words[0] == "out":
        send_out(int(words[1]))
    elif dropped := bring_in(int(words[1])):
        print(f"frames.py: left out {dropped} of the frames", file=sys.stderr)


if __name__ == "__main__":
    main(sys.argv[1:])
