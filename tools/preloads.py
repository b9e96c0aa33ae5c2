"""What the scripts share that run the proved program where something fails: the library that is loaded before it and refuses calls of the C
library, a run, and a port with what is sent to it."""
import os
import shutil
import socket
import subprocess
import sys
import threading

TOP = os.path.dirname(os.path.dirname(os.path.abspath(__file__)))
PROGRAM = os.path.join(TOP, "crates/airdisk/out/airdisk")
SECONDS = 10
PORTS, TAKEN = threading.Lock(), set()

# A deck of two items, whose tape has two buckets of 32 bytes
TWO = "item,0,10,1\nitem,1,20,1\ndisk,2,1\nreader,0,0,1\nquery,0,0 1\nscript,s\nset,cycles,1\n"

# What each library begins with. The calls from REFUSE_FIRST to REFUSE_LAST, counted from 1 over all threads, are refused. How many there
# were and how many of them were refused is kept in the file REFUSE_COUNTS, as two numbers of 64 bits.
COUNTS = r"""
#define _GNU_SOURCE
#include <errno.h>
#include <fcntl.h>
#include <stdatomic.h>
#include <stddef.h>
#include <stdlib.h>
#include <sys/mman.h>

static atomic_long *counts;
static long first, last;

__attribute__((constructor)) static void begin(void) {
    const char *name = getenv("REFUSE_COUNTS"), *from = getenv("REFUSE_FIRST"), *to = getenv("REFUSE_LAST");
    int file = name && from && to ? open(name, O_RDWR) : -1;
    void *room = file < 0 ? MAP_FAILED : mmap(NULL, 2 * sizeof *counts, PROT_READ | PROT_WRITE, MAP_SHARED, file, 0);
    if (room == MAP_FAILED)
        return;
    first = atol(from);
    last = atol(to);
    counts = room;
}

// The number of this call; 0 where none is counted.
static long counted(void) {
    return counts ? atomic_fetch_add(&counts[0], 1) + 1 : 0;
}

static int is_refused(long number) {
    if (!number || number < first || number > last)
        return 0;
    atomic_fetch_add(&counts[1], 1);
    return 1;
}
"""


class Skip(Exception):
    """Why nothing can be tried here."""


def read(path):
    """The bytes of a file, and None if there is none."""
    try:
        with open(path, "rb") as file:
            return file.read()
    except FileNotFoundError:
        return None


def write(path, bytes_):
    with open(path, "wb") as file:
        file.write(bytes_)


def build(folder, what, calls, program):
    """Builds the library that refuses something by these calls, for a program that is there; answers the library's name."""
    if not shutil.which("cc"):
        raise Skip(f"no cc is there, which builds the library that refuses {what}")
    source, library = os.path.join(folder, "refuse.c"), os.path.join(folder, "refuse.so")
    write(source, (COUNTS + calls).encode())
    made = subprocess.run(["cc", "-O1", "-shared", "-fPIC", "-fno-builtin", "-o", library, source], capture_output=True, text=True, check=False)
    if made.returncode != 0:
        raise Skip(f"cc doesn't build the library that refuses {what}: {made.stderr.strip()}")
    if not os.access(program, os.X_OK):
        raise Skip(f"the program {program} is not there: ./airdisk --build")
    return library


def ended(words, folder, room, seconds=SECONDS):
    """Runs a command: its status, or that there was none in time, what it printed, and what it said on standard error."""
    try:
        done = subprocess.run(words, cwd=folder, env={**os.environ, **room}, stdin=subprocess.DEVNULL, capture_output=True, timeout=seconds,
                              check=False)
    except subprocess.TimeoutExpired:
        return f"none within {seconds} seconds", b"", b""
    return done.returncode, done.stdout, done.stderr


def refusing(library, counts, first, last):
    """What the environment has so that the calls of these numbers are refused, and counted in a file that begins with zeros."""
    write(counts, bytes(16))
    return {"LD_PRELOAD": library, "REFUSE_COUNTS": counts, "REFUSE_FIRST": str(first), "REFUSE_LAST": str(last)}


def counted(counts):
    """How many calls there were, and how many of them were refused."""
    bytes_ = read(counts)
    return tuple(int.from_bytes(bytes_[at:at + 8], sys.byteorder) for at in (0, 8))


class Feeder:
    """Sends datagrams to a port, again and again, as long as it is used."""

    def __init__(self, port, datagrams):
        self.port, self.datagrams, self.over = port, datagrams, threading.Event()
        self.thread = threading.Thread(target=self.feed)

    def feed(self):
        with socket.socket(socket.AF_INET, socket.SOCK_DGRAM) as out:
            while not self.over.wait(0.005):
                for bytes_ in self.datagrams:
                    out.sendto(bytes_, ("127.0.0.1", self.port))

    def __enter__(self):
        self.thread.start()

    def __exit__(self, *_):
        self.over.set()
        self.thread.join()


def free_port():
    """A port that nothing has here, another one each time; below those that the system gives to sockets that ask for none."""
    with PORTS, socket.socket(socket.AF_INET, socket.SOCK_DGRAM) as probe:
        for port in range(20_000 + os.getpid() % 5_000, 32_768):
            if port in TAKEN:
                continue
            TAKEN.add(port)
            try:
                probe.bind(("127.0.0.1", port))
            except OSError:
                continue
            return port
    raise OSError("no port is free")
