#!/usr/bin/env python3
"""A receiver in plain Python, written from docs/FORMATS.md alone: it decodes buckets, and lets the readers of a deck hear a tape.

usage: examples/receiver.py DECK TAPE      prints what `airdisk tune DECK TAPE` prints
       examples/receiver.py --tape TAPE    prints what each record of a tape says, or its fault

Where the tape is cut, the line of that is printed, and the status is 6. receiver_deck.py has what it needs of a deck.
"""
import struct
import sys
from collections import namedtuple

from receiver_deck import IDLE, OLD, VECTOR, read_deck


class Bucket(namedtuple("Bucket", "version kind edition count cycle slot item value entries")):
    def __str__(self):
        return " ".join(f"{name}={it}" for name, it in self._asdict().items())


def entries_of(version, cycle, data):
    """The entries that are after the head, or None if one isn't of its row: as they are, or from version 2 on as ages of one byte each."""
    if version == 1:
        entries = struct.unpack(f">{len(data) // 4}I", data)
        return None if any(entry >= cycle for entry in entries) else entries
    if any(age == 0 or cycle <= age < OLD for age in data):
        return None
    return tuple(0 if age == OLD else cycle - age for age in data)


def decode(data):
    """The bucket that these bytes are, or the name of the first fault that applies."""
    if len(data) < 24:
        return "Short"
    magic, version, kind, edition, count, cycle, slot, item, value = struct.unpack(">2sBBHHIHHQ", data[:24])
    if magic != b"AD":
        return "Magic"
    if version not in (1, 2):
        return "Version"
    if kind > VECTOR:
        return "Kind"
    width, most = (4, 256) if version == 1 else (1, 1024)
    if len(data) != (24 if kind == IDLE else 24 + width * count):
        return "Length"
    entries = entries_of(version, cycle, data[24:])
    fits_row = (item, value) == (65535, 0) if kind == IDLE else item < count
    if not 1 <= count <= most or cycle == 0 or not fits_row or entries is None:
        return "Shape"
    return Bucket(version, kind, edition, count, cycle, slot, item, value, entries)


def records(tape):
    """The records of a tape; where it is cut the program ends."""
    at = 0
    while at < len(tape):
        end = at + 4 + int.from_bytes(tape[at:at + 4], "big")
        if at + 4 > len(tape) or end > len(tape):
            print(f"fault,6,{at}")
            sys.exit(6)
        yield tape[at + 4:end]
        at = end


class Reader:
    """A reader of a deck, with the verdict lines and the counts of what it has heard so far."""

    def __init__(self, deck, number):
        self.deck, self.number = deck, number
        self.room, self.age, self.tries, self.queries = deck.readers[number]
        self.lines, self.counts, self.copies = [], dict.fromkeys("opened dozed late refused foreign copied".split(), 0), {}
        self.query, self.attempt, self.held, self.newest = 0, 1, [], 0

    def wanted(self):
        return self.queries[self.query][len(self.held)] if self.query < len(self.queries) else None

    def end(self, verdict, more="", again=False):
        reads = " ".join(f"{read.item}@{read.cycle}={read.value}" for read in self.held)
        self.lines.append(f"{verdict},{self.number},{self.query},{self.attempt},{reads}{more}")
        self.query, self.attempt, self.held = (self.query, self.attempt + 1, []) if again else (self.query + 1, 1, [])

    def hold(self, new):
        self.held.append(new)
        if len(self.held) == len(self.queries[self.query]):
            self.end("accept")

    def settle(self):
        """Reads the wanted item from its copy, as long as there is one, and drops a copy that may not be read."""
        while (copy := self.copies.get(self.wanted())) is not None:
            unusable = self.deck.is_late(self.held, copy) or self.deck.is_aged(self.held, copy) or self.deck.clashes(self.held, copy)
            if self.newest - copy.cycle > self.age or unusable:
                del self.copies[copy.item]
            else:
                self.counts["copied"] += 1
                self.hold(copy)

    def open(self, new):
        """Reads a wanted bucket, or ends the attempt; and keeps a copy, and of too many those of greatest worth."""
        again = self.attempt < self.tries
        if self.deck.is_aged(self.held, new):
            self.end("aged", f",{new.item}@{new.cycle}", again)
        elif clashes := self.deck.clashes(self.held, new):
            self.end("abort", f",{new.item}@{new.cycle},{min(clashes)}", again)
            self.copies.pop(min(clashes), None)
        else:
            self.hold(new)
        self.copies[new.item] = new
        if len(self.copies) > self.room:
            worth = self.deck.worth_at(self.newest)
            del self.copies[max(self.copies, key=lambda item: (-worth[item], item))]

    def hear(self, bucket):
        self.settle()
        count = "refused" if isinstance(bucket, str) else "opened" if self.deck.fits(bucket) else "foreign"
        if count == "opened":
            self.newest = max(self.newest, bucket.cycle)
            if bucket.kind == IDLE or bucket.item != self.wanted():
                count = "dozed"
            elif self.deck.is_late(self.held, bucket):
                count = "late"
            else:
                self.open(bucket)
        self.counts[count] += 1

    def finish(self):
        """All that is left stays unfinished; the lines."""
        self.settle()
        while self.query < len(self.queries):
            self.end("unfinished")
        return self.lines


def report(deck, buckets):
    """Lets the readers of a deck hear buckets, and prints what they made of them."""
    readers = [Reader(deck, number) for number in range(len(deck.readers))]
    for bucket in buckets:
        for reader in readers:
            reader.hear(bucket)
    for reader in readers:
        print("".join(f"{line}\n" for line in reader.finish()), end="")
    for reader in readers:
        print(f"counts,{reader.number}," + ",".join(map(str, reader.counts.values())))


def main(words):
    if len(words) != 2:
        sys.exit(__doc__)
    with open(words[1], "rb") as file:
        buckets = [decode(data) for data in records(file.read())]
    if words[0] != "--tape":
        report(read_deck(words[0]), buckets)
    else:
        print("".join(f"{bucket}\n" for bucket in buckets), end="")


if __name__ == "__main__":
    main(sys.argv[1:])
