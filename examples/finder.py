#!/usr/bin/env python3
"""A receiver without a deck, in plain Python, written from docs/FORMATS.md alone: it finds an item on an indexed tape.

usage: examples/finder.py TAPE ITEM FROM    prints what `airdisk seek TAPE ITEM FROM` prints

It opens at most three records, and steps over the others by their lengths alone. If the tape is cut, the line of that is printed, and the status is 6.
If these words are no tape's name and two numbers, up to 65534 and 4294967295, `fault,1` is printed, and the status is 1.
"""
import re
import struct
import sys

from receiver import Bucket, decode, records


def index_of(record):
    """The entries of an index record, or None if it isn't one."""
    if len(record) < 13:
        return None
    tag, zeros, cycle, _, count = struct.unpack(">BIIHH", record[:13])
    if tag != 0 or zeros != 0 or cycle == 0 or not 1 <= count <= 1024 or len(record) != 13 + 4 * count:
        return None
    entries = struct.unpack(f">{count}I", record[13:])
    return None if 0 in entries else entries


def data_of(record):
    """How many records later the next index is, and the bucket of a data record, or None if it isn't one; an idle bucket has no item: 65535."""
    if len(record) < 5 or record[0] != 1:
        return None
    wait, bucket = int.from_bytes(record[1:5], "big"), decode(record[5:])
    return (wait, bucket) if wait > 0 and isinstance(bucket, Bucket) else None


class Tape:
    """The records of a tape, and how many of them were opened."""

    def __init__(self, tape):
        self.records, self.opens = list(records(tape)), 0

    def open(self, place):
        """The record at a place; after the last one there is none, and nothing is opened."""
        if place >= len(self.records):
            return b""
        self.opens += 1
        return self.records[place]


def find(tape, item, start):
    """The line of a search on a tape for an item, from a record on."""
    place = start
    record = tape.open(place)
    data = data_of(record)
    if data and data[1].item != item:
        # the next index tells where the item is
        place += data[0]
        record = tape.open(place)
        data = None
    if data is None:
        entries = index_of(record)
        if entries and item < len(entries):
            place += entries[item]
            data = data_of(tape.open(place))
    if data and data[1].item == item:
        return f"found,{item},{tape.opens},{place},{data[1].cycle},{data[1].value}"
    return f"lost,{item},{tape.opens}"


def number(word, most):
    """The number that a word spells in digits alone, without a leading zero, or None if it is above the most or spells none."""
    digits = re.fullmatch("0|[1-9][0-9]{0,9}", word)
    return int(word) if digits and int(word) <= most else None


def main(words):
    name, item, start = words if len(words) == 3 else ("", "", "")
    item, start = number(item, 65534), number(start, 4294967295)
    if not name or item is None or start is None:
        print("fault,1")
        sys.exit(__doc__)
    with open(name, "rb") as file:
        print(find(Tape(file.read()), item, start))


if __name__ == "__main__":
    main(sys.argv[1:])
