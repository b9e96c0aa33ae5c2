"""The datagrams that `checks/air` has dissected and heard, and their bytes by their fields: buckets of both versions, and bytes that are none. Wanted values are in docs/FORMATS.md."""
import struct


def head(kind, count, cycle, slot, item, value, edition=0, version=1):
    return struct.pack(">2sBBHHIHHQ", b"AD", version, kind, edition, count, cycle, slot, item, value)


def bucket(kind, count, cycle, slot, item, value, entries, edition=0):
    return head(kind, count, cycle, slot, item, value, edition) + struct.pack(f">{len(entries)}I", *entries)


def aged(kind, count, cycle, slot, item, value, ages):
    return head(kind, count, cycle, slot, item, value, version=2) + bytes(ages)


def with_byte(data, at, byte):
    return data[:at] + bytes([byte]) + data[at + 1:]


# The buckets of docs/FORMATS.md: slot 0 of cycle 2, and slot 3, which is idle
ITEM = bytes.fromhex("41440101 00000002 00000002 00000000 00000000 0000000b 00000001 00000000")
IDLE = bytes.fromhex("41440100 00000002 00000002 0003ffff 00000000 00000000")
ROWS = [("1", "1", "0", "2", "2", "0", "0", "11", "1,0"), ("1", "0", "0", "2", "2", "3", "65535", "0", "")]
LONG = list(range(255, -1, -1))

# A bucket of version 2: in cycle 300 the age 254 tells the entry 46, and 255 the entry 0
YOUNG = aged(1, 2, 300, 0, 0, 11, (254, 255))

# Datagrams, each with what the dissector has to say of it: the fault, if any; the fields where they are looked at; whether it is the end mark
CASES = [
    ("an item's bucket", ITEM, "", ROWS[0]),
    ("an idle bucket", IDLE, "", ROWS[1]),
    ("a vector", with_byte(with_byte(ITEM, 3, 2), 31, 1), "", ("1", "2", "0", "2", "2", "0", "0", "11", "1,1")),
    ("the greatest numbers", bucket(1, 1, 2**32 - 1, 65535, 0, 2**64 - 1, [2**32 - 2], 65535), "",
     ("1", "1", "65535", "1", str(2**32 - 1), "65535", "0", str(2**64 - 1), str(2**32 - 2))),
    ("256 entries", bucket(2, 256, 256, 0, 255, 1, LONG), "", ("1", "2", "0", "256", "256", "0", "255", "1", ",".join(map(str, LONG)))),
    ("one byte", ITEM[:1], "Short", None),
    ("the first 23 bytes", ITEM[:23], "Short", ("1", "1", "0", "2", "2", "0", "0", "", "")),
    ("another magic", with_byte(ITEM, 0, 0x61), "Magic", None),
    ("another magic and version", with_byte(with_byte(ITEM, 1, 0), 2, 2), "Magic", None),
    ("another version", with_byte(ITEM, 2, 3), "Version", None),
    ("another version and kind", with_byte(with_byte(ITEM, 2, 0), 3, 3), "Version", None),
    ("another kind", with_byte(ITEM, 3, 3), "Kind", None),
    ("another kind and length", with_byte(ITEM, 3, 3)[:31], "Kind", None),
    ("the first 31 bytes", ITEM[:31], "Length", ("1", "1", "0", "2", "2", "0", "0", "11", "1")),
    ("one byte more", ITEM + b"\0", "Length", ROWS[0]),
    ("an idle one with entries", IDLE + ITEM[24:], "Length", None),
    ("another length and item", with_byte(ITEM, 15, 2) + b"\0", "Length", None),
    ("item 2 of 2", with_byte(ITEM, 15, 2), "Shape", ("1", "1", "0", "2", "2", "0", "2", "11", "1,0")),
    ("an entry that is the cycle", with_byte(ITEM, 31, 2), "Shape", ("1", "1", "0", "2", "2", "0", "0", "11", "1,2")),
    ("no items", head(1, 0, 2, 0, 0, 11), "Shape", None),
    ("257 items", bucket(1, 257, 2, 0, 0, 11, [0] * 257), "Shape", None),
    ("cycle 0", with_byte(IDLE, 11, 0), "Shape", None),
    ("an idle one with an item", with_byte(IDLE, 15, 0), "Shape", None),
    ("an idle one with a value", with_byte(IDLE, 16, 1), "Shape", None),
    ("an idle one of no items", with_byte(IDLE, 7, 0), "Shape", None),
    ("an idle one of 257 items", with_byte(with_byte(IDLE, 6, 1), 7, 1), "Shape", None),
    ("ages", YOUNG, "", ("2", "1", "0", "2", "300", "0", "0", "11", "46,0")),
    ("a vector of ages", with_byte(with_byte(YOUNG, 3, 2), 25, 1), "", ("2", "2", "0", "2", "300", "0", "0", "11", "46,299")),
    ("an idle one of version 2", with_byte(IDLE, 2, 2), "", ("2", "0", "0", "2", "2", "3", "65535", "0", "")),
    ("1,024 ages", aged(2, 1024, 256, 0, 1023, 1, [255, *range(1, 255)] * 4 + [255] * 4), "",
     ("2", "2", "0", "1024", "256", "0", "1023", "1", ",".join(map(str, ([0] + LONG[:254]) * 4 + [0] * 4)))),
    ("1,025 ages", aged(2, 1025, 256, 0, 1023, 1, [255] * 1025), "Shape", None),
    ("an idle one of 1,025 items", with_byte(with_byte(with_byte(IDLE, 2, 2), 6, 4), 7, 1), "Shape", None),
    ("version 2 with four bytes an entry", with_byte(ITEM, 2, 2), "Length", None),
    ("version 1 with an age an entry", with_byte(YOUNG, 2, 1), "Length", None),
    ("one age less", YOUNG[:25], "Length", ("2", "1", "0", "2", "300", "0", "0", "11", "46")),
    ("an age of 0", with_byte(YOUNG, 24, 0), "Shape", ("2", "1", "0", "2", "300", "0", "0", "11", "0")),
    ("an age that is the cycle", aged(1, 2, 3, 0, 0, 11, (2, 3)), "Shape", ("2", "1", "0", "2", "3", "0", "0", "11", "1")),
    ("an age above the cycle", aged(1, 2, 3, 0, 0, 11, (254, 255)), "Shape", ("2", "1", "0", "2", "3", "0", "0", "11", "0")),
    ("version 2 in cycle 0", with_byte(with_byte(YOUNG, 10, 0), 11, 0), "Shape", None),
    ("the end mark", b"", None, None),
]
