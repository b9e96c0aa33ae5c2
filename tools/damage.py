"""Damage to the bytes of a deck, a tape, a report or datagrams, drawn at random: `tools/fuzz` goes by it."""
import re

# Numbers at the edges of what is read
EDGES = [0, 1, 2, 3, 7, 8, 9, 15, 16, 17, 63, 64, 65, 99, 100, 101, 255, 256, 257, 9_999, 10_000, 10_001, 16_384, 65_535, 65_536, 999_999, 1_000_000, 1_000_001,
         2**31 - 1, 2**31, 2**32 - 2, 2**32 - 1, 2**32, 2**63, 2**64 - 1, 2**64, 10**40]
# What is put in place of a number, too
ODD = [b"", b"-", b"-1", b"+1", b"01", b"1.5", b" 1", b"1 ", b"x", b"\xff", b"0x1", b'"1"', b"1\n", b"1,1", b"="]


def change_byte(draw, bytes_):
    """A byte that is another one, or is put in, or is lost."""
    at, way = draw.randrange(len(bytes_) + 1), draw.randrange(3)
    put = bytes([draw.choice((draw.randrange(256), draw.choice(b",=@ -+\n\r\"0s")))])
    return bytes_[:at] + (b"" if way == 2 else put) + bytes_[at + (way != 1):]


def change_number(draw, bytes_):
    """Digits that are another number or no number; in bytes that are no text four or eight bytes that are a number at an edge."""
    places = [found.span() for found in re.finditer(rb"[0-9]+", bytes_)]
    if b"\0" in bytes_ or not places:
        size = draw.choice((1, 2, 4, 4, 4, 8))
        at = draw.randrange(len(bytes_) // 2 + 1) * 2
        put = (draw.choice(EDGES) + draw.randrange(2)) % 256**size
        return bytes_[:at] + put.to_bytes(size, "big") + bytes_[at + size:]
    begin, end = draw.choice(places)
    put = draw.choice(ODD) if draw.randrange(4) == 0 else str(draw.choice(EDGES)).encode()
    return bytes_[:begin] + put + bytes_[end:]


def parts_of(bytes_):
    """The lines of a text, each with its line feed, or the records of a tape, each with its length."""
    if b"\0" not in bytes_:
        return bytes_.splitlines(keepends=True)
    parts, at = [], 0
    while at < len(bytes_):
        size = 4 + int.from_bytes(bytes_[at:at + 4], "big")
        parts.append(bytes_[at:at + size])
        at += size
    return parts


def change_parts(draw, bytes_):
    """A line or a record that is lost, doubled or moved."""
    parts = parts_of(bytes_)
    if not parts:
        return bytes_
    part, way = parts.pop(draw.randrange(len(parts))), draw.randrange(3)
    for _ in range(way):
        parts.insert(draw.randrange(len(parts) + 1), part)
    return b"".join(parts)


def cut(draw, bytes_):
    return bytes_[:draw.randrange(len(bytes_) + 1)]


def damaged(draw, bytes_):
    for _ in range(draw.choice((1, 1, 1, 2, 2, 3))):
        bytes_ = draw.choice((change_byte, change_byte, change_number, change_number, change_number, change_parts, change_parts, cut))(draw, bytes_)
    return bytes_
