#!/usr/bin/env python3
"""Makes the plan of a receiver in C (air.h) from a deck and what `airdisk plan` prints of it, which is read from standard input.

usage: airdisk plan DECK | receivers/c/plan.py DECK FILE             a file for tune and listen, with all readers of the deck
       airdisk plan DECK | receivers/c/plan.py DECK FILE.h READER    a C header for a board, with this reader alone

A plan is numbers of 16 bits; air.c says in which order. In a file each has its high byte first. The deck is taken to be without faults.
"""
import csv
import sys

FORM, NO_ITEM = 1, 65535


def deck_of(name):
    """The records of a deck by their tags."""
    csv.field_size_limit(1 << 27)
    rows = {tag: [] for tag in ("reader", "query", "set")}
    with open(name, encoding="utf-8-sig", errors="replace", newline="") as file:
        for row in csv.reader(file):
            if row:
                rows.setdefault(row[0], []).append(row[1:])
    return rows


def editions_of(printed):
    """The editions that a plan's lines tell: of each its first cycle, the item of each slot, and the place of each item in the order in which copies stay."""
    editions = [(0, [], [])]
    for tag, *fields in (line.split(",") for line in printed.splitlines()):
        if tag == "replan":
            editions.append((int(fields[1]), [], []))
        elif tag == "minor":
            editions[-1][1].extend(NO_ITEM if slot == "-" else int(slot) for slot in fields[1].split(" "))
        elif tag == "item":
            editions[-1][2].append(int(fields[5]))
    for first, slots, pix in editions:
        order = sorted(range(len(pix)), key=lambda item: (-pix[item], item))
        ranks = [0] * len(pix)
        for place, item in enumerate(order):
            ranks[item] = place
        yield first, slots, ranks


def plan_of(deck, printed, reader=None):
    """The words of a plan, with all readers or with one."""
    settings = dict(deck["set"])
    editions = list(editions_of(printed))
    readers = [[int(field) for field in fields] + [0] for fields in deck["reader"]]
    for number, items in deck["query"]:
        wants = [int(item) for item in items.split(" ")]
        readers[int(number)][3] += 1
        readers[int(number)] += [len(wants), *wants]
    if reader is not None:
        readers = readers[reader:reader + 1]
    words = [FORM, "FDR".index(settings.get("policy", "F")), int(settings.get("version", 1)), len(editions[0][2]), len(editions), len(readers)]
    for first, slots, ranks in editions:
        words += [first, len(slots), *slots, *ranks]
    return words + [word for one in readers for word in one]


def header_of(words):
    """A C header with these words."""
    rows = [", ".join(map(str, words[at:at + 16])) for at in range(0, len(words), 16)]
    return "#include <stdint.h>\n\nstatic const uint16_t air_plan[] = {\n" + "".join(f"    {row},\n" for row in rows) + "};\n"


def main(arguments):
    if len(arguments) not in (2, 3):
        sys.exit(__doc__)
    reader = int(arguments[2]) if len(arguments) == 3 else None
    words = plan_of(deck_of(arguments[0]), sys.stdin.read(), reader)
    data = header_of(words).encode() if reader is not None else b"".join(word.to_bytes(2, "big") for word in words)
    with open(arguments[1], "wb") as file:
        file.write(data)


if __name__ == "__main__":
    main(sys.argv[1:])
