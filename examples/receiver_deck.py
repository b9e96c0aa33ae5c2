"""What a receiver needs of a deck, written from docs/FORMATS.md alone: its readers with their queries, which item is in which slot of which
cycle, and what its policy says of reads. The deck is taken to be without faults.
"""
import csv
from functools import reduce
from math import gcd

IDLE, COLUMN, VECTOR = 0, 1, 2
# the age that tells the entry 0; reads that lie this many cycles apart can't be judged by ages
OLD = 255


def program_of(rates, disks, delta):
    """The item of each slot, None if it is idle; and what a copy of each item is worth."""
    step = lambda number: (len(disks) - number) * delta + 1
    frequencies = [step(number) if freq == "-" else int(freq) for number, (_, freq) in enumerate(disks, 1)]
    minors = reduce(lambda a, b: a * b // gcd(a, b), frequencies)
    order = sorted(range(len(rates)), key=lambda item: (-rates[item], item))
    parts, worth = [], [0] * len(rates)
    for size, frequency in zip((int(size) for size, _ in disks), frequencies):
        chunks = minors // frequency
        length = -(-size // chunks)
        parts.append((chunks, length, order[:size] + [None] * (chunks * length - size)))
        for item in order[:size]:
            worth[item] = rates[item] * chunks
        order = order[size:]
    slots = []
    for minor in range(minors):
        for chunks, length, places in parts:
            slots += places[minor % chunks * length:][:length]
    return slots, worth


class Deck:
    """The readers, each with its room, age, tries and queries; the programs, and the cycles from which on they are in force; the policy; and the
    version."""

    def __init__(self, rows):
        of = lambda tag: [row[1:] for row in rows if row[0] == tag]
        settings = dict(of("set"))
        self.policy, self.hears = settings.get("policy", "F"), int(settings.get("hears", 1000000))
        self.version = int(settings.get("version", 1))
        rates, delta = [int(rate) for _, _, rate in of("item")], int(settings.get("delta", 0))
        self.replans = [int(cycle) for cycle, _, _ in of("replan")]
        editions = [of("disk")] + [list(zip(sizes.split(), freqs.split())) for _, sizes, freqs in of("replan")]
        self.programs = [program_of(rates, disks, delta) for disks in editions]
        self.readers = [(int(room), int(age), int(tries), []) for room, age, tries in of("reader")]
        for reader, items in of("query"):
            self.readers[int(reader)][3].append([int(item) for item in items.split()])

    def edition_at(self, cycle):
        """The number of replans that are in force by this cycle."""
        return sum(first <= cycle for first in self.replans)

    def worth_at(self, cycle):
        """What a copy of each item is worth by the program in force in a cycle."""
        return self.programs[self.edition_at(cycle)][1]

    def fits(self, bucket):
        """Whether a bucket belongs in its slot of its cycle, and isn't of a newer version than the deck's."""
        edition = self.edition_at(bucket.cycle)
        slots, worth = self.programs[edition]
        if bucket.version > self.version or bucket.edition != edition or bucket.slot >= len(slots) or bucket.count != len(worth):
            return False
        item, kind = slots[bucket.slot], COLUMN if self.policy == "F" else VECTOR
        return bucket.kind == IDLE if item is None else (bucket.kind, bucket.item) == (kind, item)

    def clashes(self, held, new):
        """The items of the held reads with which a new one clashes."""
        stale = [read.item for read in held if new.entries[read.item] >= read.cycle]
        if self.policy == "F":
            return stale + [read.item for read in held if read.entries[new.item] >= new.cycle]
        if self.policy == "R":
            return stale if held and new.entries[new.item] >= held[0].cycle else []
        last = [read for read in held if read.cycle == max(read.cycle for read in held)]
        if not held or new.cycle >= last[0].cycle:
            return stale
        return [read.item for read in last] if last[0].entries[new.item] >= new.cycle else []

    def is_aged(self, held, new):
        """Whether the reads with a new one lie too far apart to be judged by ages."""
        cycles = [read.cycle for read in held] + [new.cycle]
        return self.version == 2 and max(cycles) - min(cycles) >= OLD

    def is_late(self, held, new):
        """Whether a wanted bucket isn't judged, as it is older than the last read."""
        return self.policy == "R" and held != [] and new.cycle < held[-1].cycle


def read_deck(name):
    """The deck that a file has."""
    csv.field_size_limit(1 << 27)
    with open(name, encoding="utf-8-sig", newline="") as file:
        return Deck([row for row in csv.reader(file) if row])
