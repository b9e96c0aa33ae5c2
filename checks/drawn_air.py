"""Drawn decks and tapes for receivers: a deck of a few items, replans, groups and copies; its tape as `script` airs it; and what may become of that before
readers hear it. The same seed and number give the same draw. Nothing here says what a receiver makes of it.
"""
import os
import random
import struct
import subprocess
import sys

TOP = os.path.dirname(os.path.dirname(os.path.abspath(__file__)))
sys.path.insert(0, os.path.join(TOP, "examples"))
import receiver  # noqa: E402

OLD = receiver.OLD


def parts_of(whole, parts, chance):
    """A whole cut into that many parts, each of 1 or more."""
    cuts = sorted(chance.sample(range(1, whole), parts - 1))
    return [end - begin for begin, end in zip([0, *cuts], [*cuts, whole])]


def drawn_disks(items, chance):
    """Sizes and frequencies."""
    sizes = parts_of(items, chance.randint(1, min(3, items)), chance)
    return sizes, [chance.choice((1, 1, 2, 3, 4)) for _ in sizes]


def drawn_update(items, chance):
    reads = chance.sample(range(items), chance.randint(0, min(2, items)))
    writes = [(item, chance.choice([*reads, None])) for item in chance.sample(range(items), chance.randint(1, min(2, items)))]
    parts = " ".join(f"{item}={chance.randrange(100)}" if base is None else f"{item}={base}+{chance.randrange(9)}" for item, base in writes)
    return f"{' '.join(map(str, reads))},{parts}"


class Draw:
    """A deck, by its seed and number: its text, and what is drawn of its tape. An odd draw's readers keep no copies and are under F-Matrix, so that the thin
    build may hear it."""

    def __init__(self, seed, number):
        self.chance = chance = random.Random(f"{seed} {number}")
        self.is_thin, self.version = number % 2 == 1, chance.choice((1, 1, 2, 2, 2))
        self.policy = "F" if self.is_thin else chance.choice("FFDDR")
        self.items = chance.choice((1, 2, 2, 3, 3, 4, 4, 5, 6, 8, 12, 20))
        if self.version == 2 and chance.random() < 0.01:
            self.items = chance.choice((257, 300, 1024))
        # in many cycles reads may lie too far apart
        self.cycles = 300 if self.version == 2 and self.items < 6 and chance.random() < 0.1 else chance.randint(2, 12)
        self.replans = sorted(chance.sample(range(2, 12), chance.choice((0, 0, 0, 1, 2, 3))))
        self.rooms = []
        self.text = "\n".join([*self.air_rows(), *self.update_rows(), *self.reader_rows(), ""])

    def air_rows(self):
        """What is aired, and when."""
        chance, rows = self.chance, [f"item,{item},{10 * item},{self.chance.randrange(4)}" for item in range(self.items)]
        sizes, freqs = drawn_disks(self.items, chance)
        rows += [f"disk,{size},{freq}" for size, freq in zip(sizes, freqs)]
        for cycle in self.replans:
            sizes, freqs = drawn_disks(self.items, chance)
            rows.append(f"replan,{cycle},{' '.join(map(str, sizes))},{' '.join(map(str, freqs))}")
        rows += [f"set,policy,{self.policy}", f"set,version,{self.version}"]
        return rows + [f"set,group,{chance.randint(1, self.items + 1)}"] * (self.policy == "F" and chance.random() < 0.3)

    def update_rows(self):
        """Updates of two updaters, and the script: cycles with commits between them."""
        chance = self.chance
        by = [chance.randrange(2) for _ in range(chance.randint(0, 20))]
        script = ["s"] + [chance.choice(("s", "c")) for _ in by]
        script += ["s"] * (self.cycles - script.count("s")) + ["c"] * (len(by) - script.count("c"))
        left = iter(by)
        return [f"update,{who},{drawn_update(self.items, chance)}" for who in by] + \
            ["script," + " ".join("s" if event == "s" else str(next(left)) for event in script)]

    def reader_rows(self):
        chance, rows = self.chance, []
        for reader in range(chance.randint(1, 3)):
            self.rooms.append(0 if self.is_thin or chance.random() < 0.3 else chance.randint(1, 4))
            rows.append(f"reader,{self.rooms[-1]},{chance.choice((0, 1, 2, 5, 300, 10000))},{chance.randint(1, 3)}")
            for _ in range(chance.randint(1, 5)):
                wants = chance.sample(range(self.items), chance.randint(1, min(self.items, chance.choice((2, 3, 5, 16)))))
                rows.append(f"query,{reader},{' '.join(map(str, wants))}")
        return rows

    def edition_at(self, cycle):
        return sum(first <= cycle for first in self.replans)


def encoded(bucket):
    """The bytes of a bucket, in its version; None if an entry has no age."""
    head = struct.pack(">2sBBHHIHHQ", b"AD", *bucket[:-1])
    if bucket.version == 1:
        return head + struct.pack(f">{len(bucket.entries)}I", *bucket.entries)
    ages = [OLD if entry == 0 else bucket.cycle - entry for entry in bucket.entries]
    return head + bytes(ages) if all(0 < age <= OLD for age in ages) else None


def mapped(records, change):
    """The records, of which those that are buckets are changed; one that then has no bytes stays as it is."""
    buckets = [(record, receiver.decode(record)) for record in records]
    return [record if isinstance(bucket, str) else encoded(change(bucket)) or record for record, bucket in buckets]


def with_wild_entries(records, draw):
    """Buckets with other entries than those of the script: any below the cycle, or near it."""
    chance = draw.chance

    def entry(cycle):
        return chance.choice((0, cycle - 1, max(cycle - 2, 0), chance.randrange(max(cycle - OLD, 0) + 1, cycle) if cycle > 1 else 0))

    return mapped(records, lambda bucket: bucket._replace(
        entries=tuple(entry(bucket.cycle) if chance.random() < 0.3 else old for old in bucket.entries)))


def with_a_jump(records, draw):
    """From a record on, the cycles are greater: silence was on the air."""
    if not records:
        return records
    at, more = draw.chance.randrange(len(records)), draw.chance.choice((1, 2, 240, 250, 253, 254, 255, 256, 400))

    def moved(bucket):
        cycle = bucket.cycle + more
        return bucket._replace(cycle=cycle, edition=draw.edition_at(cycle), entries=tuple(entry + more if entry else 0 for entry in bucket.entries))

    return records[:at] + mapped(records[at:], moved)


def in_both_versions(records, draw):
    """Some buckets in the other version."""
    return mapped(records, lambda bucket: bucket._replace(version=draw.chance.choice((bucket.version, 3 - bucket.version))))


def with_losses(records, draw):
    """Some records lost, some twice or more."""
    rate = draw.chance.choice((0.02, 0.1, 0.4))
    return [record for record in records for _ in range(draw.chance.choice((0, 0, 2, 3)) if draw.chance.random() < rate else 1)]


def with_delays(records, draw):
    """Some records later than others that were aired after them."""
    far = draw.chance.choice((2, 10, 40, len(records) + 1))
    order = sorted(range(len(records)), key=lambda at: at + (draw.chance.randrange(far) if draw.chance.random() < 0.3 else 0))
    return [records[at] for at in order]


def shuffled(records, draw):
    return draw.chance.sample(records, len(records))


# Of each field of a bucket that damage may change: where it is, how many bytes it has, and by how much it changes
FIELDS = [(2, 1, (-1, 1, 2)), (3, 1, (-1, 1, 2)), (4, 2, (-1, 1)), (6, 2, (-1, 1)), (8, 4, (-2, -1, 1, 2, -254, -255, 254, 255)), (12, 2, (-1, 1, 2)),
          (14, 2, (-1, 1)), (23, 1, (1,))]


def with_damage(records, draw):
    """Some records with a field that is another one, with another byte, with fewer or more bytes, or with none."""
    chance, heard = draw.chance, []
    for record in map(bytearray, records):
        what = chance.random()
        if what < 0.06 and len(record) >= 24:
            at, size, changes = chance.choice(FIELDS)
            value = (int.from_bytes(record[at:at + size], "big") + chance.choice(changes)) % 256**size
            record[at:at + size] = value.to_bytes(size, "big")
        elif what < 0.1 and record:
            record[chance.randrange(len(record))] = chance.choice((0, 1, 2, 254, 255, chance.randrange(256)))
        elif what < 0.13:
            record = chance.choice((record[:-1], record + b"\0", record[:23], bytearray(), record + bytes(3000)))
        heard.append(bytes(record))
    return heard


CALM, ROUGH = (with_wild_entries, with_a_jump, in_both_versions, with_losses), (with_delays, shuffled, with_damage)


def is_in_order(records):
    """Whether the cycles of the buckets never fall."""
    cycles = [bucket.cycle for bucket in map(receiver.decode, records) if not isinstance(bucket, str)]
    return cycles == sorted(cycles)


def records_of(tape):
    """The records of a whole tape."""
    return list(receiver.records(tape))


def tape_of(records):
    return b"".join(len(record).to_bytes(4, "big") + record for record in records)


def heard_of(draw, records):
    """The records as readers hear them: as they were aired, or as up to four ways change them."""
    chance = draw.chance
    ways = [chance.choice(CALM) for _ in range(chance.choice((0, 1, 2, 3)))] + [chance.choice(ROUGH) for _ in range(chance.choice((0, 0, 1)))]
    for way in ways:
        records = way(records, draw)
    return records


def printed(*words):
    """What a program prints."""
    return subprocess.run(words, stdin=subprocess.DEVNULL, stdout=subprocess.PIPE, stderr=subprocess.DEVNULL, check=False).stdout
