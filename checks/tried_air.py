"""A draw of `checks/small` with its files: what the receivers in C have to make of it, compared with what they print."""
import os
import sys

TOP = os.path.dirname(os.path.dirname(os.path.abspath(__file__)))
sys.path.insert(0, os.path.join(TOP, "receivers", "c"))
from drawn_air import Draw, heard_of, is_in_order, printed, receiver, records_of, tape_of  # noqa: E402
from plan import plan_of, deck_of  # noqa: E402

COUNTS = "opened dozed late refused foreign copied".split()
# what enough draws have to show
SHOWN = {*COUNTS, "accept", "abort", "aged", "unfinished", "fault", "counts", "slept", "left as earlier"}


def write(name, bytes_):
    with open(name, "wb") as file:
        file.write(bytes_)


def read(name):
    with open(name, "rb") as file:
        return file.read()


def write_plan(program, deck, name):
    """Makes the plan of a deck."""
    words = plan_of(deck_of(deck), printed(program, "plan", deck).decode())
    write(name, b"".join(word.to_bytes(2, "big") for word in words))


class Tried:
    """A draw whose files are in a folder: its deck, its plan, the records as they were aired and as they are heard, and what `tune` prints of these."""

    def __init__(self, program, seed, number, folder):
        self.program, self.folder, self.draw = program, folder, Draw(seed, number)
        self.deck, self.plan, self.tape = (os.path.join(folder, name) for name in ("deck.csv", "deck.plan", "heard.tape"))
        write(self.deck, self.draw.text.encode())
        write_plan(program, self.deck, self.plan)
        self.report = printed(program, "script", self.deck, self.tape)
        self.aired = records_of(read(self.tape))
        self.heard = heard_of(self.draw, self.aired)
        whole = tape_of(self.heard)
        self.is_cut = self.draw.chance.random() < 0.02 and bool(whole)
        write(self.tape, whole[:-1] if self.is_cut else whole)
        self.rows = printed(program, "tune", self.deck, self.tape)
        self.seen = seen_in(self.rows.decode().splitlines())

    def wrong(self, builds):
        """What isn't as it has to be; None if all is."""
        if b"counts," not in self.report or not self.rows:
            return f"the program printed {self.report[:200]!r} and {self.rows[:200]!r}"
        got = printed(builds["full"], self.plan, self.tape)
        if got != self.rows:
            return f"the full build printed\n{got.decode()}and not\n{self.rows.decode()}"
        return self.wrong_buckets(builds["full"]) or self.wrong_sleep(builds["full"]) or (self.wrong_thin(builds["thin"]) if self.draw.is_thin else None)

    def wrong_buckets(self, full):
        """Each record is the bucket, or has the fault, that examples/receiver.py tells."""
        if self.is_cut:
            return None
        got, wanted = printed(full, "--tape", self.tape).decode(), "".join(f"{bucket}\n" for bucket in map(receiver.decode, self.heard))
        return None if got == wanted else f"of its records the full build told\n{got}and not\n{wanted}"

    def wrong_sleep(self, full):
        """On air as it was aired a reader without copies may sleep: its verdicts and what it opens are the same, and of what it needn't hear it hears one
        bucket of each edition at most."""
        if self.heard != self.aired or self.is_cut or any(self.draw.rooms):
            return None
        rows = printed(full, "--sleep", self.plan, self.tape).splitlines()
        wanted = self.rows.splitlines()
        for row, other in zip(rows, wanted):
            fields, others = row.split(b","), other.split(b",")
            if row != other and not (fields[0] == b"counts" and fields[:3] + fields[4:] == others[:3] + others[4:] and int(fields[3]) <= 1 + len(self.draw.replans)):
                return f"asleep the full build printed {row!r} and not {other!r}"
        self.seen.update(["slept"] * (rows != wanted))
        return None if len(rows) == len(wanted) else "asleep the full build printed another number of rows"

    def wrong_thin(self, thin):
        """In order the thin build prints the same. Else it leaves the records that it has to, and each reader's rows are those of the records that it kept."""
        got = printed(thin, self.plan, self.tape)
        if is_in_order(self.heard) or self.is_cut:
            return None if got == self.rows else f"the thin build printed\n{got.decode()}and not\n{self.rows.decode()}"
        left, wanted = [set() for _ in self.draw.rooms], [Thin.left_by(self.deck, reader, self.heard) for reader in range(len(self.draw.rooms))]
        for row in printed(thin, "--dropped", self.plan, self.tape).decode().splitlines():
            reader, number = map(int, row.split(","))
            left[reader].add(number)
        if left != wanted:
            return f"the thin build left the records {left}, and not {wanted}"
        kept_tape = os.path.join(self.folder, "kept.tape")
        for reader in range(len(self.draw.rooms)):
            write(kept_tape, tape_of(record for number, record in enumerate(self.heard) if number not in left[reader]))
            kept = rows_of(printed(self.program, "tune", self.deck, kept_tape), reader, len(left[reader]))
            if rows_of(got, reader) != kept:
                return f"the thin build printed of reader {reader}\n{rows_of(got, reader)}and of the records that it kept tune prints\n{kept}"
        self.seen.update(["left as earlier"] * any(left))
        return None


class Thin(receiver.Reader):
    """The receiver of examples/receiver.py, which leaves what the thin build has to leave: a wanted bucket that isn't too far from the held reads, and of an
    earlier cycle than the last of them."""

    def open(self, new):
        if self.held and new.cycle < self.held[-1].cycle and not self.deck.is_aged(self.held, new):
            self.left.add(self.at)
        else:
            super().open(new)

    @staticmethod
    def left_by(deck, number, records):
        """The numbers of the records that a reader of a deck leaves."""
        reader = Thin(receiver.read_deck(deck), number)
        reader.left = set()
        for reader.at, record in enumerate(records):
            reader.hear(receiver.decode(record))
        return reader.left


def seen_in(rows):
    """The sorts of rows, and the counts that aren't 0."""
    counted = [name for row in rows if row.startswith("counts,") for name, count in zip(COUNTS, row.split(",")[2:]) if count != "0"]
    return set(counted) | {row.split(",")[0] for row in rows}


def rows_of(rows, reader, left=0):
    """The rows of one reader; how many records a thin build left is in the row of its counts."""
    own = [row for row in rows.decode().splitlines() if row.split(",")[1] == str(reader)]
    return "".join(f"{row},{left}\n" if left and row.startswith("counts,") else f"{row}\n" for row in own)
