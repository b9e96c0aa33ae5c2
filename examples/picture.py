#!/usr/bin/env python3
"""Draws what `airdisk` printed as one SVG picture, which any browser shows and which needs nothing else.

usage: examples/picture.py [--names NAMES] TEXT.. >picture.svg      each TEXT is a file with a plan or a report as it was printed

Of a plan: for each of its programs the slots of a cycle from left to right, a row for each disk, or, where they are too many for one line, line
below line with a strip of its disk's colour over each; the darker an item, the higher its rate. Of a report: what was committed in each cycle, and a row for each attempt of
each reader: what it read in which cycle, whether it was accepted, and why it was not. With a plan each read is at the slot of its item. NAMES
is the file that deck_from_table.py makes: with it items have their names and values. What is too much to draw is left out, and counted.
"""
import csv
import math
import re
import sys

from names import Names
from plans import Plan, Programs
from shapes import FAINT, INK, RULE, Picture, cut, shade, width_of

LEFT, ROW, WIDE, MOST, MOST_SLOTS = 150, 26, 1100, 400, 2048
YELLOW, GOLD = "#fff8c5", "#d4a72c"
COLOURS = {"accept": "#1a7f37", "abort": "#cf222e", "unfinished": "#8c959f", "aged": "#9a6700"}
ENDS = {"accept": "accepted", "abort": "aborted", "unfinished": "left unfinished", "aged": "aged, as its reads lie too far apart"}
DISKS = ["#d29922", "#1a7f37", "#8250df", "#cf222e", "#0969da", "#bf3989", "#57606a", "#1b7c83"]
# the lines of a plan and of a report: a tag, this many numbers, and lists
READS = r"(\d+@\d+=\d+( \d+@\d+=\d+)*)?"
PLAN = re.compile(r"replan(,\d+){2}|program(,\d+){3}|disk(,\d+){4}|minor,\d+,(\d+|-)( (\d+|-))*|item(,\d+){6}", re.ASCII)
REPORT = re.compile(rf"start|commit(,\d+){{2}}|(accept|unfinished)(,\d+){{3}},{READS}|abort(,\d+){{3}},{READS},\d+@\d+,\d+"
                    rf"|aged(,\d+){{3}},{READS},\d+@\d+|counts(,\d+){{7}}|(glance|look)(,\d+){{3}}", re.ASCII)


def draw_slot(picture, plan, slot, x, y, wide):
    item, _ = plan.slots[slot]
    if item == "-":
        picture.rect(x + 1, y, wide - 2, ROW - 6, "white", f"slot {slot}: idle", RULE)
        return
    fill, ink = shade(plan.share(int(item)))
    _, _, gap, _, pix = plan.items[int(item)]
    called = picture.called(int(item))
    picture.rect(x + 0.5, y, max(wide - 1, 1), ROW - 6, fill, f"slot {slot}: item {item}{f' ({called})' if picture.names else ''}, "
                 f"rate {plan.rates[int(item)]}, every {gap} slots; PIX {pix}")
    picture.text(x + wide / 2, y + 14, cut(called, wide - 2), ink, "middle", 11)


def draw_plan(picture, rows):
    """Each program of a plan."""
    fronts = [0] + [at for at, row in enumerate(rows) if row[0] == "replan"]
    picture.programs = Programs()
    for front, end in zip(fronts, fronts[1:] + [len(rows)]):
        part = rows[front:end]
        first = 1 if front == 0 else int(part[0][2])
        plan = Plan([row for row in part if row[0] != "replan"])
        draw_program(picture, plan, f"From cycle {first} on: a" if len(fronts) > 1 else "A")
        picture.programs.parts.append((first, plan))


def draw_program(picture, plan, words):
    """Time to the right: a row for each disk, or, where the slots are too many for one line, line below line."""
    longest = max(len(picture.called(item)) for item in plan.items)
    wide = max(30.0, min(96.0, 0.62 * 11 * longest + 8))
    shown = min(plan.count, MOST_SLOTS)
    is_long = plan.count * wide > WIDE
    picture.heading(f"{words} cycle of {plan.count} slots", f"{plan.minors} minor cycles of {plan.length} slots"
                    + (f"; {plan.count - shown} slots aren't drawn" if shown < plan.count else ""))
    signs = [(picture.box(shade(share)[0]), words) for share, words in ((0, "rate 0"), (1, f"rate {plan.top}"))] + [(picture.box("white", RULE), "idle")]
    if is_long:
        signs += [(picture.box(DISKS[disk]), f"disk {disk}, {frequency} a cycle") for disk, frequency, _, _ in plan.disks]
    picture.legend(signs)
    per = int(WIDE // wide) if is_long else plan.count
    if is_long and plan.length <= per:
        per -= per % plan.length
    lanes = 1 if is_long else len(plan.disks)
    for front in range(0, shown, per):
        base, slots = picture.height, range(front, min(front + per, shown))
        for lane in range(lanes):
            picture.text(16, base + lane * ROW + 17, f"slots {slots[0]} to {slots[-1]}" if is_long else f"disk {lane}, {plan.disks[lane][1]} a cycle")
            picture.rect(LEFT, base + lane * ROW + 2, len(slots) * wide, ROW - 4, "#f6f8fa")
        for slot in slots:
            x, disk = LEFT + (slot - front) * wide, plan.slots[slot][1]
            if slot % plan.length == 0:
                picture.line([(x, base), (x, base + lanes * ROW + 4)], FAINT)
            draw_slot(picture, plan, slot, x, base + 3 + (0 if is_long else disk * ROW), wide)
            if is_long:
                picture.rect(x + 1, base + 1, wide - 2, 3, DISKS[disk])
            if (slot - front) % math.ceil(24 / wide) == 0:
                picture.text(x + wide / 2, base + lanes * ROW + 12, str(slot), FAINT, "middle", 9)
        picture.height = base + lanes * ROW + 20
    picture.text(16, picture.height - 8, "slot", FAINT, size=10)
    picture.height += 14


def places(field):
    """The parts `item@cycle=value` of a list of reads, or of the read that ended an attempt."""
    return [(int(part.split("@")[0]), int(part.split("@")[1].split("=")[0]), part.partition("=")[2]) for part in field.split()]


def refused_by(row):
    """The read that ended the attempt, where it was aborted or aged."""
    return places(row[5]) if row[0] in ("abort", "aged") else []


def committed(rows):
    """The updates that were committed in each cycle."""
    commits, cycle = {}, 0
    for row in rows:
        cycle += row[0] == "start"
        if row[0] == "commit":
            commits.setdefault(cycle, []).append(f"{row[1]},{row[2]}")
    return commits


def draw_history(picture, commits, columns, wide):
    """What was committed in which cycle, or how much."""
    picture.text(16, picture.height + 17, "commits")
    for cycle, names in commits.items():
        shown, x = " ".join(names), LEFT + columns[cycle] * wide
        words = shown if width_of(shown) < wide - 8 else str(len(names))
        when = f"while cycle {cycle} is on the air" if cycle else "before the first cycle"
        picture.rect(x + wide * 0.02, picture.height + 3, wide * 0.96, ROW - 6, YELLOW, f"{when}: {shown}", GOLD)
        if width_of(words) < wide - 4:
            picture.text(x + wide / 2, picture.height + 17, words, anchor="middle", size=11)
    picture.height += ROW


def spots(picture, reads, after):
    """Where in its cycle each read is, as a share of it: at its item's next slot, if the plan is known; else one next to the other."""
    if picture.programs is None:
        total = {cycle: sum(other == cycle for _, other, _ in reads) for _, cycle, _ in reads}
        seen, found = {}, []
        for _, cycle, _ in reads:
            seen[cycle] = seen.get(cycle, 0) + 1
            found.append(seen[cycle] / (total[cycle] + 1))
        return found, after
    found = []
    for item, cycle, _ in reads:
        plan = picture.programs.at(cycle)
        aired = plan.aired[item]
        slot = next((slot for slot in aired if (cycle, slot) > after), aired[0])
        after = max(after, (cycle, slot))
        found.append((slot + 0.5) / plan.count)
    return found, after


def draw_attempt(picture, row, columns, wide, after):
    """The reads of an attempt over the cycles, and what came of it."""
    kind, _, query, attempt, reads = row[:5]
    held = places(reads)
    refused = refused_by(row)
    every = held + refused
    shares, after = spots(picture, every, after)
    y, colour = picture.height + ROW / 2, COLOURS[kind]
    points = [(LEFT + (columns[cycle] + share) * wide, y) for (_, cycle, _), share in zip(every, shares)]
    picture.text(28, y + 4, f"query {query}, try {attempt}")
    picture.line(points, colour, 2)
    for (x, _), (item, cycle, value) in zip(points, held):
        picture.dot(x, y, colour, f"{picture.called(item)} of cycle {cycle}: {picture.value(item, value)}")
    values = ", ".join(f"{picture.called(item)}={picture.value(item, value)}" for item, _, value in held)
    said = {"accept": f"accepted: {values}", "unfinished": f"unfinished: {values}" if held else "unfinished: nothing read"}
    if refused:
        picture.cross(*points[-1], colour)
        item, (named, cycle, _) = "" if picture.names else "item ", refused[0]
        new = f"{item}{picture.called(named)} of cycle {cycle}"
        said["aged"] = f"aged: {new} lies too far from the other reads ({values})"
        if kind == "abort":
            said["abort"] = f"aborted: {new} doesn't go with {item}{picture.called(int(row[6]))} ({values})"
    return said[kind], colour, after


def draw_axis(picture, columns, wide):
    """The number of each cycle, and, where the plan is known and there is room, that of slots in it."""
    for cycle, at in columns.items():
        if at % math.ceil(24 / wide) == 0:
            picture.text(LEFT + (at + 0.5) * wide, picture.height + 10, f"cycle {cycle}" if wide >= 60 else str(cycle), FAINT, "middle", 10)
    picture.height += 16
    if picture.programs is None or wide < 60:
        return
    picture.text(LEFT - 8, picture.height + 8, "slot", FAINT, "end", 9)
    for cycle, at in columns.items():
        count = picture.programs.at(cycle).count
        step = max(1, math.ceil(count * 24 / wide))
        # the last one leaves room for the first of the next cycle
        for slot in range(0, max(count - step, 0) + 1, step):
            picture.text(LEFT + (at + (slot + 0.5) / count) * wide, picture.height + 8, str(slot), FAINT, "middle", 9)
    picture.height += 14


def draw_readers(picture, rows, columns, wide):
    """A band for each reader, a row for each of its attempts; the notes after them."""
    notes = []
    for counts in (row for row in rows if row[0] == "counts"):
        opened, dozed, late, refused, foreign, copied = counts[2:]
        picture.text(16, picture.height + 18, f"reader {counts[1]}", weight="bold")
        words = f"opened {opened}, slept through {dozed}, from copies {copied}, late {late}, refused {refused}, foreign {foreign}"
        notes.append((picture.height + 18, words, FAINT))
        picture.height += ROW
        mine, after = [row for row in rows if row[0] in COLOURS and row[1] == counts[1]], (0, 0)
        for row in mine[:MOST]:
            words, colour, after = draw_attempt(picture, row, columns, wide, after)
            notes.append((picture.height + ROW / 2 + 4, words, colour))
            picture.height += ROW
        if len(mine) > MOST:
            notes.append((picture.height + 17, f"and {len(mine) - MOST} more, which aren't drawn", FAINT))
            picture.height += ROW
    return notes


def draw_report(picture, rows):
    """The history over the cycles, and below it the readers."""
    verdicts = [row for row in rows if row[0] in COLOURS]
    commits, starts = committed(rows), sum(row[0] == "start" for row in rows)
    cycles = {cycle for row in verdicts for _, cycle, _ in places(row[4]) + refused_by(row)}
    cycles |= set(commits) | {1, starts or 1}
    # all cycles from the first to the last, or, where these are too many, those in which something was read or committed
    every = range(min(cycles), max(cycles) + 1)
    columns = {cycle: at for at, cycle in enumerate(every if len(every) <= MOST else sorted(cycles))}
    wide = min(240.0 if picture.programs else 120.0, max(3.0, WIDE / len(columns)))
    left_out = f"; {len(every) - len(columns)} cycles in which nothing was read or committed aren't drawn" if len(columns) < len(every) else ""
    picture.heading("What the readers made of it", "time to the right, a row for each attempt" + (", each read at the next slot of its item" if picture.programs else "") + left_out)
    ended = [kind for kind in COLOURS if kind != "aged" or any(row[0] == kind for row in verdicts)]
    picture.legend([(lambda x, y, colour=COLOURS[kind]: picture.dot(x, y, colour), f"a read of an attempt that was {ENDS[kind]}") for kind in ended]
                   + [(lambda x, y: picture.cross(x, y, COLOURS["abort"]), "the read that was refused"), (picture.box(YELLOW, GOLD), "commits")])
    draw_axis(picture, columns, wide)
    begin = picture.height
    if commits:
        draw_history(picture, commits, columns, wide)
    notes = draw_readers(picture, rows, columns, wide)
    grid = Picture()
    for at in range(0, len(columns) + 1, math.ceil(12 / wide)):
        grid.line([(LEFT + at * wide, begin), (LEFT + at * wide, picture.height)], RULE)
    picture.shapes = grid.shapes + picture.shapes
    for y, words, colour in notes:
        picture.text(LEFT + len(columns) * wide + 14, y, words, colour)
    picture.height += 16


def stop(why):
    sys.exit(f"picture.py: {why}")


def read_rows(name):
    """The lines of a plan or of a report, and how it is drawn."""
    try:
        with open(name, encoding="utf-8", newline="") as file:
            rows = [row for row in csv.reader(file) if row]
    except OSError as error:
        stop(f"{name} can't be read: {error.strerror}")
    except (UnicodeDecodeError, csv.Error):
        stop(f"{name} is neither a plan nor a report")
    if not rows:
        stop(f"{name} is empty: there is nothing to draw")
    grammar, draw = (PLAN, draw_plan) if rows[0][0] == "program" else (REPORT, draw_report)
    for row in rows:
        if not grammar.fullmatch(",".join(row)):
            line = ",".join(row)
            stop(f"{name} is neither a plan nor a report: it has the line {line if len(line) <= 60 else line[:60] + '..'}")
    if draw == draw_report and {row[1] for row in rows if row[0] in COLOURS} - {row[1] for row in rows if row[0] == "counts"}:
        stop(f"{name} is cut: a reader in it has no line of counts")
    return rows, draw


def main(words):
    names = None
    if len(words) >= 2 and words[0] == "--names":
        names, words = Names(words[1]), words[2:]
    if not words or words[0].startswith("-"):
        sys.exit(__doc__)
    picture = Picture(names)
    for word in words:
        rows, draw = read_rows(word)
        try:
            draw(picture, rows)
        except (LookupError, ValueError, ArithmeticError):
            stop(f"{word} has lines that don't go together: it isn't as it was printed")
    sys.stdout.write(picture.whole())


if __name__ == "__main__":
    main(sys.argv[1:])
