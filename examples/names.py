#!/usr/bin/env python3
"""Puts a table's names and values into what `airdisk` printed, in place of items' numbers.

usage: examples/names.py NAMES [TEXT]                    TEXT, or standard input: a plan, a report, or notes
       examples/names.py NAMES --report REPORT [TEXT]    findings of an audit, each with its line of the report

NAMES is the file that deck_from_table.py makes with a deck: a line `item,name,form` for each item, where the form says how its values are
written: a number of decimals, or `time` for minutes as hours and minutes. A line that is none of a plan, a report or an audit is a note: there
each `item 3` gets the item's name after it.
"""
import csv
import decimal
import os
import re
import sys

HEAD = ["item", "name", "form"]
NUMBERS = 2 ** 64
decimal.getcontext().prec = 1000


def stop(why):
    sys.exit(f"{os.path.basename(sys.argv[0])}: {why}")


def read_rows(name):
    """The rows of a CSV file, empty lines left out; those of standard input where there is no name."""
    try:
        with open(name if name else 0, encoding="utf-8-sig", newline="") as file:
            return [row for row in csv.reader(file) if row]
    except OSError as error:
        stop(f"{name or 'standard input'} can't be read: {error.strerror}")
    except (UnicodeDecodeError, csv.Error) as error:
        stop(f"{name or 'standard input'} is no CSV text in UTF-8: {error}")


def read_names(name):
    """The name and the form of each item."""
    rows = read_rows(name)
    if not rows or rows[0] != HEAD:
        stop(f"{name} isn't the file of names that deck_from_table.py makes with a deck: its first line isn't {','.join(HEAD)}")
    for row in rows[1:]:
        if len(row) != 3 or not re.fullmatch("[0-9]{1,4}", row[0]) or not re.fullmatch("[0-9]{1,3}|time", row[2]):
            stop(f"{name}: the line {','.join(row)} isn't an item's number, its name, and a number of decimals or the word time")
    return {int(item): (called, form) for item, called, form in rows[1:]}


def value_of(number, form):
    """The value that a number stands for, as it is written."""
    whole = number - NUMBERS if number >= NUMBERS // 2 else number
    if form == "time":
        return f"{'-' if whole < 0 else ''}{abs(whole) // 60:02}:{abs(whole) % 60:02}"
    return str(decimal.Decimal(whole).scaleb(-int(form)))


class Names:
    """What items are called, and how their values are written."""

    def __init__(self, name):
        self.file, self.names = name, read_names(name)

    def called(self, item):
        if int(item) not in self.names:
            stop(f"{self.file} has no item {item}: it goes with another deck")
        return self.names[int(item)][0]

    def place(self, part):
        """A part `item@cycle=value`, or `item@cycle`."""
        item, cycle, value = re.fullmatch(r"(\d+)@(\d+)(?:=(\d+))?", part).groups()
        name = self.called(item)
        return f"{name}@{cycle}" + (f"={value_of(int(value), self.names[int(item)][1])}" if value else "")

    def slots(self, field):
        """A list of items' numbers, and of dashes."""
        return " ".join(part if part == "-" else self.called(part) for part in field.split(" "))

    def row(self, row):
        """A line of a plan or a report, where it is one with items."""
        row = list(row)
        if row[0] == "minor" and len(row) == 3:
            row[2] = self.slots(row[2])
        elif row[0] == "item" and len(row) == 7:
            row[1] = self.called(row[1])
        elif row[0] in ("accept", "unfinished") and len(row) == 5:
            row[4] = " ".join(map(self.place, row[4].split()))
        elif row[0] == "abort" and len(row) == 7:
            row[4:] = [" ".join(map(self.place, row[4].split())), self.place(row[5]), self.called(row[6])]
        elif row[0] == "aged" and len(row) == 6:
            row[4:] = [" ".join(map(self.place, row[4].split())), self.place(row[5])]
        return row

    def note(self, line):
        """A note, with the name of each item after its number."""
        def shown(found):
            item = int(found.group(2))
            return found.group(0) + (f" ({self.names[item][0]})" if item in self.names else "")
        return re.sub(r"\b(item|base) (\d+)\b", shown, line)


# The lines of a plan, of a report and of an audit
READS = r"(\d+@\d+=\d+( \d+@\d+=\d+)*)?"
LINES = re.compile(r"replan(,\d+){2}|program(,\d+){3}|disk(,\d+){4}|minor,\d+,(\d+|-)( (\d+|-))*|item(,\d+){6}|start|commit(,\d+){2}"
                   rf"|(accept|unfinished)(,\d+){{3}},{READS}|abort(,\d+){{3}},{READS},\d+@\d+,\d+"
                   rf"|aged(,\d+){{3}},{READS},\d+@\d+|counts(,\d+){{7}}|(glance|look)(,\d+){{3}}"
                   r"|fault(,\d+)+|drill(,\d+){11}|agrees,\d+|differs,\d+,[a-z]+|audited(,\d+){2}", re.ASCII)


def told(names, line, report):
    """A line as it is told with names."""
    if not LINES.fullmatch(line):
        return names.note(line)
    row = line.split(",")
    if row[0] in ("agrees", "differs") and report is not None:
        number = int(row[1])
        if number > len(report):
            stop(f"the audit tells of line {number}, and the report has {len(report)}: it is of another report")
        return line + " " + ",".join(names.row(report[number - 1]))
    return ",".join(names.row(row))


def main(words):
    report = None
    if len(words) >= 3 and words[1] == "--report":
        report = read_rows(words[2])
        del words[1:3]
    if len(words) not in (1, 2) or words[0].startswith("-") or words[1:] == ["--report"]:
        sys.exit(__doc__)
    names = Names(words[0])
    try:
        with open(words[1] if len(words) == 2 else 0, encoding="utf-8", newline="") as file:
            lines = file.read().splitlines()
    except OSError as error:
        stop(f"{words[1]} can't be read: {error.strerror}")
    except UnicodeDecodeError:
        stop(f"{words[1] if len(words) == 2 else 'standard input'} is no text in UTF-8")
    for line in lines:
        print(told(names, line, report))


if __name__ == "__main__":
    main(sys.argv[1:])
