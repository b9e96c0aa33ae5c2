#!/usr/bin/env python3
"""Makes a deck from a table, and puts the table's names and values back into a report.

usage: examples/deck_from_table.py TABLE DECK NAMES [disk=SIZE,FREQ].. [query=NAME,NAME..].. [--together]
       examples/deck_from_table.py REPORT NAMES

TABLE is a CSV file with a header. Its first column has the names; a column with the head `rate`, if there is one, says how often each is
asked for (a whole number, 1 if left out); each other column has values, the first of them those at the start, each further one those at a
later moment. A value is a whole or decimal number, which may be negative, or a time of day as 07:05.

Each row is an item. The values of a row are scaled by one power of ten, so that they are whole, and a negative one is written as 2^64 less
what it lacks, so that sums and differences stay right; times are minutes. In each later column each row that changes is an update of its own,
committed while the cycle before is on the air. With --together all that change in a column are one update (or several, of 16 items at most):
that says that they belong together, so that a reader who has one of them from before and another from after it is refused. Take it where the
rows make sense together alone, as the two sides of one account; else it costs attempts for nothing.

Without a disk there is one for all; without a query one for each item, and they are those of one reader. A deck of more than 256 items has version 2. NAMES gets the items' names, and how
their values are written. Of a report the second form prints each read with its name and its value; names.py does so, and more.
"""
import csv
import decimal
import os
import re
import sys

from names import HEAD, NUMBERS, Names, read_rows, stop

WRITES, FULL_ITEMS, ITEMS, WANTED, RATE, DISKS, FREQUENCY, DIGITS, UPDATES, STARTS = 16, 256, 1024, 16, 1_000_000, 8, 64, 60, 100_000, 10_000
REPORT = {"start", "commit", "accept", "abort", "unfinished", "aged", "counts", "glance", "look", "fault"}


def write_rows(name, rows):
    try:
        with open(name, "w", encoding="utf-8", newline="") as file:
            csv.writer(file, lineterminator="\n").writerows(rows)
    except OSError as error:
        stop(f"{name} can't be written: {error.strerror}")


def is_number(text, least, most):
    """Whether a text is a whole number within these limits."""
    return re.fullmatch("[0-9]{1,9}", text) is not None and least <= int(text) <= most


def value_in(text, where):
    """The value that a cell has: a decimal number, or a time as minutes; and whether it is a time."""
    text = text.strip()
    if time := re.fullmatch(r"(\d{1,2}):([0-5]\d)", text):
        return decimal.Decimal(int(time.group(1)) * 60 + int(time.group(2))), True
    if not text:
        stop(f"{where} is empty: each row has a value in each column")
    if ":" in text:
        stop(f"{where} is {text}: a time has hours and two digits of minutes, 00 to 59, as 7:05")
    if re.fullmatch(r"[-+]?\d{1,3}(,\d{3})+(\.\d+)?", text):
        stop(f"{where} is {text}: a number has no commas in it")
    if re.fullmatch(r"[-+]?\d+,\d+", text):
        stop(f"{where} is {text}: decimals stand behind a point")
    try:
        value = decimal.Decimal(text)
    except decimal.InvalidOperation:
        stop(f"{where} is {text}: neither a number nor a time")
    if not value.is_finite():
        stop(f"{where} is {text}: neither a number nor a time")
    if len(value.as_tuple().digits) > DIGITS or abs(value.adjusted()) > DIGITS:
        stop(f"{where} is {text}: it is too large, or has too many decimals")
    return value, False


def check_table(name, table):
    """Stops where a table has no header, no rows, or rows of other lengths than the header."""
    if not table:
        stop(f"{name} is empty: a header and a row for each item are wanted")
    head, *rows = table
    if len(head) == 1 and re.search("[;\t]", head[0]):
        stop(f"{name}: fields are separated by commas, and the header has a semicolon or a tab in place of them")
    if not rows:
        stop(f"{name} has a header alone: a row for each item is wanted")
    if len(rows) > ITEMS:
        stop(f"{name} has {len(rows)} rows, and a deck may have {ITEMS} items")
    for row in rows:
        if len(row) != len(head):
            stop(f"{name}: the row of {row[0] or 'an empty name'} has {len(row)} fields, and the header {len(head)}")
    heads = [word.strip() for word in head]
    if heads[1:].count("rate") > 1:
        stop(f"{name} has two columns rate")
    if not [word for word in heads[1:] if word != "rate"]:
        stop(f"{name} has no column of values behind that of the names")
    return heads, rows


def read_table(name):
    """The names, the rates, the form of each row's values, and these: of each row those of all moments."""
    heads, rows = check_table(name, read_rows(name))
    columns = [at for at, word in enumerate(heads) if at > 0 and word != "rate"]
    names, rates, forms, values = [], [], [], []
    for row in rows:
        called = row[0].strip()
        if not called:
            stop(f"{name}: a row has an empty name: {','.join(row)}")
        if called in names:
            stop(f"{name} has two rows of {called}: each row has a name of its own")
        names.append(called)
        rate = row[heads.index("rate", 1)].strip() if "rate" in heads[1:] else "1"
        if not is_number(rate, 0, RATE):
            stop(f"{name}: {called} has the rate {rate or '(empty)'}: not a whole number from 0 to {RATE}")
        rates.append(int(rate))
        cells = [value_in(row[at], f"{name}: {called} in column {heads[at]}") for at in columns]
        if len({is_time for _, is_time in cells}) > 1:
            stop(f"{name}: the row of {called} has times and other numbers: it has one of both alone")
        decimals = max(0, *(-value.normalize().as_tuple().exponent for value, _ in cells), 0)
        forms.append("time" if cells[0][1] else str(decimals))
        values.append([scaled(value, decimals, f"{name}: {called}") for value, _ in cells])
    return names, rates, forms, values


def scaled(value, decimals, where):
    """The number that stands for a value; there is one of this many decimals within 63 bits either way."""
    whole = int(value.scaleb(decimals))
    if not -NUMBERS // 2 <= whole < NUMBERS // 2:
        stop(f"{where}: {value} is too large with {decimals} decimals")
    return whole % NUMBERS


def read_disks(wishes, items):
    """The disks that are wished for, or one for all items."""
    disks = [[word.strip() for word in wish[5:].split(",")] for wish in wishes if wish.startswith("disk=")]
    for disk in disks:
        if len(disk) != 2:
            stop(f"disk={','.join(disk)} has {len(disk)} part{'' if len(disk) == 1 else 's'}: a size and a frequency are wanted, as in disk=2,1")
        if not is_number(disk[0], 1, ITEMS):
            stop(f"disk={','.join(disk)} has the size {disk[0] or '(empty)'}: 1 to {ITEMS}")
        if not (disk[1] == "-" or is_number(disk[1], 1, FREQUENCY)):
            stop(f"disk={','.join(disk)} has the frequency {disk[1] or '(empty)'}: 1 to {FREQUENCY}, or -")
    if len(disks) > DISKS:
        stop(f"there are {len(disks)} disks, and a deck may have {DISKS}")
    if disks and sum(int(size) for size, _ in disks) != items:
        stop(f"the sizes of the disks add up to {sum(int(size) for size, _ in disks)}, and the number of items is {items}")
    return [[int(size), freq if freq == "-" else int(freq)] for size, freq in disks] or [[items, 1]]


def read_queries(table, wishes, names):
    """The items of each query that is wished for, or a query for each item."""
    queries = [[name.strip() for name in wish[6:].split(",")] for wish in wishes if wish.startswith("query=")]
    for query in queries:
        for at, name in enumerate(query):
            if name not in names:
                stop(f"{table} has no row of {name or 'an empty name'}, which a query has")
            if name in query[:at]:
                stop(f"query={','.join(query)} has {name} twice")
        if len(query) > WANTED:
            stop(f"query={','.join(query)} has {len(query)} names, and a query may have {WANTED}")
    return [[names.index(name) for name in query] for query in queries] or [[item] for item in range(len(names))]


def updates_of(values, together):
    """The updates of each later moment: each a list of writes."""
    moments = []
    for at in range(1, len(values[0])):
        changed = [f"{item}={row[at]}" for item, row in enumerate(values) if row[at] != row[at - 1]]
        size = WRITES if together else 1
        moments.append([changed[front:front + size] for front in range(0, len(changed), size)])
    return moments


def is_same(a, b):
    """Whether two names are of one file, however it is linked."""
    return os.path.realpath(a) == os.path.realpath(b) or os.path.exists(a) and os.path.exists(b) and os.path.samefile(a, b)


def make(table, deck, names_file, wishes, together):
    for one, other in ((table, deck), (table, names_file), (deck, names_file)):
        if is_same(one, other):
            stop(f"{one} and {other} are one file: TABLE, DECK and NAMES have to be three")
    names, rates, forms, values = read_table(table)
    lines = [["item", item, row[0], rate] for item, (row, rate) in enumerate(zip(values, rates))]
    lines += [["disk", *disk] for disk in read_disks(wishes, len(names))]
    lines += [["set", "version", 2]] if len(names) > FULL_ITEMS else []
    moments = updates_of(values, together)
    count = sum(map(len, moments))
    if count > UPDATES:
        stop(f"{table} has {count} changes, and a deck may have {UPDATES} updates: take fewer columns, or --together")
    if len(moments) >= STARTS:
        stop(f"{table} has {len(moments) + 1} columns of values, and a script may start {STARTS} cycles")
    lines += [["update", 0, "", " ".join(writes)] for updates in moments for writes in updates]
    lines.append(["reader", 0, 0, 3])
    lines += [["query", 0, " ".join(map(str, query))] for query in read_queries(table, wishes, names)]
    lines.append(["script", " ".join(["s"] + [event for updates in moments for event in ["0"] * len(updates) + ["s"]])])
    write_rows(deck, lines)
    write_rows(names_file, [HEAD] + [[item, name, form] for item, (name, form) in enumerate(zip(names, forms))])


def tell(report, names_file):
    if not os.path.exists(names_file):
        stop(f"there is no file {names_file}: to make a deck, name three files, TABLE, DECK and NAMES; for a report, the NAMES that were made with its deck")
    names, lines = Names(names_file), []
    for row in read_rows(report):
        try:
            if row[0] not in REPORT:
                raise ValueError
            lines.append(",".join(names.row(row)))
        except (ValueError, AttributeError):
            stop(f"{report} isn't a report: it has the line {','.join(row)}")
    for line in lines:
        print(line)


def main(words):
    together = "--together" in words
    wishes = [word for word in words if word.startswith(("disk=", "query="))]
    words = [word for word in words if word not in wishes and word != "--together"]
    for word in words:
        if re.match("[A-Za-z]+=", word):
            stop(f"{word}: there are disk=SIZE,FREQ and query=NAME,NAME alone (for a file of such a name put ./ before it)")
        if re.match("--.", word):
            stop(f"{word}: there is --together alone (for a file of such a name put ./ before it)")
    if len(words) == 3:
        make(*words, wishes, together)
    elif len(words) == 2 and (wishes or together):
        stop("a deck is made from three files' names, TABLE, DECK and NAMES, and there are two")
    elif len(words) == 2:
        tell(*words)
    else:
        sys.exit(__doc__)


if __name__ == "__main__":
    main(sys.argv[1:])
