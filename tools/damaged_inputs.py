"""The damaged inputs of `tools/fuzz`: the decks of which they are made, the forms of what commands print over them, and the input of a number."""
import os
import random
import re
import subprocess

from damage import EDGES, damaged, parts_of
from preloads import read, write

# The decks from which inputs are made: each can be run, and has a script
DECKS = [
    "item,0,10,1\nitem,1,20,1\ndisk,2,1\nreader,0,0,1\nquery,0,0 1\nscript,s\nset,cycles,1\n",
    "item,0,10,1\nitem,1,20,2\ndisk,2,1\nupdate,0,,0=11\nupdate,0,,1=21\nreader,0,0,1\nquery,0,0 1\nscript,s 0 0 s\nset,cycles,2\n",
    "item,0,10,2\nitem,1,20,3\nitem,2,30,1\ndisk,1,2\ndisk,2,1\nupdate,0,,0=11\nupdate,0,0,2=0+1\nupdate,1,2,1=2+1\nreader,2,9,2\nquery,0,0 1\n"
    "query,0,2\nreader,1,5,3\nquery,1,1 0 2\nscript,s 0 1 s 0 s s\nset,cycles,3\nset,seed,7\nset,loss,20\nset,again,20\nset,late,20\nset,monitors,2\n",
    "item,0,18446744073709551615,5\nitem,1,1,5\nitem,2,2,5\ndisk,1,4\ndisk,1,-\ndisk,1,1\nset,delta,1\nset,policy,D\nupdate,0,0,0=0+1 1=7\nupdate,0,1,2=1-3\n"
    "reader,1,0,2\nquery,0,2 1 0\nquery,0,1\nscript,s 0 s 0 s\nset,cycles,2\nset,monitors,1\n",
    "item,0,10,2\nitem,1,20,1\nitem,2,30,9\ndisk,3,1\nset,policy,R\nupdate,3,,2=1\nupdate,0,2,0=2+5\nreader,0,0,3\nquery,0,1 0 2\nreader,3,100,1\nquery,1,0\n"
    "query,1,2 0\nscript,3 s 0 s s\nset,cycles,2\nset,late,50\nset,hears,20\n",
    "set,version,2\nitem,0,10,2\nitem,1,20,1\nitem,2,30,1\ndisk,1,2\ndisk,2,1\nupdate,0,,0=11\nupdate,0,0,1=0+10\nreader,2,300,2\nquery,0,0 1\n"
    "query,0,2\nscript,s 0 s 0 s\nset,cycles,3\nset,loss,10\nset,late,20\n",
    # five items in three groups
    "item,0,10,2\nitem,1,20,1\nitem,2,30,1\nitem,3,40,3\nitem,4,50,1\ndisk,2,2\ndisk,3,1\nset,group,2\nupdate,0,,0=11\nupdate,0,0,3=0+10\nreader,1,9,2\nquery,0,0 1 4\n"
    "query,0,2 3\nscript,s 0 s 0 s s\nset,cycles,3\nset,late,30\n",
    # as few items as make a search of `split` too long on one disk
    "".join(f"item,{item},{1000 + item},{item % 7}\n" for item in range(775)) + "disk,775,1\nset,version,2\nupdate,0,774,1=774-5\nreader,1,9,2\n"
    "query,0,774 1\nscript,0 s\nset,cycles,1\n",
    # three editions, with cycles of 3, 4 and 6 slots
    "item,0,10,3\nitem,1,20,2\nitem,2,30,1\ndisk,3,1\nreplan,2,1 2,2 1\nreplan,4,2 1,- 1\nset,delta,1\nupdate,0,,0=11\nupdate,0,0,1=0+10\nreader,1,9,2\n"
    "query,0,0\nquery,0,2 1\nquery,0,1 0\nreader,0,0,2\nquery,1,1 2\nscript,s 0 s 0 s s s\nset,cycles,5\nset,loss,10\nset,late,20\n",
    # version 2, groups and programs that change in one deck
    "set,version,2\nset,group,2\nitem,0,10,3\nitem,1,20,2\nitem,2,30,1\nitem,3,40,1\ndisk,1,2\ndisk,3,1\nreplan,2,2 2,2 1\nreplan,4,4,1\nupdate,0,,0=11\n"
    "update,0,0,1=0+10\nreader,2,300,2\nquery,0,0 1\nquery,0,3 2\nreader,0,0,1\nquery,1,2 3\nscript,s 0 s 0 s s s\nset,cycles,4\nset,loss,10\nset,late,20\n",
]
# Reports of a run of the decks that have monitors, since its threads make another history each time; and one with an attempt that aged
RUNS = {
    DECKS[2]: [
        "commit,1,0\nstart\nstart\nstart\ncommit,0,0\ncommit,0,1\naccept,0,0,1,0@2=10 1@2=31\naccept,0,1,1,2@3=30\naccept,1,0,1,1@1=31 0@2=10 2@2=30\n"
        "counts,0,3,11,0,0,0,0\ncounts,1,3,7,0,0,0,0\nglance,0,3,71\nglance,1,0,60\nlook,0,3,71\nlook,1,3,71\n"
    ],
    DECKS[3]: [
        "commit,0,0\ncommit,0,1\nstart\nstart\naccept,0,0,1,2@1=4 1@1=7 0@1=0\naccept,0,1,1,1@2=7\ncounts,0,4,20,0,0,0,0\nglance,0,0,2\nlook,0,2,11\n"
    ],
    DECKS[5]: [
        "start\ncommit,0,0\n" + "start\n" * 255 + "aged,0,0,1,0@1=10,1@256\naccept,0,0,2,0@256=11 1@256=20\naccept,0,1,1,2@256=30\ncounts,0,5,9,0,0,0,0\n"
    ],
}

DECK_FAULT = r"fault,2,[1-9][0-9]*,([1-9]|10|11|13)\n"
TOO_LONG = r"fault,13,[1-9][0-9]*\n"
TOO_MUCH = r"fault,11,[1-9][0-9]*\n"
TOO_MANY = r"fault,12,[0-9]+\n"
CUT = r"fault,6,[0-9]+\n"
PART = r"[0-9]+@[0-9]+=[0-9]+"
READS = rf"({PART}( {PART})*)?"
HISTORY = r"((start|commit,[0-9]+,[0-9]+)\n)*"
VERDICTS = (rf"((accept|unfinished),[0-9]+,[0-9]+,[0-9]+,{READS}\n|abort,[0-9]+,[0-9]+,[0-9]+,{READS},[0-9]+@[0-9]+,[0-9]+\n"
            rf"|aged,[0-9]+,[0-9]+,[0-9]+,{READS},[0-9]+@[0-9]+\n)*")
COUNTS = r"(counts(,[0-9]+){7}\n)*"
SIGHTS = r"(glance(,[0-9]+){3}\n)*(look(,[0-9]+){3}\n)*"
PROGRAM = r"program(,[0-9]+){3}\n(disk(,[0-9]+){4}\n)+(minor,[0-9]+,([0-9]+|-)( ([0-9]+|-))*\n)+(item(,[0-9]+){6}\n)+"
PLAN = rf"{PROGRAM}(replan(,[0-9]+){{2}}\n{PROGRAM})*"
FINDINGS = r"(agrees,[0-9]+\n|differs,[0-9]+,(value|verdict|clash|total)\n)*audited,[0-9]+,"
# Of each command: its words, its other input, its weight, and the text of each status that it has over a file that can be read
COMMANDS = {
    "plan": ("plan DECK", None, 20, {0: PLAN, 2: DECK_FAULT, 13: TOO_LONG}),
    "split": ("split DECK", None, 10, {0: r"split,[1-9][0-9 ]*,[0-9]+\ngiven,[1-9][0-9 ]*,[0-9]+\n", 2: DECK_FAULT, 11: TOO_MUCH, 13: TOO_LONG}),
    "script": ("script DECK OUT", None, 30, {0: HISTORY + VERDICTS + COUNTS, 2: DECK_FAULT, 12: TOO_MANY, 13: TOO_LONG}),
    "tune": ("tune DECK TAPE", "TAPE", 40, {0: VERDICTS + COUNTS, 2: DECK_FAULT, 6: CUT, 13: TOO_LONG}),
    "beam": ("beam DECK OUT", None, 20, {0: r"beam(,[0-9]+){3}\n", 2: DECK_FAULT, 12: TOO_MANY, 13: TOO_LONG}),
    "seek": ("seek INDEXED {item} {start}", "INDEXED", 30, {0: r"found(,[0-9]+){5}\n|lost(,[0-9]+){2}\n", 6: CUT}),
    "drill": ("drill {seed} {size}", None, 1, {0: r"drill(,[0-9]+){11}\n"}),
    "audit": ("audit DECK REPORT", "REPORT", 40, {0: FINDINGS + r"0\n", 2: DECK_FAULT, 8: r"fault,8,[1-9][0-9]*,[1-7]\n", 9: FINDINGS + r"[1-9][0-9]*\n", 11: TOO_MUCH}),
    "run": ("run DECK OUT", None, 20, {0: HISTORY + VERDICTS + COUNTS + SIGHTS, 2: DECK_FAULT, 12: TOO_MANY, 13: TOO_LONG}),
    "cast": ("cast DECK {port}", None, 1, {0: HISTORY, 2: DECK_FAULT, 12: TOO_MANY, 13: TOO_LONG}),
    "listen": ("listen DECK {port}", "AIR", 5, {0: VERDICTS + COUNTS, 2: DECK_FAULT, 13: TOO_LONG}),
}
FORMS = {name: {status: re.compile(text.encode()) for status, text in command[3].items()} for name, command in COMMANDS.items()}
DRAWN = [name for name, command in COMMANDS.items() for _ in range(command[2])]


def made_of(program, deck, folder):
    """The tape of a deck's script, its indexed tape, and the reports of it and of a run, if there is one of this deck: with each an audit agrees."""
    write(os.path.join(folder, "DECK"), deck.encode())
    reports = [printed(program, folder, "script", "DECK", "TAPE"), *(report.encode() for report in RUNS.get(deck, []))]
    for report in reports:
        write(os.path.join(folder, "REPORT"), report)
        printed(program, folder, "audit", "DECK", "REPORT")
    printed(program, folder, "beam", "DECK", "INDEXED")
    return read(os.path.join(folder, "TAPE")), read(os.path.join(folder, "INDEXED")), reports


def printed(program, folder, *words):
    """What a command prints that succeeds."""
    return subprocess.run([program, *words], cwd=folder, stdout=subprocess.PIPE, check=True).stdout


class Input:
    """The input of a number: its command, its words, and its files. One that the command reads is damaged at least; for `drill` numbers are drawn."""

    def __init__(self, seed, number, made):
        draw = random.Random(f"{seed} {number}")
        self.number, self.command = number, draw.choice(DRAWN)
        words, other, _, _ = COMMANDS[self.command]
        at = draw.randrange(len(DECKS))
        deck, (tape, indexed, reports) = DECKS[at].encode(), made[at]
        self.words, self.files, self.air = words.format(port="{port}", **self.numbers(draw)), {"DECK": deck}, []
        tapes = draw.choice((tape, tape, tape, indexed))
        whole = {"TAPE": tapes, "AIR": tapes, "INDEXED": draw.choice((indexed, indexed, indexed, tape)), "REPORT": draw.choice(reports)}.get(other)
        if whole is None or (other != "INDEXED" and draw.randrange(8) == 0):
            self.files["DECK"] = damaged(draw, deck)
        if whole is not None:
            bytes_ = damaged(draw, whole) if self.files["DECK"] == deck or draw.randrange(2) else whole
            if other == "AIR":
                # what is after a record's length, 60,000 bytes of it at most
                self.air = [part[4:60_004] for part in parts_of(bytes_ + b"\0" * (b"\0" not in bytes_))]
            else:
                self.files[other] = bytes_

    def numbers(self, draw):
        """What stands for numbers in the words of commands, each one that the command takes."""
        item, start, seed = (draw.choice([edge for edge in EDGES if edge <= most]) for most in (65_534, 2**32 - 1, 2**64 - 1))
        return {"item": draw.choice((draw.randrange(5), item)), "start": draw.choice((draw.randrange(40), start)), "seed": seed, "size": draw.randint(1, 40)}
