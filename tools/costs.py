"""What crates cost to prove: the processor time of the checks that `rt ci` starts, read from /proc once a second.

The time of a crate is that of each process of the kit with its name below `rt ci`, those of its edits left out: proof, tests and
programs. What ends within a second, or runs in the second before it ends, is missed: at most 4 % too little.
"""
import collections
import glob
import os
import subprocess
import time

TICKS = os.sysconf("SC_CLK_TCK")
EDIT = "/rt-edit-"


def processes():
    """All processes: by number, the parent, when it started, its seconds, its words and its folder."""
    found = {}
    for path in glob.glob("/proc/[0-9]*/stat"):
        number = int(path.split("/")[2])
        try:
            with open(path) as file:
                parts = file.read().rsplit(")", 1)[1].split()
            with open(f"/proc/{number}/cmdline") as file:
                words = file.read().split("\0")
            folder = os.readlink(f"/proc/{number}/cwd")
        except OSError:
            continue
        found[number] = int(parts[1]), parts[19], (int(parts[11]) + int(parts[12])) / TICKS, words, folder
    return found


def below(found, root):
    """The processes below one."""
    for number in found:
        at = number
        while at in found and at != root:
            at = found[at][0]
        if at == root:
            yield number


class Costs:
    """The seconds of each crate so far."""

    def __init__(self):
        self.last = {}

    def look(self, root):
        found = processes()
        for number in below(found, root):
            _, start, seconds, words, folder = found[number]
            if "--crate-name" in words[:-1] and EDIT not in folder:
                self.last[words[words.index("--crate-name") + 1], number, start] = seconds
        return root in found

    def seconds(self):
        used = collections.Counter()
        for (name, *_), seconds in self.last.items():
            used[name] += seconds
        return dict(used)


def followed(root):
    """The seconds of each crate of which the `rt ci` of this process runs a check now or later."""
    costs = Costs()
    while costs.look(root):
        time.sleep(1)
    return costs.seconds()


def measured(names):
    """The seconds of each crate that a check of these from nothing proves, and the status of that check."""
    costs = Costs()
    check = subprocess.Popen(["rt", "ci", "--anew", *names])
    while check.poll() is None:
        costs.look(check.pid)
        time.sleep(1)
    return costs.seconds(), check.returncode
