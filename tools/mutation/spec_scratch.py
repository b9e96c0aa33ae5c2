"""A copy of the repository in which `tools/mutation/mutate_specs` changes one crate at a time, and what checks of it refuse."""
import os
import re
import shutil
import subprocess
import sys

sys.path[:0] = [os.path.dirname(os.path.abspath(__file__)), os.path.dirname(os.path.dirname(os.path.abspath(__file__)))]
import names as believed  # noqa: E402
from spec_changes import with_import  # noqa: E402
from spec_pieces import module  # noqa: E402

TOP = believed.TOP
PROBE = "examples_probe"
ERROR = re.compile(r"^\./([\w/+\-.]+\.(?:antt|rt)):(\d+):\d+: error: (.*)$", re.M)
# What depends on a declaration that was refused isn't checked.
NOT_CHECKED = re.compile(r"\d+ declarations? that depends? on ")


def write(path, text):
    """Writes a file anew, for it may have another name elsewhere."""
    if os.path.lexists(path):
        os.unlink(path)
    os.makedirs(os.path.dirname(path), exist_ok=True)
    with open(path, "w", encoding="utf-8") as file:
        file.write(text)


class Scratch:
    """A copy of the repository without what checks made, in which one crate at a time is changed."""

    def __init__(self, folder):
        self.folder = folder
        if not os.path.exists(os.path.join(folder, "crates.txt")):
            os.makedirs(folder, exist_ok=True)
            for name in ("crates", "crates.txt", "HANDLES"):
                source, target = os.path.join(TOP, name), os.path.join(folder, name)
                if os.path.isdir(source):
                    shutil.copytree(source, target, ignore=shutil.ignore_patterns("out"))
                elif os.path.exists(source):
                    shutil.copy(source, target)

    def of(self, path):
        return os.path.join(self.folder, "crates", believed.short(path))

    def restore(self, crate):
        """The crate's own text again."""
        for part in ("src", "specs", "proofs"):
            target = os.path.join(self.folder, "crates", crate, part)
            shutil.rmtree(target, ignore_errors=True)
            shutil.copytree(os.path.join(believed.CRATES, crate, part), target)

    def probe(self, crate, paths):
        """A function of the crate whose proof reads certain files: a check of it alone checks these."""
        root = os.path.join(believed.CRATES, crate, "src", "lib.rt")
        write(self.of(root), believed.read(root).rstrip("\n") + f"\n\n/// Reads modules.\npub fn {PROBE}() {{}}\n")
        answers = os.path.join(self.folder, "crates", crate, "proofs", PROBE, "Answers.antt")
        write(answers, "".join(f"use {module(path)}\n" for path in sorted(paths)))

    def check(self, crate, texts, *words):
        """The output of a check of a crate over these texts; what they replace is put back by `restore`."""
        for path, text in texts.items():
            write(self.of(path), text)
        command = [os.environ.get("RT", "rt"), "check", *words]
        done = subprocess.run(command, cwd=os.path.join(self.folder, "crates", crate), stdout=subprocess.PIPE, stderr=subprocess.STDOUT, text=True)
        write(os.path.join(self.folder, "last.out"), done.stdout)
        if not re.search(r"(?m)^(only=\d+|logic=\S+)", done.stdout):
            raise SystemExit(f"a check of {crate} came to no end:\n{done.stdout[-3000:]}")
        return done.stdout


def changed_texts(changes):
    """The texts of the modules with these changes, and by how many lines each is longer."""
    texts = {}
    for change in changes:
        texts.setdefault(change.part.path, believed.read(change.part.path).split("\n"))[change.at] = change.made
    made, offsets = {}, {}
    for path, lines in texts.items():
        text = "\n".join(lines)
        for change in changes:
            if change.part.path == path:
                text = with_import(text, change.needs)
        made[path], offsets[path] = text, text.count("\n") + 1 - len(lines)
    return made, offsets


def refusals(output, crate):
    """What a check refused for itself: path, line and message of each."""
    for found in ERROR.finditer(output):
        if not NOT_CHECKED.match(found.group(3)) and PROBE not in found.group(1):
            yield os.path.join(believed.CRATES, crate, found.group(1)), int(found.group(2)) - 1, found.group(3)
