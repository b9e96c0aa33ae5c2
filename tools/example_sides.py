"""Which examples a statement holds of, and which it refuses: `tools/believed --examples` asks for one of each.

A statement is a definition whose value is a type of proofs: one with arguments, and `Type 0` at the end. It holds of an example if the example states
the statement itself, alone or as one of several joined by ×, and for all values of its variables: without a premise. It is refused if an example states
⊥ from it, with no other premise. What says only that one part follows from another doesn't count. `ALLOWED` has
the premises that are proved elsewhere, `ALWAYS` the statements that nothing refuses. An abbreviation of a module of examples stands for what it names, and a field of a record counts if the module
has a value of the record.
"""
import os
import re
import sys

sys.path.insert(0, os.path.dirname(os.path.abspath(__file__)))
from names import CRATES, WORDS, plain, read  # noqa: E402

HEAD = re.compile(r"(?:abbrev )?(?:pub )?([\w\-]+) : (.*)$")
FIELD = re.compile(r"  (?:pub )?([\w\-]+) : (.*)$")
# Premises that are proved: the law that a text determines one history (`one_history` of air_report's HistoryRows).
ALLOWED = ("OneHistoryLaw",)
# Statements that nothing refuses, each with the reason.
ALWAYS = {"live_replay/specs/TrueAudits.antt IsTrueAudit": "it is proved of each report of a well-made deck, and of no other deck is it known not to hold"}


def is_statement(part):
    """Whether a definition is a type of proofs with arguments."""
    return part.kind in WORDS and re.search(r": (?!Type 0 ).*→ Type 0$|record \S+ [({].*\) : Type 0 where$", part.lines[0]) is not None


# ---- types as texts


def split_at(text, sign):
    """The parts of a text between signs that stand in no bracket."""
    found, depth, last = [], 0, 0
    for at, letter in enumerate(text):
        depth += (letter in "({[") - (letter in ")}]")
        if letter == sign and depth == 0:
            found.append(text[last:at].strip())
            last = at + 1
    return found + [text[last:].strip()]


def groups(text):
    """The groups in brackets of which a text consists, each without its brackets, or None if there is more in it."""
    found, depth, begin = [], 0, 0
    for at, letter in enumerate(text):
        if depth == 0 and letter not in "( ":
            return None
        begin = at + 1 if letter == "(" and depth == 0 else begin
        depth += (letter in "({[") - (letter in ")}]")
        if letter == ")" and depth == 0:
            found.append(text[begin:at])
    return found


def is_binder(group):
    return re.match(r"[\w' ]+ : ", group) is not None


class Types:
    """The types of a module of examples: which statements they say, and which they refuse."""

    def __init__(self, modules, path):
        self.modules, self.path = modules, path
        self.types, self.others, self.sections = stated_in(path)
        self.holds, self.refused = set(), set()
        for text in self.types:
            self.look(text)

    def statement(self, text):
        """The statement at the head of a text, through the abbreviations of the module; and the type that an abbreviation stands for."""
        name = re.match(r"[A-Za-z_][\w\-.]*", text)
        if name is None:
            return None, None
        if name.group(0) in self.others:
            return None, self.others[name.group(0)]
        parts = [part for part in self.modules.named(self.path, name.group(0)) if part.name == name.group(0).split(".")[-1]]
        return (parts[0] if parts and is_statement(parts[0]) else None), None

    def head(self, text):
        """The statement that a text is, also where an abbreviation stands for it; None of a text that joins several."""
        if any(len(split_at(text, sign)) > 1 for sign in "×≡⊎↔→<≤"):
            return None
        part, other = self.statement(text)
        return self.head(other) if other is not None else part

    def is_data(self, kind):
        """Whether the type of a variable is one of data: it names no statement, no type of this module, and no relation."""
        names = set(re.findall(r"[A-Za-z_][\w\-.]*", kind))
        stated = any(is_statement(part) for part in self.modules.named(self.path, kind))
        return not (stated or names & (self.sections | set(self.others)) or re.search(r"[⊥⊤≡<≤⊎↔×]", kind))

    def premises(self, segments):
        """The premises among the segments before the last: what isn't the type of a variable."""
        found = []
        for segment in segments:
            inner = groups(segment)
            if inner and all(is_binder(group) for group in inner):
                found += [kind for kind in (group.split(" : ", 1)[1] for group in inner) if not self.is_data(kind)]
            elif segment not in ALLOWED:
                found.append(segment)
        return found

    def look(self, text):
        """Notes what a type says."""
        *before, last = split_at(text, "→")
        premises = self.premises(before)
        if last == "⊥":
            part = self.head(premises[0]) if len(premises) == 1 else None
            self.refused |= {(part.path, part.name)} if part else set()
        elif not premises:
            for said in split_at(last, "×"):
                self.part(said)

    def part(self, text):
        """Notes what one of several says that are joined."""
        inner = groups(text)
        if inner and len(inner) == 1:
            self.part(inner[0].split(" : ", 1)[1]) if is_binder(inner[0]) else self.look(inner[0])
        elif not any(len(split_at(text, sign)) > 1 for sign in "≡⊎↔<≤"):
            part, other = self.statement(text)
            if other is not None:
                self.look(other)
            elif part is not None:
                self.holds.add((part.path, part.name))


def stated_in(path):
    """What each declaration of a module of examples states, and each field of a record that has a value; its abbreviations of types, by name; and its
    records. What stands below a `module` line, with parameters of its own, isn't counted."""
    types, others, fields, section, sections = [], {}, {}, None, set()
    lines = plain(read(path))
    lines = lines[: next((at for at, line in enumerate(lines) if line.startswith("module ")), len(lines))]
    for at, line in enumerate(lines):
        if not line.startswith(" "):
            opened = re.match(r"(?:pub )?record (\S+) .* where$", line)
            section = opened.group(1) if opened else None
            sections |= {section} if opened else set()
        head = FIELD.match(line) if section else HEAD.match(line)
        if head is None:
            continue
        end = next((k for k in range(at + 1, len(lines)) if not lines[k].startswith("    ")), len(lines))
        text = " ".join([head.group(2)] + [more.strip() for more in lines[at + 1 : end]])
        if section:
            fields.setdefault(section, []).append(text)
        elif line.startswith("abbrev ") and text.endswith("Type 0"):
            value = lines[end].split(" = ", 1)
            others[head.group(1)] = value[1] if len(value) == 2 else " ".join(more.strip() for more in lines[end + 1 : end + 2])
        else:
            types.append(text)
    for text in list(types):
        types += fields.pop(text, [])
    return types, others, sections


def both_sides(modules):
    """The definitions that hold of an example, and those that an example refuses, by path and name."""
    holds, refused = set(), {(os.path.join(CRATES, path), name) for path, name in (entry.split() for entry in ALWAYS)}
    for folder, _, files in os.walk(CRATES):
        for file in files:
            if file.endswith("Examples.antt"):
                types = Types(modules, os.path.join(folder, file))
                holds |= types.holds
                refused |= types.refused
    return holds, refused
