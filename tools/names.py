"""The names that clauses, definitions, examples and laws of the repository use: `tools/believed` and `tools/mutation/mutate_specs` go by these."""
import os
import re

TOP = os.path.dirname(os.path.dirname(os.path.abspath(__file__)))
CRATES = os.path.join(TOP, "crates")
CALLS = (("air_cli", "src/main_call.rt", "air_main"), ("air_cli", "src/quiet.rt", "air_quiet"))
# The traits of devices: their clauses say what a call of a device changes of what is told, and so what the words of the top calls mean.
TRAITS = (("air_devices", "src/shelves.rt", "Shelf"), ("air_devices", "src/masts.rt", "Mast"), ("air_devices", "src/ears.rt", "Ear"))
# Modules of the grammars of decks and of reports: who takes "these bytes spell this deck" as said leaves them out. The limits of a deck are said over files that tell nothing, too.
GRAMMARS = re.compile(r"(item_catalog/specs/(?!DeckLimits\.antt).*|air_report/specs/(?!Statuses\.antt).*)")

WORDS = ("definition", "record", "data")

NAME = r"[A-Za-z_][\w\-]*"
USE = re.compile(r"^\s*(?:ghost )?use Rattle\.([\w.\-]+?)(?:\.\{([^}]*)\})?(?: as (\w+))?\s*;?\s*$", re.M)
# A function with an empty body, from its name on.
LAW = re.compile(r"pub fn ((?:(?!pub fn |\n\{\n)[\s\S])*?)\n\{\}$", re.M)


def read(path):
    with open(path, encoding="utf-8") as file:
        return file.read()


def short(path):
    return os.path.relpath(path, CRATES)


# ---- where names are


class Part:
    """A definition, a type that the code declares, or a limit."""

    def __init__(self, kind, path, name, lines):
        self.kind, self.path, self.name, self.lines = kind, path, name, lines

    @property
    def text(self):
        return "\n".join(self.lines)

    def __repr__(self):
        return f"{short(self.path)} {self.name}"


def plain(text):
    """The lines of a text that are neither empty, nor a comment, nor an import."""
    lines = (line.split(" -- ")[0] if not line.lstrip().startswith("--") else "" for line in text.split("\n"))
    return [line for line in lines if line.strip() and not re.match(r"\s*(ghost )?(use|pub mod|mod) ", line)]


def definitions(path):
    """The definitions of a module, by name, and the constructors of its data, each with the name of its data."""
    parts, makers, last, section = {}, {}, None, None
    for line in plain(read(path)):
        if re.match(r"(infix\w*) \d+ ", line):
            section = section or []
            section.append(line)
            continue
        if line.startswith("module "):
            section = [line]
            continue
        head = re.match(r"( *)((?:abbrev |unfoldable )?(?:pub )?(?:record |data )?)(\S+)", line)
        indent, marks, name = len(head.group(1)), head.group(2), head.group(3)
        if marks.strip() and (indent == 0 or (indent == 2 and marks.split()[0] in ("abbrev", "unfoldable"))):
            last = Part("record" if "record" in marks else "data" if "data" in marks else "definition", path, name, [])
            parts[name] = last
            if section and (indent == 2 or section[0].startswith("infix")):
                last.lines.extend(section)
                section = [] if section[0].startswith("infix") else [section[0]]
                if indent == 2:
                    section = None
        if last is not None:
            last.lines.append(line)
            if last.kind == "data" and indent == 2 and not marks.strip():
                makers[name] = last
    return parts, makers


def source(crate, parts):
    """The source file of a module of code, or None."""
    for tail in (parts, parts + ["mod"]):
        path = os.path.join(CRATES, crate, "src", *tail) + ".rt"
        if os.path.exists(path):
            return path
    path = os.path.join(CRATES, crate, "src", "lib.rt")
    return path if not parts and os.path.exists(path) else None


def declared(path, name):
    """A type that a source file declares, with its lines; a limit, with one; or None."""
    lines = read(path).split("\n")
    for at, line in enumerate(lines):
        if re.match(rf"\s*(pub(\(crate\))? )?const {name}:", line):
            return Part("limit", path, name, [line])
        if re.match(rf"\s*(pub(\(crate\))? )?(enum|struct) {name}\b", line):
            end = at
            depth = 0
            while True:
                depth += lines[end].count("{") - lines[end].count("}")
                if depth <= 0 and re.search(r"[;}]\s*$", lines[end]):
                    break
                end += 1
            kept = [x for x in lines[at : end + 1] if x.strip() and not x.lstrip().startswith(("//", "#["))]
            return Part("type", path, name, kept)
    return None


class Modules:
    """All modules, read once each."""

    def __init__(self):
        self.known, self.scopes, self.types = {}, {}, {}

    def module(self, path):
        if path not in self.known:
            self.known[path] = definitions(path)
        return self.known[path]

    def find(self, parts, name):
        """The part of this name in the module of these parts, or None if it isn't the repository's."""
        crate = parts[0]
        if not os.path.isdir(os.path.join(CRATES, crate)):
            return None
        if parts[1:3] == ["specs", "declared"]:
            inner = parts[3:]
            if inner[-1] == "TheVariants":
                inner, name = inner[:-2], inner[-2]
            elif inner[-1] == "TheConstants":
                inner = inner[:-1]
            elif inner[-1] == name:
                inner = inner[:-1]
            key = (crate, tuple(inner), name)
            if key not in self.types:
                path = source(crate, inner)
                self.types[key] = declared(path, name) if path else None
            return self.types[key]
        path = os.path.join(CRATES, *parts) + ".antt"
        if not os.path.exists(path):
            return None
        own, makers = self.module(path)
        return own.get(name) or makers.get(name)

    def scope(self, path, text):
        """What the names of a text stand for, and the modules that its other names stand for."""
        if path in self.scopes:
            return self.scopes[path]
        names, others = {}, {}
        if path.endswith(".antt"):
            own, makers = self.module(path)
            names.update(makers)
            names.update(own)
        for found in USE.finditer(text):
            parts, listed, other = found.group(1).split("."), found.group(2), found.group(3)
            if listed is None:
                others[other or parts[-1]] = parts
                continue
            for entry in listed.split(","):
                words = entry.split()
                if words:
                    part = self.find(parts, words[0])
                    if part is not None:
                        names[words[-1]] = part
                    elif os.path.exists(os.path.join(CRATES, *parts, words[0]) + ".antt"):
                        others[words[-1]] = parts + [words[0]]
        self.scopes[path] = (names, others)
        return names, others

    def named(self, path, text):
        """The parts that some lines of a file name."""
        names, others = self.scope(path, read(path))
        text = re.sub(r"([{;]\s*)" + NAME + r"(?= = )", r"\1", text)
        text = re.sub(r"(?m)^\s+pub " + NAME + r" :", ":", text)
        found = set()
        for word in re.findall(rf"(?<![\w.]){NAME}(?:\.{NAME})*", text):
            first, *rest = word.split(".")
            if first in others and rest:
                part = self.find(others[first], rest[0])
            else:
                part = names.get(first)
            if part is not None:
                found.add(part)
        for name, part in names.items():
            mark = name.strip("◌") if name.startswith("◌") else None
            if mark and (f" {mark} " in text or (mark == ">>=" and re.search(r"\bdo\b", text))):
                found.add(part)
        return found

    def fields(self, part):
        """The types of the repository that the fields of a type of the code have."""
        text = read(part.path)
        crate = short(part.path).split(os.sep)[0]
        found = set()
        for name in set(re.findall(r"\b[A-Z]\w*", "\n".join(part.lines[1:]) if len(part.lines) > 1 else part.text)) - {part.name}:
            other = declared(part.path, name)
            used = re.search(rf"^use (\w+)(?:::\w+)*::(?:\{{[^}}]*\b{name}\b[^}}]*\}}|{name}\b)", text, re.M)
            if other is None and used:
                other = self.anywhere(crate if used.group(1) == "crate" else used.group(1), name)
            if other is not None and other.kind == "type":
                found.add(self.types.setdefault((other.path, name), other))
        return found

    def anywhere(self, crate, name):
        for folder, _, files in sorted(os.walk(os.path.join(CRATES, crate, "src"))):
            for file in sorted(files):
                if file.endswith(".rt"):
                    part = declared(os.path.join(folder, file), name)
                    if part is not None:
                        return part
        return None


# ---- what is reached


def clauses(crate, path, name):
    """The clauses of a function's contract."""
    text = read(os.path.join(CRATES, crate, path))
    return re.search(r"pub fn " + name + r"\b.*?\n\{", text, re.S).group(0)


def trait_clauses(crate, path, name):
    """What the clauses of a trait's calls name, and its ghost function; and how many lines the clauses have."""
    text = re.search(r"pub trait " + name + r"\b.*?\n\}", read(os.path.join(CRATES, crate, path)), re.S).group(0)
    said = re.findall(r"^    (?:    (?:requires|ensures)|ghost) .*?(?=;\n|\n        (?:requires|ensures)|\n    (?!    ))", text, re.S | re.M)
    return "\n".join(said), sum(len(clause.split("\n")) for clause in said if not clause.lstrip().startswith("ghost"))


def reached_from(modules, waiting, without=None):
    """The parts that some parts rest on, by path and name; not what is said in certain modules, nor what these need."""
    waiting, seen = set(waiting), {}
    while waiting:
        part = waiting.pop()
        key = (part.path, part.name)
        if key in seen or (without and without.fullmatch(short(part.path))):
            continue
        seen[key] = part
        waiting |= modules.fields(part) if part.kind in ("type", "limit") else modules.named(part.path, part.text)
    return seen


def reached(modules, without=None, traits=True):
    """The parts that the contracts of the top calls rest on, and those of the devices' calls."""
    waiting = set()
    for crate, path, name in CALLS:
        waiting |= modules.named(os.path.join(CRATES, crate, path), clauses(crate, path, name))
    for crate, path, name in TRAITS if traits else ():
        waiting |= modules.named(os.path.join(CRATES, crate, path), trait_clauses(crate, path, name)[0])
    return list(reached_from(modules, waiting, without).values())


def stated(text):
    """The lines of a module of examples that aren't only told to the prover: all but those that unfold."""
    return "\n".join(line for line in plain(text) if not line.lstrip().startswith("unfolding "))


def spoken(modules):
    """What examples and laws name: what is in modules of examples outside of `unfolding`, and in the clauses of functions with
    empty bodies."""
    found = set()
    for folder, _, files in os.walk(CRATES):
        for file in files:
            path = os.path.join(folder, file)
            if file.endswith("Examples.antt"):
                found |= modules.named(path, stated(read(path)))
            elif file.endswith(".rt") and f"{os.sep}src" in folder:
                for law in LAW.finditer(read(path)):
                    found |= modules.named(path, law.group(1))
    return {(part.path, part.name) for part in found}
