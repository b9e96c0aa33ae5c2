"""The declarations of specs and proofs, and what each names: `tools/mutation/mutate_specs` goes by them."""
import os
import re
import sys

sys.path[:0] = [os.path.dirname(os.path.abspath(__file__)), os.path.dirname(os.path.dirname(os.path.abspath(__file__)))]
import names  # noqa: E402

MARKS = r"(?:(?:abbrev|unfoldable) )?(?:pub )?(?:record |data )?"
NAME_OF_VARIABLE = r"(?<![\w.])[a-z]\w*"
TOKEN = re.compile(rf"(?<![\w.]){names.NAME}(?:\.{names.NAME})*")


def plain(lines):
    """Lines without comments."""
    return [line.split(" -- ")[0] for line in lines if line.strip() and not line.lstrip().startswith("--")]


def bound(text):
    """The names that a text binds: arguments of equations, and variables of functions, of quantifiers and of steps."""
    found = set()
    for head in re.finditer(r"^ *[\w\-◌@{}]+ ([^:=\n]*?) = ", text, re.M):
        found |= set(re.findall(NAME_OF_VARIABLE, head.group(1)))
    for names_of in re.findall(r"λ ([^.:]+)\.", text) + re.findall(r"\(([a-z][\w ]*) : ", text) + re.findall(r"\blet ([a-z]\w*) [:=]", text) + re.findall(r"([a-z]\w*) ← ", text):
        found |= set(re.findall(NAME_OF_VARIABLE, names_of))
    return found


class Piece:
    """A declaration of a file: its name, the lines that it has there, and how far it is indented."""

    def __init__(self, path, name, first, indent):
        self.path, self.name, self.first, self.indent, self.lines = path, name, first, indent, []

    @property
    def last(self):
        return self.first + len(self.lines)

    @property
    def is_record(self):
        return re.match(r" *(?:abbrev )?(?:pub )?record ", self.lines[0]) is not None

    def can_be_copied(self):
        """Whether it has a plain name and no further names, and is in no section of a proof."""
        is_plain = re.fullmatch(names.NAME, self.name) is not None and not re.match(r" *(?:pub )?data ", self.lines[0])
        return is_plain and not (self.indent and f"{os.sep}proofs{os.sep}" in self.path)

    def plain(self):
        return plain(self.lines)

    def __repr__(self):
        return f"{names.short(self.path)}:{self.first + 1} {self.name}"


def pieces_of(path):
    """The declarations of a file, in order."""
    found, piece, base = [], None, 0
    for at, line in enumerate(names.read(path).split("\n")):
        if not line.strip() or line.lstrip().startswith("--") or re.match(r"\s*(use|mod|pub mod) ", line):
            if piece is not None:
                piece.lines.append(line if line.lstrip().startswith("--") else "")
            continue
        indent = len(line) - len(line.lstrip())
        if indent == 0 and base and not line.startswith(tuple("])}|(")):
            base = 0
        if indent == 0 and line.startswith("module "):
            piece, base = None, 2
            continue
        name = re.match(r" *" + MARKS + r"(\S+)", line).group(1)
        if indent == base and not line.lstrip().startswith(tuple("])}|(")) and name not in ("unfolding", "where") and (piece is None or piece.name != name):
            if re.match(r" *infix", line):
                name = line.split()[-1]
            if piece is None or piece.name != name:
                piece = Piece(path, name, at, indent)
                found.append(piece)
        if piece is not None:
            piece.lines.append(line)
    for piece in found:
        while piece.lines and not piece.lines[-1].strip() or piece.lines[-1].lstrip().startswith("--"):
            piece.lines.pop()
    return found


class Pieces:
    """The declarations of all files, and which of them each names."""

    def __init__(self):
        self.files, self.scopes, self.direct, self.closed, self.known_contracts = {}, {}, {}, {}, {}

    def of(self, path):
        if path not in self.files:
            self.files[path] = {piece.name: piece for piece in pieces_of(path)} if path.endswith(".antt") and os.path.exists(path) else {}
        return self.files[path]

    def scope(self, path):
        """What the names of a file stand for, and the modules by which it names others."""
        if path not in self.scopes:
            mine, modules = dict(self.of(path)), {}
            for found in names.USE.finditer(names.read(path)):
                parts, listed, other = found.group(1).split("."), found.group(2), found.group(3)
                file = os.path.join(names.CRATES, *parts) + ".antt"
                if listed is None:
                    modules[other or parts[-1]] = file
                    continue
                for entry in listed.split(","):
                    words = entry.split()
                    if words and words[0] in self.of(file):
                        mine[words[-1]] = self.of(file)[words[0]]
                    elif words:
                        modules[words[-1]] = os.path.join(names.CRATES, *parts, words[0]) + ".antt"
            self.scopes[path] = mine, modules
        return self.scopes[path]

    def tokens(self, path, text):
        """The places of a text at which it names declarations: start, end, and the declaration. A name that the text binds isn't one."""
        mine, modules = self.scope(path)
        variables = bound(text)
        for found in TOKEN.finditer(text):
            first, *rest = found.group(0).split(".")
            if first in modules and rest:
                piece = self.of(modules[first]).get(rest[0])
                start = found.start() + len(first) + 1
                if piece is not None:
                    yield start, start + len(rest[0]), piece
            elif first in mine and first not in variables and not self.is_label(text, found.start(), first):
                yield found.start(), found.start() + len(first), mine[first]

    @staticmethod
    def is_label(text, start, name):
        """Whether a name is that of a field."""
        before = text[:start]
        after = text[start + len(name) :]
        if re.match(r" = ", after) or re.match(r" =$", after, re.M):
            return before.rstrip(" ").endswith(("{", ";")) or (re.search(r"(?:^|\n) +$", before) is not None and not re.search(r"\bin\n? *$", before))
        return re.match(r" : ", after) is not None and re.search(r"(?:^|\n) +(?:pub )?$", before) is not None

    def marks(self, path, text):
        """The declarations with operators as names that a text uses."""
        for name, piece in self.scope(path)[0].items():
            mark = name.strip("◌")
            if "◌" in name and (f" {mark} " in text or (mark == ">>=" and re.search(r"\bdo\b", text))):
                yield piece

    def named(self, piece):
        if piece not in self.direct:
            text = "\n".join(line for line in piece.plain() if not line.lstrip().startswith("unfolding "))
            self.direct[piece] = ({what for _, _, what in self.tokens(piece.path, text)} | set(self.marks(piece.path, text))) - {piece}
        return self.direct[piece]

    def closure(self, starts):
        seen, waiting = set(starts), list(starts)
        while waiting:
            for other in self.named(waiting.pop()):
                if other not in seen:
                    seen.add(other)
                    waiting.append(other)
        return seen

    def all_of(self, piece):
        if piece not in self.closed:
            self.closed[piece] = self.closure([piece])
        return self.closed[piece]

    # ---- what a place of a proof rests on

    def clauses(self, crate, path, seen):
        """What a source file names in its clauses, and what the files name that it uses."""
        if path is None or path in seen:
            return set()
        seen.add(path)
        text = names.read(path)
        found = {what for _, _, what in self.tokens(path, text)} | set(self.marks(path, text))
        for used in re.finditer(r"^\s*(?:pub )?use (\w+)::([\w:]+)", text, re.M):
            other = crate if used.group(1) in ("crate", "self", "super") else used.group(1)
            if os.path.isdir(os.path.join(names.CRATES, other)):
                found |= self.clauses(other, source(other, [word for word in used.group(2).split("::") if word]), seen)
        return found

    def contracts(self, path):
        """What the contracts name of the functions whose proofs a file has, or whose names it imports."""
        if path not in self.known_contracts:
            crate, kind, *rest = names.short(path).split(os.sep)
            found = self.clauses(crate, source(crate, rest[:-1]), set()) if kind == "proofs" and len(rest) > 1 else set()
            for used in names.USE.finditer(names.read(path)):
                crate, *rest = used.group(1).split(".")
                if rest[:1] in (["specs"], ["proofs"]) and "declared" not in rest and os.path.isdir(os.path.join(names.CRATES, crate)):
                    if not os.path.exists(os.path.join(names.CRATES, crate, *rest) + ".antt"):
                        inner = rest[2:] if rest[1:2] == ["contracts"] else rest[1:]
                        found |= self.clauses(crate, source(crate, inner), set())
            self.known_contracts[path] = self.closure(found)
        return self.known_contracts[path]

    def at(self, path, line):
        """The declaration at a line of a file."""
        return next((piece for piece in self.of(path).values() if piece.first <= line < piece.last), None)

    def rests(self, path, line):
        """All that the declaration at a line may rest on."""
        piece = self.at(path, line)
        found = self.all_of(piece) if piece else self.closure(self.of(path).values())
        paths = {path} | {other.path for other in found if f"{os.sep}proofs{os.sep}" in other.path}
        return found.union(*(self.contracts(each) for each in paths))


def source(crate, parts):
    """The source file that has the module or the function of these names."""
    return next((path for end in range(len(parts), -1, -1) for path in [names.source(crate, parts[:end])] if path), None)


def module(path):
    crate, kind, *rest = names.short(path)[: -len(".antt")].split(os.sep)
    return ".".join(["Rattle", crate, kind] + rest)
