"""Copies of definitions and of examples under other names: `tools/mutation/mutate_specs` tries many changes of one crate in one check by them."""
import os
import re
import sys

sys.path[:0] = [os.path.dirname(os.path.abspath(__file__)), os.path.dirname(os.path.dirname(os.path.abspath(__file__)))]
import names  # noqa: E402
from spec_changes import imported  # noqa: E402
from spec_pieces import module, plain  # noqa: E402


class Example:
    """A declaration of examples, or one field of such a value: its text, with `{}` for its name."""

    def __init__(self, pieces, piece, field=None, type_lines=None, value_lines=None):
        self.path, self.piece, self.field = piece.path, piece, field
        if field is None:
            self.text = None
            self.uses = pieces.all_of(piece)
            self.own = pieces.named(piece)
        else:
            unfolding = [line.strip() for line in piece.plain() if line.startswith("unfolding ")]
            head = re.sub(r"^  (?:pub )?" + re.escape(field) + r" :", "{} :", type_lines[0])
            value = re.sub(r"^  " + re.escape(field) + r" =", "{} =", value_lines[0])
            self.text = "\n".join([head] + type_lines[1:] + unfolding + [value] + value_lines[1:]).rstrip().rstrip(";")
            said = re.sub(r"(?m)^unfolding .*$", "", self.text)
            self.own = {what for _, _, what in pieces.tokens(piece.path, said)} | set(pieces.marks(piece.path, said))
            self.uses = pieces.closure(self.own)

    def refuses(self):
        """Whether it says that something isn't so."""
        return "⊥" in (self.text or "\n".join(self.piece.plain()))

    def __str__(self):
        return f"{names.short(self.path)}:{self.piece.first + 1} {self.piece.name}" + (f".{self.field}" if self.field else "")


# ---- examples


def inline_fields(line):
    """The fields of a value of a record that is on one line: a line of each."""
    found, depth, start = {}, 0, 0
    inner = line[line.index("{") + 1 : line.rindex("}")] + ";"
    for at, sign in enumerate(inner):
        depth += (sign in "({[") - (sign in ")}]")
        if sign == ";" and depth == 0 and inner[start:at].strip():
            name, _, value = inner[start:at].strip().partition(" = ")
            found[name] = [f"  {name} = {value};"]
        start = at + 1 if sign == ";" and depth == 0 else start
    return found


def fields_of(lines):
    """The fields of a record, or of a value of one: the lines of each."""
    found, last = {}, None
    for line in lines:
        if re.fullmatch(r"\S+ = record \{ .* \}", line):
            return inline_fields(line)
    for line in lines:
        head = re.match(r"  (?:pub )?([\w\-]+) [:=](?: |$)", line)
        if head:
            last = head.group(1)
            found[last] = [line]
        elif last and re.match(r"   |  [\])}|]", line):
            found[last].append(line)
        else:
            last = None
    return found


def examples_in(pieces, path):
    """The examples of a file: each field of a value of one of its records, and each other declaration that states something."""
    own = pieces.of(path)
    for piece in own.values():
        if piece.is_record:
            continue
        kind = re.match(r"(?:abbrev )?(?:pub )?\S+ : (\w+)$", piece.lines[0])
        record = own.get(kind.group(1)) if kind else None
        values = fields_of(piece.plain()) if record is not None and record.is_record else {}
        types = fields_of(record.plain()) if values else {}
        if values and set(values) == set(types):
            for field in values:
                yield Example(pieces, piece, field, types[field], values[field])
        elif not re.match(r"(?:abbrev|unfoldable) ", piece.lines[0]):
            yield Example(pieces, piece)


class Copies:
    """The copies that some changes want: of each change the changed definition, what is between it and each of its examples, and
    the examples. A change of None is the definition as it is."""

    def __init__(self, pieces):
        self.pieces, self.puts, self.uses, self.made = pieces, {}, {}, set()

    def resting(self, target, pieces):
        """Those of some declarations that rest on the definition."""
        return {piece for piece in pieces if target in self.pieces.all_of(piece)}

    def renamed(self, path, text, found, mark):
        """A text with the names of these declarations as the copies have them."""
        for start, end, piece in sorted(self.pieces.tokens(path, text), key=lambda it: -it[0]):
            if piece in found:
                text = text[:start] + piece.name + mark + text[end:]
                if piece.path != path:
                    self.uses.setdefault(path, set()).add(f"use {module(piece.path)}.{{{piece.name + mark}}}")
        return text

    def put(self, piece, found, mark, tag, change=None):
        """Puts a copy of a declaration after it, once."""
        if (piece, mark) not in self.made:
            self.made.add((piece, mark))
            lines = list(piece.lines)
            if change is not None:
                lines[change.at - piece.first] = change.made
            self.puts.setdefault(piece.path, []).append((piece.last, self.renamed(piece.path, "\n".join(plain(lines)), found, mark), tag))

    def add(self, number, change, target, near):
        """The copies of one change, and of the examples that are near to its definition."""
        mark = f"-v{number}"
        self.put(target, {target}, mark, (number, "definition"), change)
        if change is not None and change.needs:
            self.uses.setdefault(target.path, set()).update(imported(names.read(target.path), change.needs))
        for example, between in near:
            for piece in between - {target}:
                self.put(piece, self.resting(target, self.pieces.all_of(piece)), mark, (number, example if piece is example.piece else "between"))
            if example.field is not None:
                name = f"{example.piece.name}-{example.field}{mark}"
                text = self.renamed(example.path, example.text, between | {target}, mark)
                text = text.replace("{} :", f"{name} :", 1).replace("\n{} =", f"\n{name} =", 1)
                self.puts.setdefault(example.path, []).append((example.piece.last, text, (number, example)))

    def texts(self):
        """The files with all copies in them, and what is at which line: by path and line the tag of the copy."""
        made, places = {}, {}
        for path in set(self.puts) | set(self.uses):
            lines = [(line, None) for line in names.read(path).split("\n")]
            for after, text, tag in sorted(self.puts.get(path, []), key=lambda it: -it[0]):
                lines[after:after] = [("", None)] + [(line, tag) for line in text.split("\n")]
            first = next(at for at, (line, _) in enumerate(lines) if line.startswith("use "))
            lines[first:first] = [(line, None) for line in sorted(self.uses.get(path, ()))]
            made[path] = "\n".join(line for line, _ in lines)
            places.update({(path, at): tag for at, (_, tag) in enumerate(lines) if tag is not None})
        return made, places


def between(pieces, target, example):
    """What rests on a definition and an example rests on it, the definition among it: None if one of these can't be copied."""
    found = {piece for piece in example.uses if target in pieces.all_of(piece)} | {target}
    if example.field is None:
        found.add(example.piece)
    return found if all(piece.can_be_copied() for piece in found) else None
