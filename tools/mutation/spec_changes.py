"""The changes of a definition, each of one line: what `tools/mutation/mutate_specs` tries."""
import hashlib
import os
import re
import sys

sys.path[:0] = [os.path.dirname(os.path.abspath(__file__)), os.path.dirname(os.path.dirname(os.path.abspath(__file__)))]
import names as believed  # noqa: E402

# What is changed into what, with the names that the change needs. The first group is replaced.
CHANGES = [
    ("comparison", r"( ≤ )", " < ", "◌<◌"),
    ("comparison", r"( < )", " ≤ ", "◌≤◌"),
    ("comparison", r"\b(nat_le)\b", "nat_lt", "nat_lt"),
    ("comparison", r"\b(nat_lt)\b", "nat_le", "nat_le"),
    ("comparison", r"( && )", " || ", "◌||◌"),
    ("comparison", r"( \|\| )", " && ", "◌&&◌"),
    ("comparison", r"(?<=[ (])([\w.]+ == [\w.]+)", "(not ({}))", "not"),
    ("comparison", r"\b(list_all)\b", "list_any", "list_any"),
    ("comparison", r"\b(list_any)\b", "list_all", "list_all"),
    ("comparison", r"\b(min)\b", "max", "max"),
    ("comparison", r"\b(max)\b", "min", "min"),
    ("end", r"( \+ 1)\b", "", None),
    ("end", r"( - 1)\b", "", None),
    ("end", r"( \+ [A-Z_]{3,})\b", "", None),
    ("end", r"\b((?:MOST|DEFAULT|LAST)_[A-Z_]+)\b", "({} + 1)", "◌+◌"),
    ("end", r"(?<![\w.^{-])([01])(?= [≤<])", None, None),
    ("end", r"(?<![\w.^{-])([2-9]|[1-9]\d+)\b(?! \^)", None, None),
    ("end", r"\b(?:range_with_len|enumerate_from) (0)\b", "1", None),
    ("end", r"\b(?:range_with_len|enumerate_from) (1)\b", "0", None),
    ("end", r"\((length [\w.]+)\)", "{} + 1", "◌+◌"),
    ("end", r"= .*?( ∷ [\w.]+(?: [\w.]+)*)(?= ∷ \[\])", "", None),
    ("end", r"=.*?( \+\+ (?:[\w.]+|\([^()]*\)|codes \"[^\"]*\")(?: (?:[\w.]+|\([^()]*\)))*)$", "", None),
    ("index", r"(?<=\w)(\.0)\b", ".1", None),
    ("index", r"(?<=\w)(\.1)\b", ".0", None),
    ("index", r"\b(take)\b", "drop", "drop"),
    ("index", r"\b(drop)\b", "take", "take"),
    ("index", r"(?<!λ )\b(before)\.", "now", None),
    ("index", r"(?<!λ )\b(old)\.", "new", None),
    ("index", r"\b(?:get_or|slice_get) (?:[\w.]+|\([^()]*\)) ([a-z][\w.]*)", "({} + 1)", "◌+◌"),
    ("index", r"( % )", " / ", "◌/◌"),
    ("index", r"( / )", " % ", "◌%◌"),
    ("index", r"\brecord [\w.]+ \{ (\w+ = [^;{}]+; )", "", None),
    ("text", r"\bcodes (\"[^\"]+\")", "\"{text}s\"", None),
    ("case", r"= .*?(⊥)", "Unit {0}", None),
    ("case", r"= .*?(Unit \{0\})", "⊥", None),
    ("case", r"= .*?\b(true)\b", "false", "false"),
    ("case", r"= .*?\b(false)\b", "true", "true"),
    ("case", r"(\bnot \()", "(", None),
    ("case", r"= (Some (?:[\w.]+|\([^()]*\)))$", "None", "None"),
    ("case", r"^ *pub \w+ : (?=[^→×]*$)(?:.+?) ≡ (.+)$", "{same}", None),
    ("premise", r"pub \w+ : (?!\()([^→(:]+?) → (?=.*(?: ≡ | ≤ | < |All|Is[A-Z]|⊥))", "⊥", None),
    ("order", r"(?:= |\()(?!(?:if|let|record) )[a-z][\w.]* ([a-z][\w.]*) (?!\1|then\b)[a-z][\w.]*\b", None, None),
]
# Kinds that few types allow.
LAST = ("order", "variable")
# What begins a type that is no statement.
DATA = ("List", "Option", "Result", "Type", "Unit")
# Calls that take a function or a test, and then a list; their arguments aren't exchanged.
LISTS = ("cond", "map", "filter", "filter_map", "flat_map", "count_by", "sum_by", "list_any", "list_all", "fold", "All", "codes", "take", "drop")


class Change:
    """One line of a definition's module, and what becomes of it."""

    def __init__(self, part, at, kind, line, made, needs):
        self.part, self.at, self.kind, self.line, self.made, self.needs = part, at, kind, line, made, needs

    def key(self):
        """The checksum of the definition and of what is made of it."""
        return hashlib.sha256("\0".join((believed.short(self.part.path), self.part.name, self.part.text, self.line, self.made)).encode()).hexdigest()[:24]

    def __str__(self):
        return f"{believed.short(self.part.path)}:{self.at + 1} {self.part.name} ({self.kind})\n    - {self.line.strip()}\n    + {self.made.strip()}"


# ---- the changes of a definition


def balance(line):
    return line.count("(") - line.count(")"), line.count("{") - line.count("}")


def replaced(line, found, new):
    return line[: found.start(1)] + new + line[found.end(1) :]


def changed(line, found, new, kind):
    """The line after one change."""
    if kind == "order":
        first, second = re.match(r"(\S+) ([\w.]+)", line[found.start(1) :]).groups()
        return line[: found.start(1)] + f"{second} {first}" + line[found.start(1) + len(first) + 1 + len(second) :]
    text = str(int(found.group(1)) + 1) if new is None else new.replace("{}", found.group(1)).replace("{text}", found.group(1).strip('"'))
    if "{same}" in text:
        text = line[: found.start(1)].split(" : ", 1)[1].rsplit(" ≡ ", 1)[0]
    return replaced(line, found, text)


def signature(part):
    """The lines of a definition before its first equation: its type, and what is before that."""
    if part.kind != "definition":
        return 0
    head = next(at for at, line in enumerate(part.lines) if re.match(r" *(abbrev |unfoldable )?(pub )?\S+ :( |$)", line) and not line.startswith(("infix", "module")))
    name = part.name.split("◌")[0] or "\\S+ " + re.escape(part.name.strip("◌"))
    return next((at for at, line in enumerate(part.lines) if at > head and re.match(rf" *({re.escape(part.name.split('◌')[0])}|{name})", line) and "=" in line), head + 1)


def exchanged(part):
    """Of two neighbouring equations, the first with the right side of the second, where that has no name of its own."""
    equation = re.compile(rf" *{re.escape(part.name)}((?: [^=]*)?) = (.+)$")
    for one, other in zip(part.lines, part.lines[1:]):
        a, b = equation.match(one), equation.match(other)
        if a and b and a.group(2) != b.group(2):
            bound = set(re.findall(r"\b[a-z]\w*", b.group(1))) - set(re.findall(r"\b[a-z]\w*", a.group(1)))
            if not bound & set(re.findall(r"\b[a-z]\w*", b.group(2))):
                yield one, one[: a.start(2)] + b.group(2)


def groups(text, at):
    """Splits what is from `at` on into arguments, a name or a group in parentheses each; their ends."""
    found = []
    while at < len(text):
        if text[at] == "(":
            depth, end = 0, at
            while end < len(text):
                depth += text[end] == "("
                depth -= text[end] == ")"
                end += 1
                if not depth:
                    break
            if depth:
                break
        else:
            word = re.match(r"[A-Za-z0-9_][\w.\-]*", text[at:])
            if not word or word.group(0) in ("if", "then", "else", "let", "in", "record", "λ"):
                break
            end = at + word.end()
        # (a field of a group, as in `(step g).0`)
        more = re.match(r"\.[\w]+", text[end:])
        end += more.end() if more else 0
        found.append((at, end))
        if end < len(text) and text[end] == " " and end + 1 < len(text) and re.match(r"[A-Za-z0-9_(]", text[end + 1:]):
            at = end + 1
        else:
            break
    return found


def applications(line, first):
    """The applications of a line's right side: the function and its arguments."""
    for start in re.finditer(r"(?:(?<=[=.∷≡≤<×→|&+,;] )|(?<=\()|^ +)(?=[A-Za-z_(])", line):
        if start.end() >= first:
            made = groups(line, start.end())
            if len(made) >= 2:
                yield made


def swapped(line, one, other):
    return line[: one[0]] + line[other[0]: other[1]] + line[one[1]: other[0]] + line[one[0]: one[1]] + line[other[1]:]


def others(line, first):
    """Further changes of a line: arguments exchanged, the first of a list left out, a test refused, another variable or number."""
    for found in applications(line, first):
        head = line[found[0][0]: found[0][1]]
        if head == "cond" and len(found) >= 4:
            yield "case", swapped(line, found[2], found[3]), None
        for one, other in zip(found[1:], found[2:]):
            if line[one[0]:one[1]] != line[other[0]:other[1]] and head not in LISTS and not (line[one[0]] == "(" and line[one[0] + 1] == "λ"):
                yield "order", swapped(line, one, other), None
        if re.fullmatch(r"map|filter|filter_map|flat_map|count_by|sum_by|list_any|list_all|fold|sum|All|length|take|drop", head):
            at, end = found[-1]
            yield "end", line[:at] + f"(drop 1 {line[at:end]})" + line[end:], "drop"
        if head in ("filter", "count_by", "list_any", "list_all", "last_place") and re.fullmatch(r"[a-z]\w*", line[found[1][0]: found[1][1]]):
            at, end = found[1]
            yield "case", line[:at] + f"(λ a. not ({line[at:end]} a))" + line[end:], "not"
    for found in re.finditer(r"if (.+?) then (.+?) else (.+)$", line):
        if found.start() >= first and all(balance(part) == (0, 0) for part in found.groups()):
            yield "case", line[: found.start(2)] + found.group(3) + " else " + found.group(2), None
    pairs = list(re.finditer(r"(\w+) = ((?:[^;{}]|\{[^{}]*\})+)(?=;| \})", line))
    for one, other in zip(pairs, pairs[1:]):
        if one.start() >= first and one.group(2) != other.group(2):
            yield "index", swapped(line, one.span(2), other.span(2)), None
    for found in re.finditer(r"(?:= |[(; ])([0-9])(?=$|[;) ])", line):
        if found.start(1) >= first and "Type " not in line:
            yield "end", line[: found.start(1)] + str(int(found.group(1)) + 1) + line[found.end(1):], None
    for found in re.finditer(r"( \+\+ [\w.]+)(?=;)", line):
        yield "end", replaced(line, found, ""), None
    for found in re.finditer(r" ⊎ (.+?);?$", line):
        if found.start() >= first:
            yield "case", replaced(line, found, "⊥"), None
    head = re.match(r" *(?:pub )?\S+ ([^=]*?) = ", line)
    if head:
        names = [n for n in re.findall(r"(?<![\w.])[a-zA-Z]\w*", head.group(1)) if n[0].islower() or len(n) == 1]
        for found in re.finditer(r"(?<![\w.])([A-Za-z]\w*)(?=$|[ ).,;])(?! =)", line[first:]):
            if found.group(1) in names:
                for name in names:
                    if name != found.group(1):
                        yield "variable", line[: first + found.start(1)] + name + line[first + found.end(1):], None


def is_relation(text):
    """Whether a type is a statement of a named relation: a name and its arguments, after what it holds for and its premises."""
    depth, last = 0, 0
    for at, sign in enumerate(text):
        depth += (sign in "({[") - (sign in ")}]")
        last = at + 3 if depth == 0 and text.startswith(" → ", at) else last
    found = re.match(r"([A-Z]\w*) [^<≤≡≢]", text[last:])
    return found is not None and found.group(1) not in DATA


def left_out(part, line, more, first):
    """The line with `⊤` for a statement of a named relation: for the type of a record's field, or for one that is between `×`."""
    field = re.match(r" +pub \w+ : (.+)$", line) if part.kind == "record" else None
    if field and not more and is_relation(field.group(1)):
        yield replaced(line, field, "⊤")
    elif part.kind == "definition":
        start, depth, found = first, 0, []
        for at in range(first, len(line) + 1):
            if at == len(line) or (depth == 0 and line.startswith(" × ", at)):
                found.append((start, at))
                start = at + 3
            if at < len(line):
                depth += (line[at] in "({[") - (line[at] in ")}]")
        for start, end in found if len(found) > 1 else []:
            text = line[start:end].strip()
            if is_relation(text) and "→" not in text:
                yield line[: start + line[start:end].index(text)] + "⊤" + line[start + line[start:end].index(text) + len(text) :]


def variants(text, line, first):
    """The line with a variant of a type of the code in the place of another that the module names."""
    for group in re.findall(r"TheVariants\.\{([^}]*)\}", text):
        names = [word.strip() for word in group.split(",")]
        for found in re.finditer(r"(?<![\w.])(\w+)\b(?!\.)", line):
            if found.start() >= first and found.group(1) in names:
                for name in names:
                    if name != found.group(1):
                        yield replaced(line, found, name)


def changes_of(part):
    """The changes of a definition, one for each kind and line."""
    lines = believed.read(part.path).split("\n")
    first, at, made = signature(part), 0, []
    places = {}
    for number, line in enumerate(part.lines):
        at = next((k for k in range(at, len(lines)) if lines[k].split(" -- ")[0] == line), at)
        places[number] = at
        for kind, pattern, new, needs in CHANGES:
            found = re.search(pattern, line) if number >= first else None
            if found is not None:
                made.append(Change(part, at, kind, line, changed(line, found, new, kind), needs))
    for line, new in exchanged(part):
        made.append(Change(part, places[part.lines.index(line)], "case", line, new, None))
    for number, line in enumerate(part.lines):
        if number >= first and part.kind != "data":
            mark = " = " if part.kind == "definition" else " : "
            right = line.index(mark) + 2 if mark in line and not line.startswith("   ") else 0
            made.extend(Change(part, places[number], kind, line, new, needs) for kind, new, needs in others(line, right))
            made.extend(Change(part, places[number], "case", line, new, None) for new in variants("\n".join(lines), line, right))
            more = number + 1 < len(part.lines) and re.match(r"    ", part.lines[number + 1])
            made.extend(Change(part, places[number], "left out", line, new, "⊤") for new in left_out(part, line, more, right))
    seen, kept = set(), []
    for change in made:
        if change.made != change.line and balance(change.made) == balance(change.line) and (change.at, change.made) not in seen:
            seen.add((change.at, change.made))
            kept.append(change)
    return kept


def ordered(part):
    """The changes of a definition: what leaves out a whole statement, then the others from one that its name picks, so that not all
    definitions are changed alike; those that few types allow are the last."""
    changes = changes_of(part)
    made = [change for change in changes if change.kind not in LAST + ("left out",)]
    first = sum(part.name.encode()) % len(made) if made else 0
    return [change for change in changes if change.kind == "left out"] + made[first:] + made[:first] + [change for change in changes if change.kind in LAST]


def imported(text, name):
    """The line that imports this word of std, in a list of its own; an empty list where the text imports it already."""
    if name is None or re.search(rf"(?m)^use [^\n]*[{{ ,]{re.escape(name)}[,}}]", text):
        return []
    home = "List" if name in ("list_any", "list_all") else "Prelude"
    return [f"use Rattle.std.specs.{home}.{{{name}}}"]


def with_import(text, name):
    """The text with this word of std imported, where it isn't yet."""
    lines = text.split("\n")
    first = next(at for at, line in enumerate(lines) if line.startswith("use "))
    return "\n".join(lines[:first] + imported(text, name) + lines[first:])
