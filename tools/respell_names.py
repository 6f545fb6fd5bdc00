#!/usr/bin/env python3
"""Respells this repository's own definitions and lemmas as today's Rattle spells names.

usage: python3 tools/respell_names.py [--check]      at the top of the repository, once, right after port.py

A function, a lemma, a field, a constructor and a variable are in snake case, a type in camel case.
A dash stays where it joins two names, the outer call first, as in `total-append` (std has `length-append`),
and behind a type, as in `Formula-set`. Names that Rattle makes (goals, steps and what stands behind a dot) are left alone,
and so are strings, comments but for what stands between backticks, and every name of src/.
--check writes nothing, and lists each name with its new spelling.
"""

import os
import re
import sys

# Lemmas whose dash joins the names of two functions, or a type and a fact about it.
JOINED = {
    "Formula-set",
    "bit-and",
    "bytes-append",
    "bytes-cons",
    "commands-append",
    "drop-width",
    "raise-append",
    "raise-cons",
    "raised-append",
    "total-append",
    "total-reverse",
    "twins-append",
    "weight-append",
}
# A dash that joins, in a name of more parts.
PARTLY = {"steps-left-append": "steps_left-append"}
# The fields of records, filled by main.
FIELDS = set()

PART = r"[^\s(){}\[\].,;:·`\"⌜⌝]+"
DASHED = re.compile(r"\w[\w']*(?:-[\w']+)+")
SIGNATURE = re.compile(r"\s*(?:abbrev |unfoldable |pub |pattern |mutual )*(?:data |record )?(" + PART + r") (?:\{[^}]*\} )*(?:\([^)]*\) )*: ?(.*)")
BINDERS = re.compile(r"[({]((?:" + PART + r" )+): ")
DERIVED = re.compile(r"deriving \w+ as (\S+)")
LET = re.compile(r"let (" + PART + r") (?:=|:)")
LAMBDA = re.compile(r"λ ((?:" + PART + r" ?)+)\.")
CLAUSE = re.compile(r"\s*" + PART + r"((?: " + PART + r")+) =(?: |$)")
RENAMED = re.compile(r" as (" + PART + r")[,}]")
RECORD = re.compile(r"\s*(?:pub )?record .* where$")
FIELD = re.compile(r"\s+(?:pub )?(" + PART + r") : ")


def files(root, *endings):
    for folder, folders, names in os.walk(root):
        folders[:] = sorted(f for f in folders if f not in ("out", "target", ".git"))
        for name in sorted(names):
            if name.endswith(endings):
                yield os.path.join(folder, name)


def read(path):
    with open(path, encoding="utf-8") as f:
        return f.read()


def declared(line):
    """The names that a line of antt declares, but for answers to goals, whose names Rattle makes."""
    found = []
    m = SIGNATURE.match(line)
    if m and not m[2].startswith("goal."):
        found.append(m[1])
    for pattern in (BINDERS, LAMBDA, CLAUSE):
        for group in pattern.findall(line):
            found += group.split()
    return found + DERIVED.findall(line) + LET.findall(line) + RENAMED.findall(line)


def fields(text):
    """The fields of a file's records: the only names of the repository's own that stand behind a dot."""
    found, inside = [], False
    for line in text.splitlines():
        m = FIELD.match(line) if inside else None
        inside = bool(RECORD.match(line) or m)
        found += [m[1]] if m else []
    return found


def respelled(name):
    if name in JOINED:
        return name
    if name in PARTLY:
        return PARTLY[name]
    if name[0].isupper():
        return "".join(word[0].upper() + word[1:] for word in name.split("-"))
    return name.replace("-", "_")


def spellings():
    names = set()
    for path in files("crates", ".antt"):
        for line in read(path).splitlines():
            names.update(n for n in declared(line.split("-- ")[0]) if DASHED.fullmatch(n))
    return {n: respelled(n) for n in sorted(names) if respelled(n) != n}


def fallen_together(table):
    """New spellings that are another name's already, or that two names would share."""
    words = set()
    for path in files("crates", ".antt"):
        for line in read(path).splitlines():
            words.update(declared(line.split("-- ")[0]))
    new = list(table.values())
    return sorted(n for n in set(new) if n in words or new.count(n) > 1)


def turn(text, table):
    """Respells each name of the table in a piece of code. What stands behind a dot is Rattle's, unless it is a field of a record here."""

    def new(m):
        behind_a_dot = text[m.start() - 1 : m.start()] == "."
        return m[0] if behind_a_dot and m[0] not in FIELDS else table.get(m[0], m[0])

    return re.sub(r"(?<![\w'-])" + DASHED.pattern + r"(?![\w'-])", new, text)


def turn_ticked(text, table):
    return re.sub(r"`[^`\n]*`", lambda m: turn(m[0], table), text)


def turn_line(line, mark, table):
    """A line of code, whose comment begins at the mark: the code, and what stands between backticks in the comment."""
    out, at, in_string = "", 0, False
    while at < len(line):
        if not in_string and line.startswith(mark, at):
            return out + turn_ticked(line[at:], table)
        if line[at] == '"' and line[at - 1 : at] != "\\":
            out, at, in_string = out + '"', at + 1, not in_string
            continue
        end = at + 1
        while end < len(line) and line[end] != '"' and not line.startswith(mark, end):
            end += 1
        piece = line[at:end]
        out, at = out + (piece if in_string else turn(piece, table)), end
    return out


def turned(path, table):
    text = read(path)
    if path.endswith(".md"):
        return turn_ticked(text, table)
    if path.endswith(".edit"):
        return turn(text, table)
    mark = "-- " if path.endswith(".antt") else "//"
    return "".join(turn_line(line, mark, table) for line in text.splitlines(keepends=True))


def main(argv):
    for path in files("crates", ".antt"):
        FIELDS.update(fields(read(path)))
    table = spellings()
    clashes = fallen_together(table)
    for old, new in table.items():
        print(f"{old} -> {new}")
    if clashes:
        print("names fall together: " + ", ".join(clashes), file=sys.stderr)
        return 1
    if "--check" in argv:
        return 0
    for path in [*files("crates", ".antt", ".rt", ".edit"), *files("docs", ".md"), "README.md"]:
        new = turned(path, table)
        if new != read(path):
            with open(path, "w", encoding="utf-8") as f:
                f.write(new)
    return 0


if __name__ == "__main__":
    raise SystemExit(main(sys.argv[1:]))
