#!/usr/bin/env python3
"""Spells the names of definitions and lemmas in snake case: words of a name are joined by `_`, with no capital and no dash.

usage: python3 tools/spelling.py table    writes tools/spelling.tsv, the old and the new name of each, from what stands under crates/
       python3 tools/spelling.py          turns all that stands under crates/, by tools/spelling.tsv, and prints what it left

It is for once: it brought the repository to the spelling of today's Rattle, behind port.py. Types keep their capitals, and so do names of
the data sheet's registers. Names of src/, and names that Rattle makes, are not in the table.
"""
import os
import re
import sys

HERE = os.path.dirname(os.path.realpath(__file__))
ROOT = os.path.dirname(HERE)
TABLE = os.path.join(HERE, "spelling.tsv")
DECLARED = re.compile(r"^\s*((?:pattern |unfoldable |abbrev |pub |axiom )*)([^\s(){},;:.]+)(?: \{[^}]*\})? :(?: |$)")
TOKEN = re.compile(r"[^\s(){}\[\],.;\"`]+")
COLUMNS = re.compile(r"^--    (\S.*?)( {2,})(\S.*)$")


def files(*ends):
    for folder, dirs, names in os.walk(os.path.join(ROOT, "crates")):
        dirs[:] = sorted(d for d in dirs if d != "out")
        for name in sorted(names):
            if name.endswith(ends):
                yield os.path.join(folder, name)


def text(path):
    with open(path, encoding="utf-8", newline="") as f:
        return f.read()


def spelled(name):
    """The name in snake case; a type as it is."""
    if name[0].isupper() and "-" not in name:
        return name
    name = name.replace("-", "_")
    return re.sub(r"([a-z0-9])([A-Z])(?=[a-z])", lambda m: m.group(1) + "_" + m.group(2).lower(), name)


def declared():
    """Each name that a file of specs/ or a file of lemmas declares, with the files that declare it."""
    found = {}
    for path in files(".antt"):
        if os.path.basename(path) == "Proof.antt":
            continue
        for line in text(path).split("\n"):
            m = DECLARED.match(line)
            if m and m.group(2) not in ("use", "mod", "where"):
                found.setdefault(m.group(2), set()).add(os.path.relpath(path, ROOT))
    return found


def table():
    found = declared()
    taken = {}
    for name in found:
        taken.setdefault(spelled(name), []).append(name)
    rows = []
    for new, olds in sorted(taken.items()):
        # A lemma that would have its function's name gets `_lem`: the name is that of the definition in specs/, or else of the one without a dash.
        first = sorted(olds, key=lambda o: (not any("/specs/" in f for f in found[o]), "-" in o, o))[0]
        for old in sorted(olds):
            to = new if old == first else new + "_lem"
            if len(olds) > 2 or to in found and to not in olds:
                print(f"look: {olds}")
            if old != to:
                rows.append((old, to))
    with open(TABLE, "w", encoding="utf-8") as f:
        f.writelines(f"{old}\t{new}\n" for old, new in rows)


def names():
    rows = dict(line.split("\t") for line in text(TABLE).splitlines())
    # the word of an operator, as it stands where it is used
    for old, new in list(rows.items()):
        if old.startswith("◌") and old.endswith("◌"):
            rows[old[1:-1]] = new[1:-1]
    return rows


def turned(line, rows, comment):
    """The line with its names spelled. In a comment a name with a dash is left, since English has such words too; and a name that is in snake case already is a lemma's alone, and in no path."""

    def word(m):
        name = m.group(0)
        if name not in rows or name[0].islower() and "-" not in name and name.lower() == name and (comment == "//" or m.string[: m.start()].endswith(".")):
            return name
        return rows[name]

    at = line.find(comment + " ")
    if line.startswith(comment):
        at = 0
    code, said = (line, "") if at < 0 else (line[:at], line[at:])
    code = TOKEN.sub(word, code)
    said = TOKEN.sub(lambda m: m.group(0) if "-" in m.group(0) else word(m), said)
    return code + said


def indexed(line, rows):
    """A line of the index at the head of a page: its first column has names, with dashes too."""
    m = COLUMNS.match(line)
    if not m and not re.match(r"^--    [a-z][\w-]*(, [a-z][\w-]*)*$", line):
        return line
    names_, rest = (m.group(1), m.group(2) + m.group(3)) if m else (line[6:], "")
    return "--    " + TOKEN.sub(lambda t: rows.get(t.group(0), t.group(0)) if "-" in t.group(0) else t.group(0), names_) + rest


def aligned(lines):
    """An index at the head of a page, in two columns again."""
    out, block = [], []

    def flush():
        where = [len(m.group(1)) + len(m.group(2)) for m in block]
        usual = max(set(where), key=lambda w: (where.count(w), w)) if where else 0
        for m in block:
            gap = usual - len(m.group(1))
            out.append("--    " + m.group(1) + " " * (gap if gap >= 2 else 4) + m.group(3))
        block.clear()

    for line in lines:
        m = COLUMNS.match(line)
        if m:
            block.append(m)
        else:
            flush()
            out.append(line)
    flush()
    return out


def main():
    if sys.argv[1:] == ["table"]:
        table()
        return
    rows = names()
    for path in files(".antt", ".rt"):
        old = text(path)
        comment = "--" if path.endswith(".antt") else "//"
        lines = [indexed(turned(line, rows, comment), rows) for line in old.split("\n")]
        if "/specs/" in path:
            lines = aligned(lines)
        new = "\n".join(lines)
        if new != old:
            with open(path, "w", encoding="utf-8", newline="") as f:
                f.write(new)


main()
