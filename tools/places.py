#!/usr/bin/env python3
"""Counts the places in crates/*/src that could take a plainer form, by the points of docs/DESIGN-PASS.md.
    tools/places.py [COMMIT]        a line for each kind of place: point, kind, how many
    tools/places.py -v [COMMIT]     the places too
Without a commit it reads the files as they are."""
import re
import subprocess
import sys
from collections import defaultdict


def sources(commit):
    if commit:
        names = subprocess.run(["git", "ls-tree", "-r", "--name-only", commit, "crates"], capture_output=True, text=True, check=True).stdout.split()
        read = lambda name: subprocess.run(["git", "show", f"{commit}:{name}"], capture_output=True, text=True, check=True).stdout
    else:
        names = subprocess.run(["git", "ls-files", "crates"], capture_output=True, text=True, check=True).stdout.split()
        read = lambda name: open(name, encoding="utf-8").read()
    # files under /src/, and the answers, for point 8
    return {name: read(name) for name in names if "/src/" in name and name.endswith(".rt")}, [name for name in names if name.endswith("/Answers.antt")], read


class Function:
    def __init__(self, file, line, name, head, body):
        self.file, self.line, self.name, self.head, self.body = file, line, name, head, body

    def place(self):
        return f"{self.file}:{self.line} {self.name}"


def functions(file, text):
    """The functions of a file: head (signature and clauses) and body."""
    for found in re.finditer(r"^([ \t]*)(?:pub(?:\(crate\))? )?(?:extern \"C\" )?fn (\w+)", text, re.M):
        indent = found.group(1)
        start = found.start()
        body = re.compile(rf"^{indent}\{{$|\{{$", re.M)
        at = found.end()
        # the head ends at a line that is '{' alone, or at a signature that ends with '{'
        lone = re.compile(rf"^{indent}\{{\n", re.M).search(text, at)
        first_line_end = text.index("\n", at)
        if text[at:first_line_end].rstrip().endswith("{") and not text[at:first_line_end].strip().startswith("requires"):
            open_at = first_line_end
        elif lone:
            open_at = lone.end() - 1
            brace = re.search(r"\) (?:-> [^\n]+ )?\{\n", text[at:lone.start()])
            if brace:
                open_at = at + brace.end() - 1
        else:
            continue
        close = re.compile(rf"^{indent}\}}", re.M).search(text, open_at)
        yield Function(file, text.count("\n", 0, start) + 1, found.group(2), text[start:open_at], text[open_at:close.start() if close else len(text)])


KEYWORDS = set("let mut if else while loop for in match return as true false fn pub self Self break continue".split())


def shape(body):
    tokens = re.findall(r"[A-Za-z_]\w*|\d\w*|b?'(?:\\.|[^'])*'|b?\"(?:\\.|[^\"])*\"|\S", re.sub(r"//[^\n]*", "", body))
    return tuple(t if t in KEYWORDS or not re.match(r"[\w'\"]", t) else "x" for t in tokens)


def parameters(head):
    inner = head[head.index("(") + 1:]
    depth, count, seen = 1, 0, False
    for c in re.sub(r"->", "", inner):
        if c in "([{<":
            depth += 1
        elif c in ")]}>":
            depth -= 1
            if depth == 0:
                break
        elif c == "," and depth == 1:
            count += 1
            seen = False
            continue
        if not c.isspace():
            seen = True
    return count + seen


BY_HAND = "least is_same is_within copied as_bytes bytes_of values_of give stored put_at eight_at eight_of fill_empty weigh digit number_of glyph hex hexadecimal decimal last_digits listed next_from first is_letter with_contact byte_at mask_at shared word_count".split()


def places(commit):
    files, answers, read = sources(commit)
    found = defaultdict(list)
    all_functions = []
    for file, text in sorted(files.items()):
        lines = text.split("\n")
        own = list(functions(file, text))
        all_functions += own
        for number, line in enumerate(lines, 1):
            here = f"{file}:{number} {line.strip()}"
            if re.match(r"\s*(pub )?(heard|well|known|more|yes|end|failed): (bool|Heard)\b", line) or re.match(r"\s*(pub )?number: (u8|usize|Number),$", line):
                found["1 a flag or number with a value beside it"].append(here)
            if re.search(r"(numbers::)?\b(DONE|NOT_EIGHT|HIGH_BITS|NO_BYTES|TOO_MANY|NOT_ALLOWED|BAD_SIZE|UNSOUND|CUT_SHORT|NO_ROOM|BEYOND_END|BAD_CODE|BAD_CHANGE|INSIDE_GROUP|BAD_PINS)\b|numbers::(NO_KEY|ASLEEP)\b", line) and not re.match(r"\s*(//|pub const|use )", line):
                found["1 uses of a refusal's number"].append(here)
            if re.match(r"(pub(\(crate\))? )?const (NONE|LOOK|WRITE|READ|RESET|IDLES|NAMES|WRITES|READS|REFUSES|DECLINED|GROUP|OPEN|END): ", line) or (file.startswith("crates/numbers/") and line.startswith("pub const")):
                found["1 constants for kinds and refusals"].append(here)
            if re.match(r"\s*(while|loop)\b", line):
                found["3 loops by hand"].append(here)
            if re.search(r"\bif (is_same\(|kind [=!]= |doing [=!]= )|match what\b|\.doing [=!]= ", line):
                found["7 tests of which step to run"].append(here)
            if re.search(r"let (mut )?\w+(: [^=]+)? = \[0\w*; \w+\];", line):
                found["6 local buffers with a length beside"].append(here)
        for block in re.finditer(r"^(?:pub(?:\(crate\))? )?enum (\w+) \{\n(.*?)^\}", text, re.M | re.S):
            if re.search(r"^\s*(Wrong|Declined|Well)\b", block.group(2), re.M):
                found["1 own enums like Option or Result"].append(f"{file} {block.group(1)}")
        for block in re.finditer(r"^(?:pub(?:\(crate\))? )?struct (\w+)[^\n]*\{\n(.*?)^\}", text, re.M | re.S):
            fields = block.group(2)
            if re.search(r": \[\w+; \w+\],", fields) and re.search(r"\b(count|at|byte|held|kept): (u8|u16|usize)", fields):
                found["6 structs of a buffer and its length"].append(f"{file} {block.group(1)}")
        for f in own:
            if re.search(r"-> u8\b", f.head) and re.search(r"result ≡ (number_of|check_number)", f.head):
                found["1 functions that give a refusal's number"].append(f.place())
            if parameters(f.head) >= 6:
                found["5 functions of six parameters or more"].append(f.place())
            if f.name in BY_HAND:
                found["4 by hand what the library has"].append(f.place())
            if re.search(r"if [^\n]*\{\n\s*return (true|false);\n", f.body) and re.search(r"-> bool", f.head) and not re.search(r"\b(while|for|loop)\b", f.body):
                found["4 tests written as a ladder of returns"].append(f.place())
    facts = defaultdict(list)
    for f in all_functions:
        crate = f.file.split("/")[1]
        for clause in re.findall(r"(?:requires|ensures)(?: \w+)? \{(.*?)\}\s*$", f.head, re.M | re.S):
            for fact in re.findall(r"\(?((?:result\.|self\.new\.)?[\w.]+ (?:<|≤) \d+|length [\w.]+ ≡ \d+)\)?", clause):
                facts[crate, re.sub(r"\.(now|old|new)", "", fact)].append(f.place())
    for (crate, fact), where in sorted(facts.items()):
        if len(set(where)) >= 3:
            found["5 a fact in three contracts or more"] += [f"{w}: {fact}" for w in sorted(set(where))]
    alike = defaultdict(list)
    for f in all_functions:
        s = shape(f.body)
        if len(s) >= 22:
            alike[s].append(f.place())
    for group in alike.values():
        if len(group) > 1:
            found["2 functions of one shape"] += [" ~ ".join(group)]
    for name in answers:
        lines = [l for l in read(name).split("\n") if l.strip()]
        found["8 files of answers"].append(f"{name} {len(lines)}")
    return found


def main():
    words = sys.argv[1:]
    told = "-v" in words
    words = [w for w in words if w != "-v"]
    found = places(words[0] if words else None)
    for kind in sorted(found):
        extra = f", {sum(int(p.split()[-1]) for p in found[kind])} lines" if kind.startswith("8") else ""
        print(f"{kind}: {len(found[kind])}{extra}")
        if told and not kind.startswith("8"):
            for p in found[kind]:
                print("    " + p)


main()
