#!/usr/bin/env python3
"""The wrong answers: crates/NAME/wrong/*.edit and *.patch, and the must-fail edits, crates/NAME/must-fail/*.edit.

usage: python3 tools/edits.py check [NAME..]         does each fit the crate as it is now, and change code or a definition? prints those that don't
       python3 tools/edits.py turn COMMIT [NAME..]   those that fit the crates of COMMIT and not those of now: writes them anew, by the lines that became of theirs
       python3 tools/edits.py port COMMIT SCRIPT     the same where COMMIT has another spelling, which SCRIPT (port.py) and tools/spelling.py turn

An edit has lines `file: PATH`, and pairs `old: TEXT` and `new: TEXT`: TEXT stands once in the file as the earlier pairs left it. A patch is
a diff of the crate's folder. What is written anew says the same wrong thing at the same place; what can't be is printed, for a hand.
"""
import difflib
import importlib.util
import os
import re
import shutil
import subprocess
import sys
import tempfile

ROOT = os.path.dirname(os.path.dirname(os.path.realpath(__file__)))
TOKEN = re.compile(r"[\w'′◌]+|\s+|[^\w\s]")
APART = 4  # lines between two wrong answers that are turned at once


class Unfit(Exception):
    pass


def text(path):
    with open(path, encoding="utf-8", newline="") as f:
        return f.read()


def write(path, it):
    os.makedirs(os.path.dirname(path), exist_ok=True)
    with open(path, "w", encoding="utf-8", newline="") as f:
        f.write(it)


def run(*words, where=ROOT, feed=None):
    return subprocess.run(words, cwd=where, input=feed, capture_output=True, text=True)


def wrong(names=()):
    """The paths of the wrong answers, of these crates or of all."""
    for name in sorted(os.listdir(os.path.join(ROOT, "crates"))):
        for kind in ("must-fail", "wrong"):
            folder = os.path.join("crates", name, kind)
            if (not names or name in names) and os.path.isdir(os.path.join(ROOT, folder)):
                for one in sorted(os.listdir(os.path.join(ROOT, folder))):
                    if one.endswith((".edit", ".patch")):
                        yield os.path.join(folder, one)


def pairs(edit):
    """The edit's (file, old, new)."""
    file = old = None
    found = []
    for line in edit.split("\n"):
        if line.startswith("file: "):
            file = line[len("file: "):].strip()
        elif line.startswith("old: "):
            old = line[len("old: "):]
        elif line.startswith("new:"):
            if file is None or old is None:
                raise Unfit("a `new:` before its `file:` or its `old:`")
            found.append((file, old, re.sub(r"\A ", "", line[len("new:"):])))
            old = None
    return found


def applied(one, root):
    """What the wrong answer makes of the crate in root: the new text of each file, by its path in the crate."""
    crate = os.path.join(root, os.path.dirname(os.path.dirname(one)))
    it = text(os.path.join(ROOT, one))
    texts = {}
    if one.endswith(".patch"):
        files = re.findall(r"(?m)^\+\+\+ b/(.*)$", it)
        with tempfile.TemporaryDirectory() as room:
            for file in files:
                if os.path.isfile(os.path.join(crate, file)):
                    write(os.path.join(room, file), text(os.path.join(crate, file)))
            ran = subprocess.run(["git", "apply", "-"], cwd=room, input=it, capture_output=True, text=True, env={**os.environ, "GIT_CEILING_DIRECTORIES": os.path.dirname(room)})
            if ran.returncode:
                raise Unfit("the patch doesn't fit: " + " ".join(ran.stderr.split())[:200])
            texts = {file: text(os.path.join(room, file)) for file in files}
    else:
        for file, old, new in pairs(it):
            if file not in texts:
                if not os.path.isfile(os.path.join(crate, file)):
                    raise Unfit(f"there is no {file}")
                texts[file] = text(os.path.join(crate, file))
            times = texts[file].count(old)
            if times != 1:
                raise Unfit(f"in {file} {times} times, not once: {old}")
            texts[file] = texts[file].replace(old, new)
        if not texts:
            raise Unfit("no pair of `old:` and `new:`")
    was = {file: text(os.path.join(crate, file)) if os.path.isfile(os.path.join(crate, file)) else "" for file in texts}
    if not any(texts[file] != was[file] for file in texts if file.startswith(("src/", "specs/"))):
        raise Unfit("it changes no file under src/ or specs/")
    return texts


def check(names):
    total = bad = 0
    for one in wrong(names):
        total += 1
        try:
            applied(one, ROOT)
        except Unfit as why:
            bad += 1
            print(f"{one}: BAD EDIT: {why}")
    print(f"of {total} wrong answers {total - bad} fit" if bad else f"{total} wrong answers fit")
    return 1 if bad or not total else 0


# ---- wrong answers written anew


def hunks(old, new):
    """Where the lines of two texts differ: (i, j, lines), lines i to j of the old text made these."""
    a, b = old.split("\n"), new.split("\n")
    found = difflib.SequenceMatcher(None, a, b, autojunk=False).get_opcodes()
    return [(i, j, b[k:l]) for tag, i, j, k, l in found if tag != "equal"]


def put(old, them):
    lines = old.split("\n")
    for i, j, new in sorted(them, key=lambda it: it[0], reverse=True):
        lines[i:j] = new
    return "\n".join(lines)


def places(old, new):
    """For each line of the old text, about which line of the new it became."""

    def plain(it):
        return [re.sub(r"[^a-z0-9]", "", line.lower()) for line in it.split("\n")]

    a, b = plain(old), plain(new)
    at = {}
    for tag, i, j, k, l in difflib.SequenceMatcher(None, a, b, autojunk=False).get_opcodes():
        for n in range(i, j):
            at[n] = k + (n - i if tag == "equal" else (n - i) * (l - k) // (j - i))
    return at


def tree(commit, room):
    os.makedirs(room)
    run("git", "clone", "-q", "--no-checkout", ROOT, room)
    run("git", "checkout", "-q", "-B", "turning", commit, where=room)
    for folder, dirs, _ in os.walk(os.path.join(room, "crates")):
        if os.path.dirname(folder) == os.path.join(room, "crates"):
            shutil.rmtree(os.path.join(folder, "out"), ignore_errors=True)
    return room


def spelled(room, script):
    """Turns the tree's spelling, by the script and by tools/spelling.py."""
    run("git", "add", "-A", where=room)
    run("git", "-c", "user.name=edits", "-c", "user.email=edits", "commit", "-q", "--allow-empty", "-m", "turned", where=room)
    loaded = importlib.util.spec_from_file_location("port", script)
    port = importlib.util.module_from_spec(loaded)
    loaded.loader.exec_module(port)
    port.SAID = room + "-said"
    if port.turn(room):
        raise SystemExit("edits: the script failed")
    for name in ("spelling.py", "spelling.tsv"):
        shutil.copy(os.path.join(ROOT, "tools", name), os.path.join(room, "tools", name))
    print(run(sys.executable, "tools/spelling.py", where=room).stdout, end="", flush=True)


def turned_by(commit, script, items, work):
    """The base tree and each item's hunks in it, by path: {one: {path: hunks}}. With a script, of the tree that it makes of the commit's."""
    was = tree(commit, os.path.join(work, "was"))
    old = {}
    for one, texts in items.items():
        for path in texts:
            if path not in old:
                full = os.path.join(was, path)
                old[path] = text(full) if os.path.isfile(full) else None
    if not script:
        return was, {one: {path: hunks(old[path] or "", it) for path, it in texts.items()} for one, texts in items.items()}
    base = tree(commit, os.path.join(work, "base"))
    spelled(base, script)
    became, where = {}, {}
    for path, it in old.items():
        if it is not None:
            became[path] = text(os.path.join(base, path))
            where[path] = places(it, became[path])
    done, left, alone = {}, dict(items), False
    number = 0
    while left:
        rounds = []
        for one in sorted(left, key=lambda it: -len(left[it])):
            spans = {path: [(i, j) for i, j, _ in hunks(old[path] or "", it)] for path, it in left[one].items()}
            for these, taken in rounds:
                if all(path not in taken or old[path] is not None and not alone and all(j + APART <= k or l + APART <= i for i, j in mine for k, l in taken[path]) for path, mine in spans.items()):
                    break
            else:
                these, taken = [], {}
                rounds.append((these, taken))
            these.append(one)
            for path, mine in spans.items():
                taken.setdefault(path, []).extend(mine)
        again = {}
        for these, _ in rounds:
            number += 1
            print(f"edits: round {number}, {len(these)} of {len(left)} that are left", flush=True)
            room = tree(commit, os.path.join(work, f"round{number}"))
            every = {}
            for one in these:
                for path, it in left[one].items():
                    every.setdefault(path, []).extend((hunk, one) for hunk in hunks(old[path] or "", it))
            for path, them in every.items():
                write(os.path.join(room, path), put(old[path] or "", [hunk for hunk, _ in them]))
            spelled(room, script)
            lost = set()
            for path, them in every.items():
                full = os.path.join(room, path)
                if not os.path.isfile(full):
                    lost |= {one for _, one in them}
                    continue
                if old[path] is None:
                    done.setdefault(them[0][1], {})[path] = hunks("", text(full))
                    continue
                for hunk in hunks(became[path], text(full)):
                    far, one = min((min(abs(hunk[0] - where[path].get(i, 0)), abs(hunk[1] - where[path].get(j, 0))), one) for (i, j, _), one in them)
                    if len({one for _, one in them}) > 1 and far > APART:
                        lost |= {one for _, one in them}
                    done.setdefault(one, {}).setdefault(path, []).append(hunk)
            for one in these:
                if one in lost or any(not done.get(one, {}).get(path) for path in left[one]):
                    if alone:
                        print(f"{one}: left: the script makes nothing of it", flush=True)
                    else:
                        done.pop(one, None)
                        again[one] = left[one]
            shutil.rmtree(room)
        left, alone = again, True
    return base, done


def tokens(lines):
    return [(m.group(0), n, m.start(), m.end()) for n, line in enumerate(lines) for m in TOKEN.finditer(line) if not m.group(0).isspace()]


def changes(old, new):
    """The changed pieces of a text, each in one line: (line, start, end, new text)."""
    lines, found = old.split("\n"), []

    def gap(them, n):
        """Is there something between this token and the one before it?"""
        return n <= 0 or n >= len(them) or them[n - 1][1] != them[n][1] or them[n - 1][3] != them[n][2]

    for i, j, became in hunks(old, new):
        a, b = tokens(lines[i:j]), tokens(became)
        spans = {}
        for tag, k, l, m, n in difflib.SequenceMatcher(None, [it[0] for it in a], [it[0] for it in b], autojunk=False).get_opcodes():
            if tag == "equal":
                continue
            if k == l and k == len(a) and k == 0:
                raise Unfit("lines were added between others")
            at = a[k][1] if k < l or k == 0 else a[k - 1][1]
            if k < l and a[k][1] != a[l - 1][1]:
                raise Unfit("the change goes over several lines")
            now = spans.setdefault(at, [k, l, m, n])
            now[0], now[1], now[2], now[3] = min(now[0], k), max(now[1], l), min(now[2], m), max(now[3], n)
        for at, (k, l, m, n) in spans.items():
            while k > 0 and m > 0 and a[k - 1][1] == at and (m == n or k == l or gap(a, k) != gap(b, m)):
                k, m = k - 1, m - 1
            while l < len(a) and n < len(b) and a[l][1] == at and (m == n or k == l or gap(a, l) != gap(b, n)):
                l, n = l + 1, n + 1
            said = ""
            for p in range(m, n):
                said += (" " if p > m and gap(b, p) else "") + b[p][0]
            found.append((i + at, a[k][2], a[l - 1][3], said))
    return found


def likeness(old, new):
    """How many tokens an edit's pair has in common at its ends."""
    a, b = ([it[0] for it in tokens([line])] for line in (old, new))
    head = 0
    while head < min(len(a), len(b)) and a[head] == b[head]:
        head += 1
    tail = 0
    while tail < min(len(a), len(b)) - head and a[-1 - tail] == b[-1 - tail]:
        tail += 1
    return head, tail


def rewritten(edit, files):
    """The edit's text with the pairs that make of each file (path, old text, new text) its new one."""
    head = [line for line in edit.split("\n") if line.startswith("#")]
    was = pairs(edit)
    lines = []
    for path, old, new in files:
        now = old
        found = changes(old, new)
        if not found:
            continue
        lines.append(f"file: {path}")
        like = [likeness(a, b) for file, a, b in was if file == path]
        for number, (at, start, end, became) in enumerate(found):
            left, right = like[number] if len(like) == len(found) else (0, 0)
            line = old.split("\n")[at]
            here = [it for it in tokens([line])]
            first = next(n for n, it in enumerate(here) if it[2] == start)
            last = next(n for n, it in enumerate(here) if it[3] == end)
            first, last = max(0, first - left), min(len(here) - 1, last + right)
            while now.count(line[here[first][2]:here[last][3]]) != 1 and (first > 0 or last < len(here) - 1):
                if first > 0:
                    first -= 1
                if last < len(here) - 1 and now.count(line[here[first][2]:here[last][3]]) != 1:
                    last += 1
            a, b = here[first][2], here[last][3]
            if now.count(line[a:b]) != 1:
                a = 0
            if now.count(line[a:b]) != 1:
                raise Unfit(f"the line stands more than once: {line}")
            lines += [f"old: {line[a:b]}", f"new: {line[a:start]}{became}{line[end:b]}"]
            now = now.replace(line[a:b], line[a:start] + became + line[end:b])
        if [it for it in now.split()] != [it for it in new.split()]:
            raise Unfit("its pairs don't make it")
    if not lines:
        raise Unfit("nothing is left of it")
    return "\n".join(head + lines) + "\n"


def merged(now, base, new):
    """What the change from base to new makes of the text of now."""
    if now == base:
        return new
    with tempfile.TemporaryDirectory() as room:
        for name, it in (("now", now), ("base", base), ("new", new)):
            write(os.path.join(room, name), it)
        ran = run("git", "merge-file", "-p", "now", "base", "new", where=room)
        if ran.returncode:
            raise Unfit("what it changes was changed since")
        return ran.stdout


def patch(it, files, crate):
    """The patch's text with the differences of these files."""
    out = it[:it.index("diff --git")]
    with tempfile.TemporaryDirectory() as room:
        for path, old, new in files:
            for side, one in (("a", old), ("b", new)):
                if one is not None:
                    write(os.path.join(room, side, path), one)
            ran = run("git", "diff", "--no-index", "--no-color", "-U1", "a/" + path if old is not None else "/dev/null", "b/" + path, where=room)
            out += re.sub(r"\b[ab]/([ab])/", r"\1/", re.sub(r"(?m)^index .*\n", "", ran.stdout)).replace(f"diff --git b/{path}", f"diff --git a/{path}")
    return out


def turn(commit, script, names):
    items, fit = {}, 0
    with tempfile.TemporaryDirectory() as work:
        was = tree(commit, os.path.join(work, "fits"))
        for one in wrong(names):
            crate = os.path.dirname(os.path.dirname(one))
            try:
                if not script:
                    applied(one, ROOT)
                    fit += 1
                    continue
            except Unfit:
                pass
            try:
                items[one] = {f"{crate}/{file}": it for file, it in applied(one, was).items()}
            except Unfit as why:
                print(f"{one}: left: in {commit} too: {why}")
        base, made = turned_by(commit, script, items, work)
        written = 0
        for one in items:
            crate = os.path.dirname(os.path.dirname(one))
            files, gone = [], []
            try:
                for path, them in sorted(made.get(one, {}).items()):
                    short = path[len(crate) + 1:]
                    full = os.path.join(base, path)
                    before = text(full) if os.path.isfile(full) else None
                    after = put(before or "", them)
                    here = os.path.join(ROOT, path)
                    if before is None:
                        files.append((short, None, after))
                    elif not os.path.isfile(here):
                        gone.append(short)
                    else:
                        now = text(here)
                        try:
                            files.append((short, now, merged(now, before, after)))
                        except Unfit:
                            if short.startswith(("src/", "specs/")):
                                raise
                            gone.append(short)
                if not any(short.startswith(("src/", "specs/")) for short, _, _ in files):
                    raise Unfit("nothing under src/ or specs/ is left of it")
                it = text(os.path.join(ROOT, one))
                it = patch(it, files, crate) if one.endswith(".patch") else rewritten(it, files)
                write(os.path.join(ROOT, one), it)
                written += 1
                if gone:
                    print(f"{one}: written, but for {' '.join(gone)}")
            except Unfit as why:
                print(f"{one}: left: {why}")
        print(f"edits: {written} written anew, {len(items) - written} left" + (f", {fit} fit as they are" if fit else ""))
    return 0


def main(words):
    if words[:1] == ["check"]:
        return check(words[1:])
    if words[:1] == ["turn"] and len(words) > 1:
        return turn(words[1], None, words[2:])
    if words[:1] == ["port"] and len(words) == 3:
        return turn(words[1], os.path.realpath(words[2]), [])
    print(__doc__)
    return 2


if __name__ == "__main__":
    raise SystemExit(main(sys.argv[1:]))
