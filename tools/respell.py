#!/usr/bin/env python3
"""Brings this repository's own definitions and lemmas to one spelling.

usage: python3 tools/respell.py [--list]        at the top of the repository, right after the kit's port.py

A name that the repository itself defines in specs/ or proofs/ is spelled in snake case, a type or fact (its first letter is a capital) in camel
case. Names of the library, of functions in src/, and of what the check generates stay. It prints names that would fall together, and changes
nothing then. Text in must-fail/*.edit that cites such a name is turned alike; the text there is otherwise left.
"""

import os
import re
import sys

NAME = r"[A-Za-zℕℤ◌][\w'◌ℕℤ-]*"
TOKEN = re.compile(r"(?<![\w'ℕℤ-])" + r"[A-Za-z][\w'ℕℤ]*(?:-[\w'ℕℤ]+)+(?![\w'ℕℤ-])|(?<![\w'-])(?:orderBytes|Goes_on|Found_at|true_T|T_true)(?![\w'-])|[A-Za-z][\w'ℕℤ]*-(?=[\s:)}])")
MODIFIER = r"(?:(?:pub|abbrev|unfoldable|opaque|private) )*"
SIGNATURE = re.compile(r"^(\s*)(" + MODIFIER + r")(" + NAME + r") :(?= |$)(.*)$")
RECORD = re.compile(r"^\s*" + MODIFIER + r"(record|data) (" + NAME + r")(?=[ :]|$)")
IMPORT = re.compile(r"use ([\w.'-]+)\.\{([^}]*)\}")
FIXED = {"orderBytes": "order_bytes", "Goes_on": "GoesOn", "Found_at": "FoundAt", "true_T": "fact_of_true", "T_true": "true_of_fact"}
# constructors, and names under which a file imports another
ALSO = """to-right to-left Well-made Edit-refusal weight-of walk-finds sprout-of split-edit put-edit drop-edit advance-edit Session-row double-of
Single-of steps-more of-records of-bytes has-stepped release-of parted-tree To-step To-open To-close Session-state Session-does Session-call Not-a-session Moved-on
Low-again Is-going Is-closed Is-answered In-search In-rotation In-lookup In-copy Has-opened Has-none Has-one Found-one Found-none Edit-doing
By-store""".split()


def files(root, endings):
    for folder, dirs, names in os.walk(os.path.join(root, "crates")):
        dirs[:] = sorted(d for d in dirs if d != "out")
        for n in sorted(names):
            if n.endswith(endings):
                yield os.path.join(folder, n)


def read(path):
    with open(path, encoding="utf-8") as f:
        return f.read()


def respelled(name):
    if name in FIXED:
        return FIXED[name]
    if name[0].isupper():
        return "".join(p[:1].upper() + p[1:] for p in re.split(r"[-_]", name))
    return name.replace("-", "_")


def generated(line_rest):
    return re.match(r"\s*(\(.*\) → )*goal\.", line_rest) is not None


def own_names(root):
    own, goals, plain = set(), set(), set()
    for path in files(root, ".antt"):
        if "/declared/" in path:
            continue
        for line in read(path).split("\n"):
            m = RECORD.match(line)
            if m:
                (own if "-" in m.group(2) or m.group(2) in FIXED else plain).add(m.group(2))
                continue
            m = SIGNATURE.match(line)
            if not m or m.group(3) in ("let",):
                continue
            name = m.group(3)
            if generated(m.group(4)):
                goals.add(name)
            else:
                (own if "-" in name or name in FIXED else plain).add(name)
    return own, goals, plain


def imported(root):
    """The names that our files take from the library."""
    theirs = set()
    for path in files(root, (".antt", ".rt")):
        for m in IMPORT.finditer(read(path)):
            where = m.group(1)
            if where.startswith("Rattle.") and not where.startswith("Rattle.std.") and not where.startswith("Rattle.core."):
                continue
            theirs |= {n.strip().split(" ")[0] for n in m.group(2).split(",")}
    return theirs


def main():
    root = os.getcwd()
    own, goals, plain = own_names(root)
    own |= set(ALSO)
    theirs = imported(root)
    skipped = sorted(own & (goals | theirs))
    turn = {n: respelled(n) for n in own - goals - theirs}
    turn = {n: t for n, t in turn.items() if n != t}
    clash = sorted((n, t) for n, t in turn.items() if t in theirs or t in plain)
    for n in skipped:
        print(f"left, since the library or the check has that name: {n}")
    for n, t in clash:
        print(f"falls together: {n} -> {t}")
    seen = {}
    for n, t in sorted(turn.items()):
        if t in seen:
            print(f"falls together: {n} and {seen[t]} -> {t}")
        seen[t] = n
    if "--list" in sys.argv:
        for n, t in sorted(turn.items()):
            print(n, t)
        return 0

    def put(m):
        w = m.group(0)
        return turn.get(w, w)

    changed = 0
    for path in files(root, (".antt", ".rt", ".edit")):
        old = read(path)
        new = TOKEN.sub(put, old)
        if new != old:
            with open(path, "w", encoding="utf-8") as f:
                f.write(new)
            changed += 1
    print(f"{len(turn)} names, {changed} files")
    return 0


if __name__ == "__main__":
    sys.exit(main())
