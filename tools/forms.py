#!/usr/bin/env python3
"""Counts the places in crates/*/src that may be written in an older form, point by point (docs/DESIGN-PASS.md).

Run it at the top of the repository: `python3 tools/forms.py` prints the counts, `python3 tools/forms.py POINT` lists the places of one
point. It finds candidates by text; which of them is a place, the page says. Tests are left out.
"""
import collections
import glob
import itertools
import re
import sys

FILES = sorted(f for f in glob.glob("crates/*/src/**/*.rt", recursive=True) if not f.endswith("tests.rt"))
TEXT = {f: open(f).read() for f in FILES}


def lines(pattern, skip=None):
    """The lines that match, with their places."""
    found = []
    for f in FILES:
        for n, line in enumerate(TEXT[f].split("\n"), 1):
            code = line.split("//")[0]
            if re.search(pattern, code) and not (skip and re.search(skip, code)):
                found.append(f"{f}:{n}: {line.strip()}")
    return found


def enums():
    """Each enum with the number of its cases and whether one of them carries nothing."""
    found = []
    for f in FILES:
        for m in re.finditer(r"(?m)^(?:pub(?:\(crate\))? )?enum (\w+)[^{]*\{\n(.*?)^\}", TEXT[f], re.S):
            cases = re.findall(r"(?m)^    (\w+)([^\n]*)", re.sub(r"(?m)^ *//.*\n", "", m[2]))
            bare = sum(1 for _, rest in cases if rest.strip() in (",", ""))
            found.append((f, m[1], len(cases), bare))
    return found


def shaped():
    """Enums of two cases of which at most one carries nothing, and enums with a case that only wraps a refusal."""
    out = [f"{f}: {name} ({n} cases, {bare} bare)" for f, name, n, bare in enums() if n == 2 and bare < 2]
    out += lines(r"^\s+Refused\(Refusal")
    return out


def functions():
    """Each function with its parameters and its clauses."""
    for f in FILES:
        for m in re.finditer(r"(?m)^ *(?:pub(?:\(crate\))? )?fn (\w+)(?:<[^{;]*?>)?\(([^{;]*?)\)(?: -> [^\n]*)?\n((?: *(?:requires|ensures|where)[^\n]*\n)*)", TEXT[f]):
            params = [" ".join(p.split()) for p in re.split(r",(?![^<(\[]*[>)\]])", m[2]) if p.strip()]
            yield f, m[1], params, m[3]


def facts():
    """Bounds and equations between numbers that stand in the clauses of three functions or more."""
    where = collections.defaultdict(set)
    for f, name, _, clauses in functions():
        clauses = re.sub(r"\.(old|new|now)\b", "", clauses)
        for atom in re.findall(r"[\w.]+ (?:≤|<) \w+|(?:Fine|Good) (?:draft|self)|S\.Store\.fit store → S\.Store\.fit store", clauses):
            if re.match(r"(result|\d)", atom):
                continue
            where[atom].add(f"{f}:{name}")
    return [f"{a}: {len(w)} functions" for a, w in sorted(where.items()) if len(w) >= 3]


def together():
    """Three parameters or more that stand together in three functions or more (the largest such groups)."""
    rows = []
    for f, name, params, _ in functions():
        rows.append((f"{f}:{name}", frozenset(p for p in params if not p.endswith("self"))))
    groups = collections.Counter()
    for size in range(3, 8):
        for _, ps in rows:
            for g in itertools.combinations(sorted(ps), size):
                groups[g] += 1
    good = [g for g, n in groups.items() if n >= 3]
    best = [g for g in good if not any(set(g) < set(h) for h in good)]
    return [f"({', '.join(g)}): {groups[g]} functions" for g in best]


KEYWORDS = set("fn let mut match if else return Some None Ok Err self Self for in while loop as true false".split())


def shape(code):
    """The tokens of a piece of code with its names and numbers taken out."""
    code = re.sub(r"//[^\n]*", "", code)
    return tuple(t if t in KEYWORDS or not re.match(r"\w", t) else "_" for t in re.findall(r"\w+|[^\s\w]", code))


def bodies():
    """Each function's body."""
    for f in FILES:
        for m in re.finditer(r"(?m)^( *)(?:pub(?:\(crate\))? )?fn (\w+)", TEXT[f]):
            start = TEXT[f].find("\n" + m[1] + "{\n", m.start())
            one_line = TEXT[f].find(" {\n", m.start(), TEXT[f].find("\n", m.start()) + 1)
            begin = one_line if one_line >= 0 else start
            end = TEXT[f].find("\n" + m[1] + "}", begin + 2)
            if begin >= 0 and end >= 0:
                yield f, m[2], TEXT[f][begin:end]


def twins():
    """Functions whose bodies have the same shape, and types whose cases or fields have the same names."""
    found = []
    by_shape = collections.defaultdict(list)
    for f, name, body in bodies():
        key = shape(body)
        if len(key) >= 14:
            by_shape[key].append(f"{f}:{name}")
    found += [", ".join(v) for v in by_shape.values() if len(v) >= 2]
    by_names = collections.defaultdict(list)
    for f in FILES:
        for m in re.finditer(r"(?m)^(?:pub(?:\(crate\))? )?(?:enum|struct) (\w+)[^{;]*\{\n(.*?)^\}", TEXT[f], re.S):
            names = tuple(re.findall(r"(?m)^    (?:pub(?:\(crate\))? )?(\w+)", re.sub(r"(?m)^ *(//|ghost).*\n", "", m[2])))
            for n in (names, names[:3] if len(names) > 4 else names):
                by_names[n].append(f"{f}:{m[1]}")
    found += [" = ".join(sorted(set(v))) for k, v in by_names.items() if len(k) >= 2 and len(set(v)) >= 2]
    return sorted(set(found))


POINTS = {
    "1 enums of the shape of Option or Result": shaped,
    "1 flags": lambda: lines(r"-> (Result<)?bool"),
    "1 numbers for kinds, and numbers that mean nothing": lambda: lines(r"^pub const [A-Z]+: u8") + lines(r"pub fn \w+(<.*>)?\(\) -> u8"),
    "2 functions of the same shape, types with the same names": twins,
    "3 loops": lambda: lines(r"^\s*(while|loop)\b") + lines(r"^\s*for \w+ in .*\.\."),
    "4 conversions, comparisons and printing by hand": lambda: lines(r"fn (of|kind_of|\w+_of|order_of\w*|read_u\d+|hex_digit|write_hex|tells_\w+|any)\b[(<]")
    + lines(r"^\s+\w+: v\.\w+,$") + lines(r"Err\((\w+)\) => Err\(\1\)|Ok\(\(\)\) => None"),
    "5 facts in three contracts or more": facts,
    "5 parameters that travel together": together,
    "6 arrays": lambda: lines(r": \[[A-Za-z][^\]]*; *\w+\]", r"fn |let |const |ghost"),
    "7 switches on a step": lambda: lines(r"match (edge|sought|call|self\.state|\(self\.state)") + lines(r"fn\("),
}

if __name__ == "__main__":
    want = " ".join(sys.argv[1:])
    for point, find in POINTS.items():
        if want and not point.startswith(want):
            continue
        found = find()
        print(f"{point}: {len(found)}")
        if want:
            print("\n".join("  " + x for x in found))
