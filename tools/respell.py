#!/usr/bin/env python3
"""Brings the repository's own definitions, fields and lemmas to snake case, all at once.

usage: python3 tools/respell.py [--dry]     at the top of the repository, right after port.py

Words are in snake case, types and modules in camel case. So each name that a file of specs/ or of proofs/ (but not the answers below proofs/F/, whose names the check makes) declares
with a small first letter is respelled: a capital in it becomes _ and the small letter, a dash becomes _. Comments follow where a name in them can be nothing else; strings, functions
of src/ and names of today's library stay. Two names that would fall together, or a name that a file already uses for something else, are printed, and nothing is written.
"""
import collections
import os
import re
import sys

IDENT = r"[^\W\d][\w'\-]*"
HEAD = re.compile(r"^\s*(?:(?:unfoldable|abbrev|pub)\s+)*(?:(?:record|data)\s+)?(" + IDENT + r")\s*(?:[({][^:]*)?:\s")
WORDS = {"use", "pub", "mod", "module", "where", "let", "in", "unfolding", "abbrev", "record", "data", "unfoldable", "elim", "open"}
TOKEN = re.compile(r"(?<![\w'\-])(" + IDENT + r")(?![\w'])")


def files(top):
    for d, ds, fs in os.walk(os.path.join(top, "crates")):
        ds[:] = sorted(x for x in ds if x != "out")
        for f in sorted(fs):
            if f.endswith((".rt", ".antt")):
                yield os.path.join(d, f)


def made(path, top):
    """Whether the check made the names that this file declares."""
    rel = os.path.relpath(path, os.path.join(top, "crates")).split("/")
    return rel[1] == "proofs" and len(rel) > 3


def snake(name):
    out = re.sub(r"(?<=[a-z0-9'])([A-Z])", lambda m: "_" + m.group(1), name)
    out = re.sub(r"([A-Z])(?=[A-Z][a-z])", r"\1_", out)
    return out.replace("-", "_").lower()


def code_and_comment(line, mark):
    i = 0
    while True:
        i = line.find(mark, i)
        if i < 0:
            return line, ""
        if line[:i].count('"') % 2 == 0:
            return line[:i], line[i:]
        i += len(mark)


def outside_strings(code, turn):
    parts = code.split('"')
    return '"'.join(turn(p) if i % 2 == 0 else p for i, p in enumerate(parts))


def main():
    top, dry = os.getcwd(), "--dry" in sys.argv
    texts = {p: open(p, encoding="utf-8").read() for p in files(top)}
    own, of_library = collections.defaultdict(set), set()
    for p, t in texts.items():
        for m in re.finditer(r"use (?:Rattle\.(?:std|core)|mathlib|lib|native|Prim|borrow)\b[^{;\n]*\{([^}]*)\}", t):
            for w in m.group(1).split(","):
                of_library |= set(w.strip().split(" as "))
        if p.endswith(".antt") and not made(p, top):
            for line in t.splitlines():
                m = HEAD.match(line)
                if m and m.group(1) not in WORDS:
                    own[m.group(1)].add(p)
    with open(os.path.join(os.path.dirname(os.path.abspath(__file__)), "respell.txt"), encoding="utf-8") as f:
        turned = {a: b for a, b in (line.split() for line in f if line.strip() and not line.startswith("#")) if a in own}
    defined = {snake(n) for n in own if "-" not in n and n not in turned} | of_library
    for name in own:
        if name[0].islower() and name not in of_library and name not in turned and snake(name) != name:
            lemma = "-" in name and snake(name) in defined
            turned[name] = snake(name) + ("_lem" if lemma else "")
    bad = []
    by_new = collections.defaultdict(list)
    for a, b in turned.items():
        by_new[b].append(a)
    for b, olds in by_new.items():
        if len(olds) > 1:
            bad.append(f"{', '.join(sorted(olds))} -> {b}: fall together")
        if b in own and b not in turned:
            bad.append(f"{olds[0]} -> {b}: is declared too, in {sorted(own[b])[0]}")
        if b in of_library:
            bad.append(f"{olds[0]} -> {b}: the library's")
    for p, t in texts.items():
        here = set(TOKEN.findall(re.sub(r"Rattle\.[\w.]*\.|^-- .*$", "", t, flags=re.M)))
        for a, b in turned.items():
            if p.endswith(".antt") and a in here and b in here and b not in turned:
                bad.append(f"{a} -> {b}: stands in {os.path.relpath(p, top)} already")
    if bad:
        print("\n".join(bad))
    print(f"{len(turned)} names")

    reading = ""

    def turn(text, kebab=True):
        p_is_code = reading.endswith(".rt")

        def one(m):
            w = m.group(1)
            if w not in turned or (not kebab and "-" in w):
                return w
            before, after = text[: m.start()], text[m.end() :]
            if w in snaked and before.endswith(".") and after.startswith("."):
                return w
            if p_is_code and w in snaked:
                return w
            if ("-" in w or w in snaked) and before.endswith(".") and not re.search(r"(?:specs|proofs)(?:\.\w+)+\.$", before) and w not in projected:
                return w
            return turned[w]
        return TOKEN.sub(one, text)

    snaked = {a for a in turned if snake(a) == a}
    projected = set()
    for p, t in texts.items():
        if p.endswith(".antt") and not made(p, top):
            for line in t.splitlines():
                m = HEAD.match(line)
                if m and line[:1] == " ":
                    projected.add(m.group(1))
    for p, t in texts.items():
        reading = p
        mark = "--" if p.endswith(".antt") else "//"
        out = []
        for line in t.split("\n"):
            code, comment = code_and_comment(line, mark)
            out.append(outside_strings(code, turn) + turn(comment, kebab=False))
        new = "\n".join(out)
        if new != t and not dry:
            with open(p, "w", encoding="utf-8") as f:
                f.write(new)
    pages = [os.path.join(top, "README.md")] + [os.path.join(top, "docs", f) for f in sorted(os.listdir(os.path.join(top, "docs"))) if f.endswith(".md")]
    for p in pages:
        reading = p + ".rt"
        with open(p, encoding="utf-8") as f:
            t = f.read()
        new = re.sub(r"`[^`\n]+`", lambda m: turn(m.group(0)), t)
        if new != t and not dry:
            with open(p, "w", encoding="utf-8") as f:
                f.write(new)


main()
