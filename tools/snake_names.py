#!/usr/bin/env python3
"""Respells the names that the crates declare in specs/ and proofs/: words with hyphens or capitals inside become snake case,
names that begin with a capital become camel case. Goals and invariants, whose names the check makes, keep theirs; so do
functions of src/, strings, comments and everything that another repository declares. Run it once, at the top, after the
kit's own respelling; it prints each name with its new spelling, and stops where two names would fall together."""

import os
import re
import sys

TOKEN = re.compile(r"(?<![\w'\-→<>≤≡])([^\W\d][\w'\-]*)(?![→<>≤≡])")
HEAD = re.compile(r"^(\s*)((?:(?:abbrev|unfoldable|pub)\s+)*)([^\W\d][\w'\-]*(?:\s+[^\W\d][\w'\-]*)*)\s+:(?:\s|$)(.*)")
TYPE = re.compile(r"^\s*(?:pub\s+)?(?:data|record)\s+([^\W\d][\w'\-]*)")
GOAL = re.compile(r"^\s*goal\.")
KEYWORDS = {"module", "use", "mod", "where", "record", "data", "pub", "abbrev", "unfoldable", "unfolding", "let", "in", "elim", "as", "λ"}


def files(kinds):
    for folder, dirs, names in os.walk("crates"):
        dirs[:] = sorted(d for d in dirs if d != "out")
        for name in sorted(names):
            if name.endswith(kinds):
                yield os.path.join(folder, name)


def camel(name):
    return "".join(w[:1].upper() + w[1:] for w in name.split("-"))


def snake(name):
    name = re.sub(r"(?<=[a-z0-9])(?=[A-Z])", "_", name) if "-" not in name else name
    return name.replace("-", "_").lower() if re.search(r"[a-z]", name) else name.replace("-", "_")


def respelled(name):
    return camel(name) if name[0].isupper() else snake(name)


def declared():
    """Names of definitions and lemmas, and names of fields and constructors."""
    lemmas, fields = set(), set()
    for path in files((".antt",)):
        with open(path, encoding="utf-8") as f:
            lines = f.read().split("\n")
        inside = None
        for line in lines:
            kind = TYPE.match(line)
            if kind:
                inside = len(line) - len(line.lstrip())
                lemmas.add(kind[1])
                continue
            depth = len(line) - len(line.lstrip())
            if line.strip() and inside is not None and depth <= inside:
                inside = None
            m = HEAD.match(line)
            if not m or line.lstrip().startswith("--") or set(m[3].split()) & KEYWORDS:
                continue
            if GOAL.match(m[4]):
                continue
            (fields if inside is not None else lemmas).update(m[3].split())
    odd = re.compile(r"-|^[a-z]\w*[A-Z]")
    keep = lambda names: {n for n in names if odd.search(n)}
    return keep(lemmas), keep(fields)


def aliases():
    """Names that a use line gives, as in 'idle as idle-teach'."""
    names = set()
    for path in files((".antt", ".rt")):
        with open(path, encoding="utf-8") as f:
            text = f.read()
        for m in re.finditer(r"^(?:ghost )?use [^\n]*", text, re.M):
            names.update(n for n in re.findall(r" as ([^\W\d][\w'\-]*)", m[0]) if "-" in n)
    return names


def turned(text, comment, lemmas, fields):
    out = []
    modules = set(re.findall(r"^(?:ghost )?use [^\n{]* as ([a-z]\w*);?$", text, re.M))
    for line in text.split("\n"):
        at = line.find(comment)
        while at > 0 and line[at - 1] not in " \t":
            at = line.find(comment, at + 1)
        code, rest = (line, "") if at < 0 else (line[:at], line[at:])
        parts = re.split(r'("(?:[^"\\]|\\.)*")', code)
        for i in range(0, len(parts), 2):
            out_part, last = [], 0
            for m in TOKEN.finditer(parts[i]):
                name = m[1]
                before = parts[i][: m.start()]
                owner = re.search(r"([\w'\-·\])]+)\.$", before)
                if owner and not owner[1][:1].isupper() and owner[1] not in modules:
                    known = name in fields
                else:
                    known = name in lemmas or name in fields
                if known:
                    out_part.append(parts[i][last : m.start()] + respelled(name))
                    last = m.end()
            out_part.append(parts[i][last:])
            parts[i] = "".join(out_part)
        out.append("".join(parts) + rest)
    return "\n".join(out)


def words(text, comment):
    code = "\n".join(l.split(comment)[0] for l in text.split("\n"))
    return set(m[1] for m in TOKEN.finditer(code))


def main():
    lemmas, fields = declared()
    lemmas |= aliases()
    changed = {}
    for path in files((".antt", ".rt")):
        with open(path, encoding="utf-8") as f:
            text = f.read()
        comment = "--" if path.endswith(".antt") else "//"
        new = turned(text, comment, lemmas, fields)
        if new == text:
            continue
        had = words(text, comment)
        for name in sorted((lemmas | fields) & had):
            if respelled(name) in had:
                print(f"together: {path}: {name} and {respelled(name)}")
        changed[path] = new
    if "--try" not in sys.argv:
        for path, new in changed.items():
            with open(path, "w", encoding="utf-8") as f:
                f.write(new)
    for name in sorted(lemmas | fields):
        print(f"{name} {respelled(name)}")
    print(f"{len(lemmas | fields)} names, {len(changed)} files", file=sys.stderr)


main()
