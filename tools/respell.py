#!/usr/bin/env python3
"""Respells the repository's own definitions, lemmas, constructors and aliases, once, after the toolchain's port script:
words in snake case, types in camel case. Names that Rattle makes or std has keep their spelling.

usage: respell.py [DIR]      (the repository's root; default: this folder)
"""
import os, re, sys

root = sys.argv[1] if len(sys.argv) > 1 else "."
name = r"[A-Za-z][A-Za-z0-9_'₁₂]*(?:-[A-Za-z0-9_'₁₂]+)+"
token = re.compile(r"(?<![A-Za-z0-9_'₁₂-])" + name + r"(?![A-Za-z0-9_'₁₂-])")

# Names that would fall together with another one.
special = {
    "Parents-first": "TextParentsFirst",
    "Stands-for": "TextStandsFor",
    "bit-and": "bit_of_and",
    "bit-or": "bit_of_or",
    "rule-of": "rule_nodes_of",
    "word-with": "word_at_place",
}


def files():
    for folder, dirs, names in os.walk(os.path.join(root, "crates")):
        dirs[:] = sorted(d for d in dirs if d not in ("out", "target"))
        for n in sorted(names):
            if n.endswith((".antt", ".rt")):
                yield os.path.join(folder, n)


def parts(path, line):
    """The line before its comment, and its comment."""
    if path.endswith(".antt"):
        m = re.search(r"(^|\s)--", line)
    else:
        m = re.search(r"//", line)
    return (line[:m.start()], line[m.start():]) if m else (line, "")


def defined(path, code):
    if not path.endswith(".antt"):
        return
    m = re.match(r"\s*(?:pub )?(?:record|data) (" + name + r") ", code)
    if m:
        yield m.group(1)
    code = re.sub(r"(?<![\w-])(?:abbrev|unfoldable|pub|record|data|mutual) ", "", code)
    m = re.match(r"\s*([^\s:(){}|]+(?: [^\s:(){}|.=]+)*?)\s*(?:\{[^}]*\}\s*)*(?:\([^)]*\)\s*)*:(?!:)", code)
    if m and "goal." not in code:
        for n in m.group(1).split():
            if re.fullmatch(name, n):
                yield n
    for m in re.finditer(r"\b(?:as|let) (" + name + r")(?= ?[:=,}\n]|$)", code):
        yield m.group(1)


def respelt(n):
    if n in special:
        return special[n]
    words = ["get_or" if w == "getD" else "slice_get" if w == "nth" else w for w in n.split("-")]
    if n[0].isupper():
        return "".join(w[0].upper() + w[1:] for w in words)
    return "_".join(words)


texts = {p: open(p, encoding="utf-8").read() for p in files()}
own = set()
for path, text in texts.items():
    for line in text.split("\n"):
        own.update(defined(path, parts(path, line)[0]))
for path, text in texts.items():
    lines = []
    for line in text.split("\n"):
        code, comment = parts(path, line)
        lines.append(token.sub(lambda m: respelt(m.group(0)) if m.group(0) in own else m.group(0), code) + comment)
    new = "\n".join(lines)
    if new != text:
        open(path, "w", encoding="utf-8").write(new)
print(f"{len(own)} names respelt")
