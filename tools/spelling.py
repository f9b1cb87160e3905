#!/usr/bin/env python3
"""Spells the definitions and lemmas of this repository as the kit does: words in snake case, types in camel case.

usage: python3 tools/spelling.py     at the top of the repository; prints each name that it turned

A name that specs/ or proofs/ define and that has a dash is turned wherever it stands as a name: in specs/, proofs/, the clauses of src/, and between
backticks in docs/. Comments, strings and names that Rattle makes (goals, steps) stay. Run once, after the kit's own port.py.
"""

import os
import re
import sys

NAME = r"[A-Za-z][\w'-]*"
TOKEN = re.compile(r"(?<![\w'-])" + NAME)
DEFINED = re.compile(r"^\s*(?:(?:abbrev|pub|unfoldable|data|record)\s+)*(" + NAME + r")(?=[^\n:=]*:)", re.M)
WORDS = {"use", "open", "module", "where", "let", "in", "with", "elim"}

# Names that would fall together with one of the library's.
OWN = {"bit-or": "bit_of_or", "bit-and": "bit_of_and"}
# What the library's script left, in one file each.
LEFT = {
    "crates/rules/specs/Standing.antt": [("bit-or", "bit_or"), ("bitOr", "bit_or")],
}


def files():
    for folder, dirs, names in os.walk("crates"):
        dirs[:] = sorted(d for d in dirs if d != "out")
        for name in sorted(names):
            if name.endswith((".antt", ".rt")):
                yield os.path.join(folder, name)


def read(path):
    with open(path, encoding="utf-8") as file:
        return file.read()


def write(path, text):
    with open(path, "w", encoding="utf-8") as file:
        file.write(text)


def turned(name):
    if name in OWN:
        return OWN[name]
    if name[0].isupper():
        return "".join(part[:1].upper() + part[1:] for part in re.split("[-_]", name))
    return name.replace("-", "_")


def defined(path):
    text = re.sub(r"--.*", "", read(path))
    for match in DEFINED.finditer(text):
        line = text[match.start() : (text + "\n").find("\n", match.end())]
        goal = os.path.basename(path) in ("Answers.antt", "Invariants.antt") and re.search(r":\s*goal\.", line)
        if not goal and match.group(1) not in WORDS and "-" in match.group(1):
            yield match.group(1)


def given(path):
    """The names that imports give to what they bring in."""
    for line in re.findall(r"^(?:ghost )?use .*", read(path), re.M):
        yield from re.findall(r" as (" + NAME + "-" + NAME + ")", line)


def spell(text, names, comment):
    """The text with each name turned, but for what stands in comments and strings."""
    parts = re.split("(" + comment + r".*|\"(?:[^\"\\]|\\.)*\")", text)
    for i in range(0, len(parts), 2):
        parts[i] = TOKEN.sub(lambda m: names.get(m.group(0), m.group(0)), parts[i])
    return "".join(parts)


def main():
    for path, pairs in LEFT.items():
        text = read(path)
        for old, new in pairs:
            text = re.sub(r"(?<![\w'-])" + re.escape(old) + r"(?![\w'-])", new, text)
        write(path, text)
    names = {n: turned(n) for p in files() if p.endswith(".antt") for n in defined(p)}
    names |= {n: turned(n) for p in files() for n in given(p)}
    for path in files():
        text = read(path)
        new = spell(text, names, "--" if path.endswith(".antt") else "//")
        if new != text:
            write(path, new)
    for name in sorted(os.listdir("docs")):
        path = os.path.join("docs", name)
        if not name.endswith(".md") or name.startswith("PORT"):
            continue
        text = read(path)
        new = re.sub(r"`([^`\n]*)`", lambda m: "`" + (names.get(m.group(1)) or m.group(1)) + "`", text)
        if new != text:
            write(path, new)
    for name in sorted(names):
        print(name, names[name])
    print(len(names), "names turned", file=sys.stderr)


main()
