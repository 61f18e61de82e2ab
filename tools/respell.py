#!/usr/bin/env python3
"""Respells the repository's own definitions, fields and lemmas in snake case, as today's Rattle has them.

Run once, at the top, after port.py: `python3 tools/respell.py`. Types and modules keep their camel case; functions of src/, C names
and strings never had another. With --clashes it changes nothing, and prints each new name that a file has already.
"""
import glob
import re
import sys

CAMEL = re.compile(r"(?<![\w·])[a-z][a-z0-9]+[A-Z][A-Za-z0-9]*")


# where the plain spelling is taken by another name of the same file
TAKEN = {"metAt": "met_numbered", "rowsIn": "rows_of_size"}


def snake(name):
    return TAKEN.get(name) or re.sub(r"(?<=[a-z0-9])([A-Z])", lambda m: "_" + m.group(1).lower(), name)


def files(*kinds):
    return sorted(f for kind in kinds for f in glob.glob(kind, recursive=True) if "/out/" not in f)


def camel():
    """Each word in lower camel case of specs/ and proofs/."""
    return sorted({w for path in files("crates/**/*.antt") for w in CAMEL.findall(open(path, encoding="utf-8").read())})


def main():
    words = camel()
    if not words:
        return
    turn = {w: snake(w) for w in words}
    pattern = re.compile(r"(?<!\w)(" + "|".join(sorted(words, key=len, reverse=True)) + r")(?![A-Za-z0-9_])")
    if "--clashes" in sys.argv:
        for path in files("crates/**/*.antt", "crates/**/*.rt"):
            text = open(path, encoding="utf-8").read()
            here = set(pattern.findall(text))
            seen = set(re.findall(r"\w+", text))
            for word in sorted(here):
                if turn[word] in seen:
                    print(path, word, turn[word])
        return
    for path in files("crates/**/*.antt", "crates/**/*.rt", "crates/**/*.edit", "*.md", "docs/*.md"):
        text = open(path, encoding="utf-8").read()
        new = pattern.sub(lambda m: turn[m.group(1)], text)
        if new != text:
            open(path, "w", encoding="utf-8").write(new)
    for word in words:
        print(word, turn[word])


main()
