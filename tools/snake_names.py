#!/usr/bin/env python3
"""Respells the repository's own definitions and lemmas: words in snake case, types in camel case.

usage: python3 tools/snake_names.py            at the top of the repository: rewrites in place
       python3 tools/snake_names.py --dry      says what it would rename, and which names fall together

Run it once, after the toolchain's port.py. It renames what the .antt files of specs/ and proofs/ declare
(definitions, lemmas, constructors, fields, local functions), there and in the contracts of src/. Goals and
steps, whose names the check makes, keep theirs, but a call named after a function is spelt as the function is
today; comments, strings and the functions of src/ stay as they are.
"""

import os
import re
import sys

TOKEN = re.compile(r"(?<![\w'-])[^\W\d][\w'-]*", re.UNICODE)
DECLARED = re.compile(r"^\s*(?:abbrev |opaque |unfoldable |pub )*(?:record |data |module )?([^\W\d][\w'-]*)(?: (?:\([^)]*\)|\{[^}]*\}))* :(?! *(?:goal|given)\.)", re.UNICODE)
BOUND = re.compile(r"\b(?:let|as) ([^\W\d][\w'-]*)(?=[ ,}])")
# what is a type
OTHERWISE = {
    "Of-one": "OfOne",
    "Of-two": "OfTwo",
}


def files(ending, *below):
    for crate in sorted(os.listdir("crates")):
        for part in below:
            for folder, dirs, names in os.walk(os.path.join("crates", crate, part)):
                dirs.sort()
                for name in sorted(names):
                    if name.endswith(ending):
                        yield os.path.join(folder, name)


def read(path):
    with open(path, encoding="utf-8") as f:
        return f.read()


def pieces(text, antt):
    """The text cut into (is code, piece): comments and strings are no code."""
    cut = re.compile(r'(--(?=[ \n]).*|"(?:[^"\\\n]|\\.)*")' if antt else r'(//.*|b?"(?:[^"\\]|\\.)*")')
    for i, piece in enumerate(cut.split(text)):
        yield i % 2 == 0, piece


def own_names():
    names = set()
    for path in files(".antt", "specs", "proofs"):
        for code, piece in pieces(read(path), True):
            if code:
                for line in piece.split("\n"):
                    found = DECLARED.match(line)
                    if found:
                        names.add(found.group(1))
                    names.update(BOUND.findall(line))
    return {n for n in names if "-" in n and not made_by_check(n)} | set(OTHERWISE)


def made_by_check(name):
    return re.match(r"(returns|loop|invariant|overflow|unreachable)-", name) or re.search(r"-(requires(-\d+)?|init|preserved)$", name)


def spelt(name):
    return OTHERWISE.get(name, name.replace("-", "_"))


def rename(text, antt, names):
    def turn(found):
        word = found.group(0)
        return spelt(word) if word in names else word

    out = []
    for code, piece in pieces(text, antt):
        out.append(TOKEN.sub(turn, piece) if code else piece)
    return "".join(out)


def together(names):
    """Where a renamed name would meet one that is there already, file by file. A definition may bear the name of a function."""
    for path in list(files(".antt", "specs", "proofs")) + list(files(".rt", "src")):
        words = set()
        for code, piece in pieces(read(path), path.endswith(".antt")):
            if code:
                words.update(TOKEN.findall(piece))
        for name in sorted(words & names):
            if spelt(name) in words:
                yield f"{path}: {name} and {spelt(name)}"


def main():
    names = own_names()
    if "--dry" in sys.argv:
        for name in sorted(names):
            print(name, "->", spelt(name))
    for line in together(names):
        print("together:", line)
    if "--dry" in sys.argv:
        return
    for path in list(files(".antt", "specs", "proofs")) + list(files(".rt", "src")):
        old = read(path)
        new = rename(old, path.endswith(".antt"), names)
        if new != old:
            with open(path, "w", encoding="utf-8") as f:
                f.write(new)
    print(len(names), "names")


main()
