#!/usr/bin/env python3
"""Lists the places of crates/*/src where an older form may stand, and counts them.

usage: python3 tools/places.py [FOLDER]        the repository in FOLDER, or here: all lists
       python3 tools/places.py [FOLDER] -c     the counts alone

Each list is found by the shape of the text, so it also holds places that are right as they are:
docs/DESIGN-PASS.md says which.
"""

import glob
import os
import re
import sys
from collections import defaultdict
from difflib import SequenceMatcher

FUNCTION = re.compile(r"\bfn (\w+)((?:<[^{;]*?>)?)\(([^{;]*?)\)\s*(?:->\s*([^{;]*?))?\s*((?:(?:requires|ensures)[^\n]*\n\s*)*)\{", re.S)
WORD = re.compile(r"[A-Za-z_]\w*|\d[\w_]*|\S")
KEPT = {"for", "in", "if", "else", "match", "let", "mut", "return", "fn", "as", "while", "Some", "None", "Ok", "Err", "self", "pub"}

# a line of this shape is a place of this list
SHAPES = (
    ("1 numbers for kinds", r"^(pub(\(crate\))? )?const [A-Z]+: u8\b|\bcode: u8\b"),
    ("1 numbers for refusals or for nothing", r"\bfn number\b|\bnumber: u32|\{ -1 \}"),
    ("1 own enums", r"^(pub(\(crate\))? )?enum "),
    ("1 a match that a method of Option or Result does", r"\bSome\((\w+)\) => \1,|\bOk\((\w+)\) => \2,|\bOk\((\w+)\) => Ok\(\3\),"),
    ("3 loops that count, or that ask for an iterator by hand", r"\bfor \w+ in \(?\d[\w.]*\.\.|\bwhile \w+ <|\.iter\(\) \{|\.iter_mut\(\) \{"),
    ("4 conversions by hand", r"\bfn (word|decode|row_of|ends_of|ends|to_row|from_row|read_[ui]\d+)\b"),
    ("4 printing by hand", r"\bformat!\("),
    ("6 arrays, and lengths beside them", r"^\s*(pub(\(crate\))? )?(knobs|registers|goals|len): usize,$|^\s*pub \w+: \[[^;\]]+; \d+\],|\bknobs: \d,"),
    ("7 switches on a kind", r"\bmatch \*?(self|instruction|code|says|operation|case\.\w+)\b"),
)


def functions(text):
    """name, parameters, result, clauses, body and line of each function with a body"""
    for m in FUNCTION.finditer(text):
        depth, k = 1, m.end()
        while depth and k < len(text):
            depth += {"{": 1, "}": -1}.get(text[k], 0)
            k += 1
        yield m.group(1), m.group(3), (m.group(4) or "").strip(), m.group(5), text[m.end() : k - 1], text.count("\n", 0, m.start()) + 1


def shape(body):
    """the words of the body, with names and numbers taken away"""
    return tuple(w if w in KEPT or not re.match(r"\w", w) else "x" for w in WORD.findall(body))


def lines(text, pattern):
    for k, line in enumerate(text.split("\n"), 1):
        if not line.lstrip().startswith("//") and re.search(pattern, line):
            yield k, line.strip()


def main(folder):
    files = {p: open(os.path.join(folder, p)).read() for p in sorted(glob.glob("crates/*/src/**/*.rt", root_dir=folder, recursive=True))}
    found = defaultdict(list)
    like = defaultdict(list)
    asks = defaultdict(list)
    given = defaultdict(list)
    for p, t in files.items():
        at = lambda k, what: f"{p}:{k} {what}"
        for title, pattern in SHAPES:
            found[title] += [at(k, line) for k, line in lines(t, pattern)]
        for name, params, result, clauses, body, k in functions(t):
            if "&mut" in params and re.match(r"(bool|u\d+|usize|i\d+)$", result):
                found["1 a flag or a number beside what a &mut leaves"].append(at(k, f"{name} -> {result}"))
            if len(WORD.findall(body)) > 9 and "#[test]" not in t[: t.find("fn " + name)][-12:]:
                like[shape(body)].append(at(k, name))
            for c in re.findall(r"requires (?:\w+ )?\{(.*)\}", clauses):
                for fact in re.split(r"×", c):
                    asks[re.sub(r"[() ]", "", re.sub(r"\b\d+\b", "n", re.sub(r"\.(now|old|new)\b", "", fact)))].append(at(k, name))
            names = [x.split(":")[0].strip() + ":" + x.split(":")[-1].strip() for x in params.split(",") if ":" in x and "self" not in x]
            for i in range(len(names)):
                for j in range(i + 1, len(names)):
                    given[(names[i], names[j])].append(at(k, name))
        for m in re.finditer(r"((?:^#\[derive\(([^)]*)\)\]\n)?)^(?:pub(?:\(crate\))? )?(?:struct|enum) (\w+)", t, re.M):
            if "/trials/" not in p and "PartialEq" not in (m.group(2) or ""):
                found["4 types without a derived equality"].append(at(t.count("\n", 0, m.start()) + 1, m.group(3)))
    for same in like.values():
        if len(same) > 1:
            found["2 functions of one shape"].append(" = ".join(same))
    shapes = sorted(like, key=len)
    for i, a in enumerate(shapes):
        for b in shapes[i + 1 :]:
            if len(b) > 1.3 * len(a):
                break
            if len(a) > 19 and SequenceMatcher(None, a, b, False).ratio() > 0.85:
                found["2 functions of nearly one shape"].append(f"{like[a][0]} ~ {like[b][0]}")
    for fact, where in asks.items():
        if len(set(where)) > 2:
            found["5 facts that three or more contracts ask for"].append(f"{fact}: " + ", ".join(where))
    for pair, where in given.items():
        if len(set(where)) > 4:
            found["5 parameters that travel together in five or more functions"].append(f"{pair[0]}, {pair[1]}: {len(where)} functions")
    answers = [p for p in glob.glob("crates/*/proofs/**/Answers.antt", root_dir=folder, recursive=True)]
    texts = [open(os.path.join(folder, p)).read() for p in answers]
    found["8 files of answers"] = answers
    found["8 answered goals"] = [m for t in texts for m in re.findall(r"^pub (\S+) : goal\.", t, re.M)]
    proofs = glob.glob("crates/*/proofs/**/*.antt", root_dir=folder, recursive=True)
    found["8 lines of proofs"] = [l for p in proofs for l in open(os.path.join(folder, p)).read().split("\n")[:-1]]
    return found


if __name__ == "__main__":
    rest = [a for a in sys.argv[1:] if a != "-c"]
    for name, places in sorted(main(rest[0] if rest else ".").items()):
        print(f"{len(places):5} {name}")
        if "-c" not in sys.argv and not name.startswith("8"):
            for place in places:
                print("        " + place)
