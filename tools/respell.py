#!/usr/bin/env python3
"""Brings the repository's own definitions and lemmas to the spelling of today's Rattle: words in snake case.

usage: tools/respell.py            at the top of the repository, right after port.py
       tools/respell.py --edits    the same names in must-fail/*.edit, README.md and docs/*.md

A name of lower camel case in a .antt file, or in a clause, an import or a comment of a .rt file, becomes snake case.
OTHER has the names whose plain snake case would be that of a parameter, a field or a lemma beside it.
Functions, types, strings and exported names of src/ are in snake or upper camel case already, and stay.
A second run changes nothing.
"""
import glob
import re
import sys

# a definition whose snake case is a field's or a parameter's name in clauses that cite it
OTHER = {
    "classMap": "class_map_of",
    "dualLengths": "dual_lengths_of",
    "gridType": "grid_type_of",
    "mapQ": "map_q_of",
    "mapTriplets": "map_triplets_of",
}
# crates in which such a name is a field's or a variable's alone
PLAIN = {"crates/job/": {"gridType"}, "crates/answers/": {"mapQ", "mapTriplets"}}
# a lemma that has the name of the definition that it is about, once that is in snake case
LEMMAS = {
    "crates/transform_rotations/proofs/": ["all_whole"],
    "crates/triplet_grid/proofs/Swapping.antt": ["numbers_of"],
    "crates/hermite3x3/proofs/steps/neg_floor/": ["quotient_fits"],
}
NAME = re.compile(r"(?<![\w'@\"\\])([a-z][\w'-]*)")
CAMEL = re.compile(r"[a-z][a-z0-9]*[A-Z]\w*")
TEXT = re.compile(r'b?"(?:[^"\\]|\\.)*"')


def snake(word, plain=()):
    if word in OTHER and word not in plain:
        return OTHER[word]
    word = re.sub(r"([a-z0-9])([A-Z])", r"\1_\2", word)
    return word.lower()


def respelled(name, plain=()):
    return "-".join(snake(p, plain) if CAMEL.fullmatch(p) else p for p in name.split("-"))


def turn(path, text):
    plain = set().union(*(names for start, names in PLAIN.items() if path.startswith(start)))

    def one(m):
        field = m.string[m.start() - 1 : m.start()] == "."
        return respelled(m[1], OTHER if field else plain)

    out, at = [], 0
    for m in TEXT.finditer(text):
        out += [NAME.sub(one, text[at : m.start()]), m[0]]
        at = m.end()
    return "".join(out) + NAME.sub(one, text[at:])


def files(*patterns):
    return sorted(f for p in patterns for f in glob.glob(p, recursive=True) if "/out/" not in f)


def rewrite(path, change):
    with open(path, encoding="utf-8", newline="") as f:
        old = f.read()
    new = change(old)
    if new != old:
        with open(path, "w", encoding="utf-8", newline="") as f:
            f.write(new)


def lemmas(path, text):
    for start, names in LEMMAS.items():
        for n in names if path.startswith(start) else []:
            if not re.search(rf"(?<![\w'-]){n}_lem(?![\w'-])", text):
                text = re.sub(rf"(?<![\w'-]){n}(?![\w'-])", f"{n}_lem", text)
    return text


def main(argv):
    antt = files("crates/*/specs/**/*.antt", "crates/*/proofs/**/*.antt")
    if argv == ["--edits"]:
        for f in files("crates/*/must-fail/*.edit"):
            rewrite(f, lambda t: turn(f, t))
        names = set()
        for f in antt:
            with open(f, encoding="utf-8") as it:
                names |= {m[1] for m in NAME.finditer(it.read())}
        for f in files("README.md", "docs/*.md", "docs/notes/*.md", "oracle/README.md"):
            rewrite(f, lambda t: NAME.sub(lambda m: respelled(m[1]) if respelled(m[1]) in names else m[1], t))
        return 0
    if argv:
        print(__doc__)
        return 2
    for f in antt:
        rewrite(f, lambda t: turn(f, lemmas(f, t)))
    for f in files("crates/*/src/**/*.rt"):
        rewrite(f, lambda t: turn(f, t))
    return 0


if __name__ == "__main__":
    sys.exit(main(sys.argv[1:]))
