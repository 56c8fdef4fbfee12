#!/usr/bin/env python3
"""Lists what is defined or proved in .antt files and named nowhere else: lemmas, laws and definitions that could go, a line
for each, with its place, those of specs/ before those of proofs/, and their count. A name that is brought in by `use` alone
counts as named nowhere; what a lemma says of itself in its own body doesn't count either. Names are compared as words, so
a name that another crate uses for something else isn't listed. What answers goals (Answers.antt, Invariants.antt and
Proof.antt in proofs/F/) is named by the goals.

usage: audit/unused.py [CRATE..]

It ends with status 0: what is listed does no harm, and what a law is kept for (a reader, a later proof) no script can tell.
"""

import collections
import os
import re
import sys

ROOT = os.path.dirname(os.path.dirname(os.path.abspath(__file__)))
ITEM = re.compile(r"^(?:(?:pub|abbrev|unfoldable|level) )*(?:(?:record|data) (?:pub )?([A-Za-z][\w'-]*)|([A-Za-z][\w'-]*) :|(module) )", re.M)
COMMENT = re.compile(r"(?:^|(?<=\s))--(?=\s|-).*", re.M)
WORD = re.compile(r"[A-Za-z_][\w'-]*")
USE = re.compile(r"^(?:pub )?use .*(?:\n[ \t]+\S.*)*", re.M)
# What is named by goals, and what the toolchain looks for by its name.
GOALS = ("Answers.antt", "Invariants.antt", "Proof.antt")


def files_of(root):
    """Each file of code, definitions or proofs."""
    for at, inner, names in os.walk(f"{root}/crates"):
        inner[:] = sorted(it for it in inner if it != "out")
        for name in sorted(names):
            if name.endswith((".antt", ".rt")):
                yield os.path.relpath(f"{at}/{name}", root)


def items_of(text):
    """The items of a .antt file: of each its name and all its text, the comment in front left out."""
    text = COMMENT.sub("", text)
    starts = [(it.start(), it[1] or it[2] or it[3]) for it in ITEM.finditer(text)]
    for (begin, name), (end, _) in zip(starts, [*starts[1:], (len(text), "")]):
        if name != "module":
            yield name, text[begin:end]


def main(words):
    count, own, places = collections.Counter(), collections.Counter(), collections.defaultdict(list)
    for path in files_of(ROOT):
        with open(f"{ROOT}/{path}", encoding="utf-8") as file:
            text = file.read()
        if path.endswith(".rt"):
            count.update(WORD.findall(re.sub(r"//.*", "", text)))
            continue
        text = USE.sub("", text)
        count.update(WORD.findall(COMMENT.sub("", text)))
        for name, item in items_of(text):
            own[name] += sum(it == name for it in WORD.findall(item))
            if os.path.basename(path) not in GOALS and "/formers/" not in path:
                places[name].append(path)
    unused = [(path, name) for name, at in places.items() if count[name] <= own[name] for path in at]
    unused = [it for it in unused if not words or it[0].split("/")[1] in words]
    for path, name in sorted(unused, key=lambda it: (it[0].split("/")[2] != "specs", it)):
        print(f"{path}: {name}")
    print(f"{len(unused)} lemmas and definitions are named nowhere else")


if __name__ == "__main__":
    main(sys.argv[1:])
