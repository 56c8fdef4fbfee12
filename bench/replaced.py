#!/usr/bin/env python3
"""Reads logs, and prints for each how many bounds were learnt that a later line of the same node learns anew, and of
which kinds the two witnesses are: where a propagator could have gone as far at once.

usage: replaced.py LOG..
"""

import collections
import sys

BOUNDS = ("SL", "SG", "EL", "EG")


def kind_of(words):
    """The word of a line's witness, and of PAIR its case too."""
    word = next(it for it in words[3:] if it.isalpha())
    return word + " " + words[-1] if word == "PAIR" else word


def count(log):
    """The lines that learn something, and how many of them are replaced, by both kinds."""
    lines, replaced, last = 0, collections.Counter(), {}
    for line in log:
        words = line.split()
        if not words or words[0] in ("s", "f", "v"):
            last = {}
        elif words[0] == "d":
            lines += 1
            if words[1] in BOUNDS:
                cell, kind = (words[1], words[2]), kind_of(words)
                if cell in last:
                    replaced[last[cell], kind] += 1
                last[cell] = kind
    return lines, replaced


def main(paths):
    for path in paths:
        with open(path) as log:
            lines, replaced = count(log)
        most = "; ".join(f"{old} by {new} {n:,}" for (old, new), n in replaced.most_common(4))
        share = 100 * sum(replaced.values()) / max(lines, 1)
        print(f"{path}: {lines:,} lines, {share:.0f} % replaced in their node: {most}")


if __name__ == "__main__":
    main(sys.argv[1:])
