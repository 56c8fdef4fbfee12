#!/usr/bin/env python3
"""Lists the places of .rt and .antt files that share at least so many lines one after another, the longest first. Blanks at
the ends of lines, empty lines, comments and lines of `use` don't count. The locks (lock_*) are left out: they state
contracts once more.

usage: audit/clones.py [--lines N] [ROWS]

N is 12 and ROWS 20 where nothing else is said. It ends with status 0: a row is a place to look, no verdict.
"""

import collections
import os
import re
import sys

ROOT = os.path.dirname(os.path.dirname(os.path.abspath(__file__)))
PASSED = re.compile(r"\s*(?://|--|(?:pub )?use |[)\]}]*[;,]?\s*$)")


def lines_of(path):
    """The lines of a file that count, each with its number; those of a `use` that goes on are left out with it."""
    is_use = False
    with open(path, encoding="utf-8") as file:
        for number, line in enumerate(file, 1):
            starts = re.match(r"\s*(?:pub )?use ", line)
            is_use = bool(starts or is_use and line.startswith(" ")) and not line.rstrip().endswith((";", "}"))
            if not starts and not is_use and not PASSED.match(line):
                yield number, line.strip()


def files_of(root):
    for at, inner, names in os.walk(f"{root}/crates"):
        inner[:] = sorted(it for it in inner if it != "out" and not it.startswith("lock_"))
        yield from (f"{at}/{name}" for name in sorted(names) if name.endswith((".antt", ".rt")))


def runs(files, least):
    """The longest runs that two places share: how many lines, and both places as a file and two numbers of lines."""
    texts = {path: list(lines_of(path)) for path in files}
    seen = collections.defaultdict(list)
    for path, text in texts.items():
        for k in range(len(text) - least + 1):
            seen[tuple(line for _, line in text[k : k + least])].append((path, k))
    # Pairs of windows by how far they stand apart: neighbours of one pair of files make one run.
    apart = collections.defaultdict(list)
    for places in seen.values():
        for i, (a, k) in enumerate(places if len(places) <= 8 else []):
            for b, n in places[i + 1 :]:
                apart[a, b, n - k].append(k)
    for (a, b, shift), starts in apart.items():
        starts.sort()
        first = 0
        for i in range(1, len(starts) + 1):
            if i == len(starts) or starts[i] > starts[i - 1] + 1:
                begin, end = starts[first], starts[i - 1] + least - 1
                # (a run that goes on into its own copy is a table, and no clone)
                if a != b or end < begin + shift:
                    yield end - begin + 1, (a, texts[a][begin][0], texts[a][end][0]), (b, texts[b][begin + shift][0], texts[b][end + shift][0])
                first = i


def main(words):
    least = int(words[words.index("--lines") + 1]) if "--lines" in words else 12
    rest = [it for k, it in enumerate(words) if it.isdigit() and words[k - 1] != "--lines"]
    found = sorted(runs(files_of(ROOT), least), key=lambda it: (-it[0], it[1]))
    for count, *places in found[: int(rest[0]) if rest else 20]:
        print(f"{count} lines: " + "  ".join(f"{os.path.relpath(path, ROOT)}:{first}-{last}" for path, first, last in places))
    print(f"{len(found)} pairs of places share {least} lines or more")


if __name__ == "__main__":
    main(sys.argv[1:])
