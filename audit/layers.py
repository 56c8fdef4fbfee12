#!/usr/bin/env python3
"""Tests that no crate names one of a group that it must not stand on. Usage: audit/layers.py

crates.txt has the crates in groups, each behind a comment '# GROUP: what it is'. Above all, what
judges a log stands on nothing of the search. Nothing stands on a lock.
"""
import pathlib
import re
import sys

MAY = {
    "floor": {"floor"},
    "meaning": {"floor", "meaning"},
    "reading": {"floor", "meaning", "reading"},
    "judging": {"floor", "meaning", "judging"},
    "finding": {"floor", "meaning", "judging", "finding"},
    "program": {"floor", "meaning", "reading", "judging", "finding", "program"},
    "tests": {"floor", "meaning", "reading", "judging", "finding", "program"},
    "locks": {"floor", "meaning", "reading", "judging", "finding", "program"},
}

top = pathlib.Path(__file__).resolve().parent.parent
group, groups, needs = None, {}, {}
for line in (top / "crates.txt").read_text().splitlines():
    named = re.fullmatch(r"# (\w+): .*", line)
    if named and named[1] in MAY:
        group = named[1]
    code = line.split("#")[0].strip()
    if code:
        name, _, rest = code.partition(":")
        groups[name.split()[0]] = group
        needs[name.split()[0]] = rest.split()

wrong = [f"{name}: in no group" for name, group in groups.items() if group is None]
for name, group in groups.items():
    for other in needs[name]:
        if group and other in groups and groups[other] not in MAY[group]:
            wrong.append(f"{name} ({group}) names {other} ({groups[other]})")
print("\n".join(wrong) or f"{len(groups)} crates, each on groups that it may stand on")
sys.exit(bool(wrong))
