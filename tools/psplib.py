#!/usr/bin/env python3
"""Writes the model of a project in the format of PSPLIB with one mode a job (.sm).

usage: psplib.py FILE > model.cpo

FILE has the sections PRECEDENCE RELATIONS, REQUESTS/DURATIONS and RESOURCEAVAILABILITIES. Its first and last job take no
time and stand for the begin and the end of all: they are left out. Interval jobJ is job J, counted from 1; function rK is
what is used of the K-th renewable resource.
"""

import sys

import models


def section(text, head):
    """The rows of numbers of a section: those behind its head, up to the line of asterisks."""
    _, found, rest = text.partition(head)
    if not found:
        sys.exit(f"the file has no section {head.rstrip(':')}")
    rows = rest.split("***")[0].split("\n")[1:]
    return [[int(it) for it in row.split()] for row in rows if row.split() and all(it.isdigit() for it in row.split())]


def model(text):
    """The lines of the model of this text."""
    behind = {row[0]: row[3:] for row in section(text, "PRECEDENCE RELATIONS:")}
    rows = section(text, "REQUESTS/DURATIONS:")
    if any(len(row) != len(rows[0]) or row[1] != 1 for row in rows) or len(rows) != len(behind):
        sys.exit("a job has several modes: only files of one mode a job (.sm) are read")
    limits = section(text, "RESOURCEAVAILABILITIES:")[0]
    jobs = {row[0]: (row[2], row[3:]) for row in rows[1:-1]}
    horizon = sum(size for size, _ in jobs.values())
    lines = [models.interval(f"job{j}", (size, size), horizon) for j, (size, _) in jobs.items()]
    lines += [f"endBeforeStart(job{j}, job{k});" for j in jobs for k in behind[j] if k in jobs]
    for k, limit in enumerate(limits):
        uses = [f"pulse(job{j}, {needs[k]})" for j, (_, needs) in jobs.items() if k < len(needs) and needs[k]]
        if uses:
            lines += [f"r{k + 1} = {' + '.join(uses)};", f"r{k + 1} <= {limit};"]
    return [*lines, models.soonest(f"job{j}" for j in jobs)]


if __name__ == "__main__":
    print("\n".join(model(models.text_of(sys.argv[1:], __doc__))))
