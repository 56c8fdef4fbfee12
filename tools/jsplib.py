#!/usr/bin/env python3
"""Writes the model of a job shop in the format of JSPLIB, which most of the classic instances have.

usage: jsplib.py FILE > model.cpo

FILE has, behind lines that begin with '#', the numbers of jobs and machines, and then for each job a pair for each of its
operations, in their order: the machine, counted from 0, and how long it takes. Operation I_K is the K-th of job I.
"""

import sys

import models


def model(given):
    """The lines of the model of these numbers."""
    given = iter(given)
    jobs, machines = models.taken(given, 2, "the numbers of jobs and machines")
    shop = [models.taken(given, 2 * machines, f"job {i}") for i in range(jobs)]
    shop = [list(zip(row[::2], row[1::2])) for row in shop]
    horizon = sum(size for row in shop for _, size in row)
    lines, on = [], {}
    for i, row in enumerate(shop):
        for k, (machine, size) in enumerate(row):
            lines.append(models.interval(f"job{i}_{k}", (size, size), horizon))
            on.setdefault(machine, []).append(f"job{i}_{k}")
        lines += [f"endBeforeStart(job{i}_{k}, job{i}_{k + 1});" for k in range(len(row) - 1)]
    for machine, members in sorted(on.items()):
        lines += models.sequence(f"machine{machine}", members)
    return [*lines, models.soonest(f"job{i}_{len(row) - 1}" for i, row in enumerate(shop))]


if __name__ == "__main__":
    print("\n".join(model(models.numbers(models.text_of(sys.argv[1:], __doc__)))))
