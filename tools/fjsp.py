#!/usr/bin/env python3
"""Writes the model of a flexible job shop in the format of Brandimarte's instances (.fjs).

usage: fjsp.py FILE > model.cpo

FILE has in its first line the numbers of jobs and machines, and perhaps how many machines an operation has on average, which
is passed over. Then a line for each job: the number of its operations, and for each the number of machines on which
it can be done and for each of these a pair: the machine, counted from 1, and how long it takes there. Operation I_K_on_M is
the K-th of job I (from 0) on machine M; the one that is chosen is present.
"""

import sys

import models


def operations(line, i):
    """For each operation of a job its machines and sizes."""
    given = iter(models.numbers(line))
    found = []
    for k in range(models.taken(given, 1, f"job {i}")[0]):
        row = models.taken(given, 2 * models.taken(given, 1, f"operation {k} of job {i}")[0], f"operation {k} of job {i}")
        found.append(list(zip(row[::2], row[1::2])))
    return found


def model(text):
    """The lines of the model of this text."""
    first, *rows = [line for line in text.split("\n") if line.strip() and not line.lstrip().startswith("#")] or [""]
    jobs, _ = models.taken(iter(models.numbers(first)), 2, "the numbers of jobs and machines")
    if len(rows) < jobs:
        sys.exit(f"the file ends within job {len(rows)}")
    shop = [operations(rows[i], i) for i in range(jobs)]
    horizon = sum(max(size for _, size in ways) for row in shop for ways in row)
    lines, on = [], {}
    for i, row in enumerate(shop):
        for k, ways in enumerate(row):
            whole = f"job{i}_{k}"
            sizes = [size for _, size in ways]
            lines.append(models.interval(whole, (min(sizes), max(sizes)), horizon))
            for machine, size in ways:
                lines.append(models.interval(f"{whole}_on_{machine}", (size, size), horizon, "optional"))
                on.setdefault(machine, []).append(f"{whole}_on_{machine}")
            lines.append(f"alternative({whole}, [{', '.join(f'{whole}_on_{machine}' for machine, _ in ways)}]);")
        lines += [f"endBeforeStart(job{i}_{k}, job{i}_{k + 1});" for k in range(len(row) - 1)]
    for machine, members in sorted(on.items()):
        lines += models.sequence(f"machine{machine}", members)
    return [*lines, models.soonest(f"job{i}_{len(row) - 1}" for i, row in enumerate(shop))]


if __name__ == "__main__":
    print("\n".join(model(models.text_of(sys.argv[1:], __doc__))))
