#!/usr/bin/env python3
"""Writes the model of a table of tasks, as a spreadsheet saves it (CSV; commas, semicolons or tabs between the columns).

usage: table.py TASKS.csv [--limit NAME=N].. [--horizon N] > model.cpo

The first line names the columns, in any order; all but the first two may be left out or empty. Within a cell '|' stands
between several.

task    what it is called
size    how long it takes: N, or LOW..HIGH
from    it doesn't start before this moment
until   it ends by this moment
after   the tasks that end before it starts, each perhaps with a wait: 'mix | heat oven + 2'
on      who or what does it, one task at a time; of several one is chosen, each perhaps with a size of its own:
        'oven A: 40 | oven B: 55'
uses    what it takes of something that several tasks share, 1 where no number stands: 'crew 2 | crane'; with
        --limit crew=3 there are three of it at any time (1 where no limit is given)
worth   the task may be left out, and doing it is worth this much

All tasks are to be done as soon as may be: the end of the last is minimized. Where some task has a worth, the sum of what
is done less that end is maximized. All ends by the horizon: without one, the sum of all sizes and waits behind the
latest 'from'.
"""

import collections
import csv
import io
import re
import sys

import models

COLUMNS = ("task", "size", "from", "until", "after", "on", "uses", "worth")
Task = collections.namedtuple("Task", "text name size start end after parts uses worth")
# One way to do a task: who does it, and the interval of this way; the task itself where there is one way alone.
Part = collections.namedtuple("Part", "on name size")


def rows_of(text):
    """The rows of a table, each by its columns, and the names of these."""
    head = text.lstrip().split("\n")[0]
    sign = max(",;\t", key=head.count)
    rows = csv.DictReader(io.StringIO(text), delimiter=sign, skipinitialspace=True)
    rows.fieldnames = [it.strip().lower() for it in rows.fieldnames or []]
    return [{key: (value or "").strip() for key, value in row.items() if key} for row in rows], rows.fieldnames


def several(cell):
    """What stands in a cell, apart."""
    return [it.strip() for it in cell.split("|") if it.strip()]


def number(cell, what):
    """The whole number of a cell, or None where it is empty."""
    if not cell:
        return None
    if not re.fullmatch(r"-?\d+", cell):
        sys.exit(f"{what} is no whole number: {cell}")
    return int(cell)


def size_of(cell, what):
    """The least and the greatest size of a cell."""
    low, dots, high = cell.partition("..")
    low = number(low.strip(), what)
    high = number(high.strip(), what) if dots else low
    if low is None or high is None:
        sys.exit(f"{what} is missing")
    return low, high


def parts_of(row, name, taken):
    """The ways to do the task of a row, and its least and greatest size."""
    what = f"the size of {row['task']}"
    ways = [it.partition(":")[::2] for it in several(row["on"])]
    if not ways:
        return [], size_of(row["size"], what)
    parts = [Part(on.strip(), name, size_of(size.strip() or row["size"], what)) for on, size in ways]
    if len(parts) > 1:
        parts = [it._replace(name=models.free(models.name_of(f"{name}_on_{it.on}"), taken)) for it in parts]
    return parts, (min(it.size[0] for it in parts), max(it.size[1] for it in parts))


def tasks_of(text):
    """The tasks of a table, with their names in the model, and the names that are taken."""
    rows, columns = rows_of(text)
    for column in columns:
        if column not in COLUMNS:
            sys.exit(f"a column that isn't known: {column}; there are {', '.join(COLUMNS)}")
    rows = [{**dict.fromkeys(COLUMNS, ""), **row} for row in rows if any(row.values())]
    taken, tasks = set(), []
    names = [models.free(models.name_of(row["task"]), taken) for row in rows]
    for row, name in zip(rows, names):
        called = row["task"]
        if any(it.text == called for it in tasks) or not called:
            sys.exit(f"two tasks of one name, or one without: '{called}'")
        parts, size = parts_of(row, name, taken)
        after = [re.fullmatch(r"(.*?)(?:\s*\+\s*(\d+))?", it).groups("0") for it in several(row["after"])]
        uses = [re.fullmatch(r"(.*?)(?:\s+(\d+))?", it).groups("1") for it in several(row["uses"])]
        start, end, worth = (number(row[it], f"'{it}' of {called}") for it in ("from", "until", "worth"))
        tasks.append(Task(called, name, size, start, end, after, parts, uses, worth))
    return tasks, taken


def intervals(task, horizon):
    """The statements of a task by itself."""
    words = ["optional"] * (task.worth is not None)
    if task.start is not None:
        words.append(f"start={task.start}..{horizon}")
    end = horizon if task.end is None else task.end
    lines = [models.interval(task.name, task.size, end, *words)]
    if len(task.parts) > 1:
        lines += [models.interval(it.name, it.size, end, "optional") for it in task.parts]
        lines.append(f"alternative({task.name}, [{', '.join(it.name for it in task.parts)}]);")
    return lines


def precedences(tasks):
    """The statements of who stands before whom."""
    by_text = {it.text: it for it in tasks}
    for task in tasks:
        for text, wait in task.after:
            if text not in by_text:
                sys.exit(f"{task.text} stands after a task that isn't there: '{text}'")
            yield f"endBeforeStart({by_text[text].name}, {task.name}{f', {wait}' if wait != '0' else ''});"


def objective(tasks):
    """The statement of what is best."""
    worth = [f"{it.worth}*presenceOf({it.name})" for it in tasks if it.worth is not None]
    if not worth:
        return models.soonest(it.name for it in tasks)
    return f"maximize({' + '.join(worth)} - max([{', '.join(f'endOf({it.name})' for it in tasks)}]));"


def model(text, limits, horizon):
    """The lines of the model of a table."""
    tasks, taken = tasks_of(text)
    if not tasks:
        sys.exit("there is no task")
    waits = sum(int(wait) for it in tasks for _, wait in it.after)
    least = max(it.start or 0 for it in tasks) + sum(it.size[1] for it in tasks) + waits
    lines = [line for it in tasks for line in intervals(it, least if horizon is None else horizon)]
    lines += precedences(tasks)
    on, used = {}, {}
    for task in tasks:
        for part in task.parts:
            on.setdefault(part.on, []).append(part.name)
        for what, count in task.uses:
            used.setdefault(what, []).append(f"pulse({task.name}, {count})")
    for what, members in on.items():
        lines += models.sequence(models.free(models.name_of(what), taken), members)
    for what in set(limits) - set(used):
        sys.exit(f"a limit of what no task uses: {what}")
    for what, pulses in used.items():
        name = models.free(models.name_of(what), taken)
        lines += [f"{name} = {' + '.join(pulses)};", f"{name} <= {limits.get(what, 1)};"]
    return [*lines, objective(tasks)]


def main(words):
    files, limits, horizon = [], {}, None
    words = iter(words)
    for word in words:
        if word == "--limit":
            what, _, count = next(words, "").partition("=")
            limits[what.strip()] = number(count, f"the limit of {what}") or 0
        elif word == "--horizon":
            horizon = number(next(words, ""), "the horizon")
        else:
            files.append(word)
    print("\n".join(model(models.text_of(files, __doc__), limits, horizon)))


if __name__ == "__main__":
    main(sys.argv[1:])
