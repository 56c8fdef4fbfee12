#!/usr/bin/env python3
"""Reads what `solve` printed, or any schedule that `verify` accepts, and writes it as CSV or JSON.

usage: answer.py ANSWER [--json | --table TASKS.csv]

As CSV there is a line for each interval: its name, start and end, both empty where it is absent. With --json there is one
object: the verdict, the value and the count of nodes, where they stand there, each interval (null where it is absent), the
order of each sequence and the segments of each state function. With --table it is the table of which table.py made the
model, with three columns more: start, end, and who does it (both moments empty where the task was left out).
"""

import csv
import json
import sys

import models
import table


def answer_of(text):
    """What an answer says, as one object of JSON; ends the script where it isn't whole."""
    lines = text.split("\n")
    if lines[-2:] != ["end", ""]:
        sys.exit("this is no whole answer: its last line isn't 'end'")
    found = {"verdict": None, "value": None, "nodes": None, "intervals": {}, "orders": {}, "states": {}}
    for words in (line.split(" ") for line in lines[:-2]):
        # An interval, too, may be called 'nodes' or 'order': its line has two moments.
        first, rest = words[0], words[1:]
        if not found["intervals"] and first in ("optimal", "feasible", "infeasible", "unfinished") and len(rest) < 2 and rest != ["absent"]:
            found["verdict"], found["value"] = first, int(rest[0]) if rest and rest != ["none"] else None
        elif not found["intervals"] and first == "nodes" and len(rest) == 1 and rest != ["absent"]:
            found["nodes"] = int(rest[0])
        elif rest == ["absent"]:
            found["intervals"][first] = None
        elif first == "order" and not (len(rest) == 2 and rest[0].lstrip("-").isdigit()):
            found["orders"][rest[0]] = rest[1:]
        elif first == "state" and not (len(rest) == 2 and rest[0].lstrip("-").isdigit()):
            moments = [int(it) for it in rest[1:]]
            found["states"][rest[0]] = [dict(zip(("from", "until", "state"), it)) for it in zip(*[iter(moments)] * 3)]
        else:
            found["intervals"][first] = {"start": int(rest[0]), "end": int(rest[1])}
    return found


def slots(found):
    """For each interval its start and end, or two empty cells."""
    return {name: (it["start"], it["end"]) if it else ("", "") for name, it in found["intervals"].items()}


def write(rows):
    csv.writer(sys.stdout, lineterminator="\n").writerows(rows)


def with_table(text, found):
    """The rows of a table of tasks with start, end and who does it."""
    rows, columns = table.rows_of(text)
    tasks, _ = table.tasks_of(text)
    places = slots(found)
    yield [*columns, "start", "end", "by"]
    for row, task in zip((it for it in rows if any(it.values())), tasks):
        if task.name not in places:
            sys.exit(f"the answer is of another model: it has no {task.name}")
        chosen = [part.on for part in task.parts if places[part.name] != ("", "")]
        yield [*(row.get(it, "") for it in columns), *places[task.name], *(chosen or [""])]


def main(words):
    rest = [it for it in words if it not in ("--json", "--table")]
    text = models.text_of(rest[:1], __doc__)
    found = answer_of(text)
    if "--json" in words:
        print(json.dumps(found, indent=1))
    elif "--table" in words:
        write(with_table(models.text_of(rest[1:], __doc__), found))
    else:
        write([("interval", "start", "end"), *((name, *it) for name, it in slots(found).items())])


if __name__ == "__main__":
    main(sys.argv[1:])
