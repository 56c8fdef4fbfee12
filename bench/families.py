#!/usr/bin/env python3
"""Solves and checks the models of bench/models, and prints a line for each family: how many of its models are closed of
how many, the nodes and lines of the closed ones, lines a node, seconds, and the time of checking over that of solving.
Then it does the same with those of bench/planners, which are models as planners write them, and prints for each of them
its verdict, the best value that is known, how far above it the value is (below it, where the most is wanted), the nodes,
the node of the last better schedule, and seconds.

usage: families.py [--models] [--nodes N] [--families | --planners] [WORD..]

With --models there is a line for each model too. With words only the models whose names have one of them. With --families
or --planners these alone. A model is
closed where the answer is the one that bench/answers.tsv gives, and the log is accepted with it; an answer that differs
from it ends the script with status 1. Each time is the better of two runs; they are good for ratios within one run.
It wants a built program: (cd crates/schedtool && rt run -- solve ../../examples/two_in_a_row.cpo two_in_a_row.log)
Another program is measured with TOOL=PATH.
"""

import collections
import csv
import os
import subprocess
import sys
import tempfile
import time

HERE = os.path.dirname(os.path.abspath(__file__))
TOOL = os.environ.get("TOOL", os.path.join(HERE, "../crates/schedtool/out/schedtool"))
Run = collections.namedtuple("Run", "closed wrong nodes lines solving checking said last")


def timed(*words):
    best, said = None, None
    for _ in range(2):
        begin = time.perf_counter()
        ran = subprocess.run([TOOL, *words], stdout=subprocess.PIPE, stderr=subprocess.PIPE, text=True)
        seconds = time.perf_counter() - begin
        said = ran.stdout.splitlines() or [ran.stderr.strip()]
        best = seconds if best is None else min(best, seconds)
        if seconds > 5:
            break
    return best, said


def is_answer(said, answer):
    """Whether the first line is the answer: the optimum alone, or a word."""
    return said == answer or said == f"optimal {answer}"


def read_log(log):
    """How many lines a log has, and how many nodes it had opened at its last schedule. Each line that fails, splits or
    is a schedule ends a node."""
    lines = nodes = last = 0
    with open(log, "rb") as it:
        for line in it:
            lines += 1
            nodes += line[:2] in (b"f ", b"s ", b"v ")
            last = nodes if line[:2] == b"v " else last
    return lines, last


def measure(folder, model, answer, limit, work):
    path = os.path.join(HERE, folder, model + ".cpo")
    log = os.path.join(work, "log")
    solving, said = timed("solve", path, log, *limit)
    checking, judged = timed("check", path, log)
    is_open = said[0].startswith("unfinished")
    accepted = judged[0] == "accepted " + said[0]
    closed = accepted and is_answer(said[0], answer)
    nodes = int(said[1].split()[1]) if len(said) > 1 else 0
    lines, last = read_log(log)
    return Run(closed, not accepted or not closed and not is_open, nodes, lines, solving, checking, said[0], last)


def show(name, runs, total):
    closed = [it for it in runs if it.closed]
    nodes, lines = sum(it.nodes for it in closed), sum(it.lines for it in closed)
    solving, checking = sum(it.solving for it in closed), sum(it.checking for it in closed)
    each = f"{lines / nodes:.1f}" if nodes else "-"
    over = f"{checking / solving:.2f}" if solving else "-"
    print(f"| {name} | {len(closed)} of {total} | {nodes:,} | {lines:,} | {each} | {solving:.2f} | {over} |", flush=True)


def beyond(said, best):
    """How far a value is from the best that is known, in hundredths of it."""
    value = said.split()[-1]
    if value == "none":
        return "-"
    return f"{100 * abs(int(value) - best) / max(1, abs(best)):.1f} %"


def show_plan(name, run, best):
    print(f"| {name} | {run.said} | {best:,} | {beyond(run.said, best)} | {run.nodes:,} | {run.last:,} | {run.solving:.2f} |", flush=True)


def is_wanted(name, wanted):
    return not wanted or any(it in name for it in wanted)


def rows_of(file):
    with open(os.path.join(HERE, file)) as table:
        return list(csv.DictReader(table, delimiter="\t"))


def by_family(wanted, alone, limit, work):
    """Prints the families; the models with a wrong answer."""
    families, wrong = collections.defaultdict(list), []
    print("| Family | Closed | Nodes | Lines | Lines a node | Seconds | Check over solve |\n|---|---|---|---|---|---|---|")
    for row in rows_of("answers.tsv"):
        if not is_wanted(row["model"], wanted):
            continue
        run = measure("models", row["model"], row["answer"], limit, work)
        families[row["family"].split("-")[0]].append(run)
        if run.wrong:
            wrong.append(row["model"])
        if alone:
            show(row["model"], [run], 1)
    for name, runs in sorted(families.items()):
        show(name, runs, len(runs))
    show("all", [it for runs in families.values() for it in runs], sum(map(len, families.values())))
    return wrong


def by_planner(wanted, limit, work):
    """Prints the models of planners; those with a wrong answer. Where the best known value isn't proved to be the best, a
    proved one may differ."""
    wrong, runs = [], []
    print("| Model | Verdict | Best known | From it | Nodes | Last better at | Seconds |\n|---|---|---|---|---|---|---|")
    for row in rows_of("planners/best.tsv"):
        if not is_wanted(row["model"], wanted):
            continue
        run = measure("planners", row["model"], row["best"], limit, work)
        runs.append(run)
        if run.wrong and row["proved"] == "yes":
            wrong.append(row["model"])
        show_plan(row["model"], run, int(row["best"]))
    closed = [it for it in runs if it.closed]
    print(f"{len(closed)} of {len(runs)} closed, {sum(it.nodes for it in closed):,} nodes; {sum(it.solving for it in runs):.2f} seconds in all")
    return wrong


def main(words):
    limit = []
    if "--nodes" in words:
        at = words.index("--nodes")
        limit = words[at : at + 2]
        words = words[:at] + words[at + 2 :]
    wanted = [it for it in words if not it.startswith("--")]
    wrong = []
    with tempfile.TemporaryDirectory() as work:
        if "--planners" not in words:
            wrong += by_family(wanted, "--models" in words, limit, work)
        if "--families" not in words:
            wrong += by_planner(wanted, limit, work)
    if wrong:
        print("wrong: " + " ".join(wrong))
    return 1 if wrong else 0


if __name__ == "__main__":
    sys.exit(main(sys.argv[1:]))
