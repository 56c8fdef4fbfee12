#!/usr/bin/env python3
"""Solves the models of bench/planners and the harder ones of bench/models by `solve --restarts R`, and prints for each R the
verdict and the nodes: whether it pays to begin anew. A run that isn't done after so many seconds of the processor is stopped.

usage: restarts.py [--nodes N] [--seconds S] [--restarts R,R,..] [WORD..]

20,000 nodes, 60 seconds and 0,5,10 where nothing else is said. The preparation of a search has up to a fifth as many nodes,
which aren't counted. With words only the models whose names have one of them. It fails where two answers to one model can't
both be right. It wants a built program: (cd crates/schedtool && rt run -- solve ../../examples/two_in_a_row.cpo two_in_a_row.log)
Another program is measured with TOOL=PATH.
"""

import csv
import os
import resource
import subprocess
import sys

HERE = os.path.dirname(os.path.abspath(__file__))
TOOL = os.environ.get("TOOL", os.path.join(HERE, "../crates/schedtool/out/schedtool"))
HARD = """cycle_opt_d fjsp_4x4 fjsp_6x4 inf_creep_20 jsp_abz6_below jsp_ft06 jsp_ft06_below jsp_ft10 jsp_ft10_below jsp_ft10_j4
jsp_la01 jsp_la02 jsp_la03 jsp_la04 jsp_la04_below jsp_la05 path_1000 path_200 rcpsp_18_f squares_9""".split()


def answer_of(model, nodes, restarts, seconds):
    """The verdict and the count of nodes, or that the run was stopped."""
    words = [TOOL, "solve", model, "/dev/null", "--nodes", nodes, "--restarts", restarts]
    limit = lambda: resource.setrlimit(resource.RLIMIT_CPU, (seconds, seconds))
    ran = subprocess.run(words, stdout=subprocess.PIPE, stderr=subprocess.PIPE, text=True, preexec_fn=limit)
    if ran.returncode < 0:
        return "stopped", ""
    said = ran.stdout.splitlines()
    return (said[0], f"{int(said[1].split()[1]):,}") if said else (ran.stderr.strip(), "")


def can_be(verdicts):
    """Whether the closed answers among these are one."""
    closed = {it for it in verdicts if not it.startswith(("unfinished", "stopped"))}
    return len(closed) < 2


def rows_of(folder, file, wanted):
    with open(os.path.join(HERE, file)) as table:
        names = [row["model"] for row in csv.DictReader(table, delimiter="\t")]
    return [(it, os.path.join(HERE, folder, it + ".cpo")) for it in names if not wanted or any(word in it for word in wanted)]


def value_of(words, name, other):
    if name not in words:
        return other
    at = words.index(name)
    return words[at + 1]


def main(words):
    nodes, seconds = value_of(words, "--nodes", "20000"), int(value_of(words, "--seconds", "60"))
    numbers = value_of(words, "--restarts", "0,5,10").split(",")
    wanted, taken = [], False
    for it in words:
        if not taken and not it.startswith("--"):
            wanted.append(it)
        taken = it.startswith("--")
    rows = rows_of("planners", "planners/best.tsv", wanted)
    rows += [it for it in rows_of("models", "answers.tsv", wanted) if it[0] in HARD]
    print("| Model | " + " | ".join(f"R = {it}" for it in numbers) + " |\n|" + "---|" * (len(numbers) + 1))
    wrong = []
    for name, model in rows:
        answers = [answer_of(model, nodes, it, seconds) for it in numbers]
        print(f"| `{name}` | " + " | ".join(f"{verdict} {count}".strip() for verdict, count in answers) + " |", flush=True)
        if not can_be([verdict for verdict, _ in answers]):
            wrong.append(name)
    if wrong:
        print("wrong: " + " ".join(wrong))
    return 1 if wrong else 0


if __name__ == "__main__":
    sys.exit(main(sys.argv[1:]))
