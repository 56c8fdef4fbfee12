#!/usr/bin/env python3
"""Solves models of bench/models while their logs are read through a named pipe, and prints for each how long the search
took before it wrote its first piece of the log (the preparation) and from then on, how many lines that is a second, and
how many a second are checked. Each time is the best of three runs; they are good for ratios within one run.

usage: rate.py [MODEL..]

With no words it takes jsp_ft10 and jsp_ft10_below. It wants a built program:
(cd crates/schedtool && rt run -- solve ../../examples/two_in_a_row.cpo two_in_a_row.log)
Another program is measured with TOOL=PATH.
"""

import os
import subprocess
import sys
import tempfile
import time

HERE = os.path.dirname(os.path.abspath(__file__))
TOOL = os.environ.get("TOOL", os.path.join(HERE, "../crates/schedtool/out/schedtool"))


def solve(model, pipe):
    """The seconds before the first piece and after it, and the log."""
    begin = time.perf_counter()
    ran = subprocess.Popen([TOOL, "solve", model, pipe], stdout=subprocess.DEVNULL)
    first, pieces = None, []
    with open(pipe, "rb", buffering=0) as log:
        while piece := log.read(1 << 16):
            first = first or time.perf_counter()
            pieces.append(piece)
    ran.wait()
    end = time.perf_counter()
    return (first or end) - begin, end - (first or begin), b"".join(pieces)


def measure(name, work):
    model = os.path.join(HERE, "models", name + ".cpo")
    if not os.path.exists(model):
        sys.exit(f"there is no model {name}")
    pipe, log = os.path.join(work, "pipe"), os.path.join(work, "log")
    before, after, checking = [], [], []
    os.mkfifo(pipe)
    for _ in range(3):
        preparing, searching, text = solve(model, pipe)
        before.append(preparing)
        after.append(searching)
    os.unlink(pipe)
    with open(log, "wb") as it:
        it.write(text)
    for _ in range(3):
        begin = time.perf_counter()
        subprocess.run([TOOL, "check", model, log], stdout=subprocess.DEVNULL)
        checking.append(time.perf_counter() - begin)
    lines = text.count(b"\n")
    rate, checked = lines / min(after), lines / min(checking)
    print(f"| {name} | {min(before):.2f} | {min(after):.2f} | {lines:,} | {rate:,.0f} | {checked:,.0f} |", flush=True)


def main(words):
    print("| Model | Preparation, s | Search, s | Lines | Lines a second | Checked a second |\n|---|---|---|---|---|---|")
    with tempfile.TemporaryDirectory() as work:
        for name in words or ["jsp_ft10", "jsp_ft10_below"]:
            measure(name, work)


if __name__ == "__main__":
    main(sys.argv[1:])
