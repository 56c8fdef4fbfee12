#!/usr/bin/env python3
"""Solves models of 30 to 2,000 intervals, those of bench/large and some that it makes, and prints for each the seconds to
the first schedule in the log, the seconds in all, the nodes and lines of the log, milliseconds a node, microseconds a
line, and the megabytes that the search held while it wrote. Seconds are those of the processor, user time, and go from the start of the
program, so a node and a line pay for the preparation too; they are good for ratios within one run.

usage: large.py [--nodes N] [--seconds S] [WORD..]

With words only the models whose names have one of them. A search has N nodes (200 where it isn't given) and is ended
after S seconds (60). It wants a built program:
(cd crates/schedtool && rt run -- solve ../../examples/two_in_a_row.cpo two_in_a_row.log)
Another program is measured with TOOL=PATH. With BESIDE=PATH each model that it reads is solved by that program too, which
takes the same words and writes a log of the same form, and the ratio of the microseconds a line is printed; words of its
own for it are given with WORDS="WORD..".
"""

import os
import subprocess
import sys
import tempfile

HERE = os.path.dirname(os.path.abspath(__file__))
TOOL = os.environ.get("TOOL", os.path.join(HERE, "../crates/schedtool/out/schedtool"))
BESIDE = os.environ.get("BESIDE")
WORDS = os.environ.get("WORDS", "").split()


def pulses(n):
    """So many pulses on one function, of which three fit at a time."""
    tasks = "".join(f"a{k} = intervalVar(size={1 + k % 7}, end=0..{4 * n});\n" for k in range(n))
    return tasks + "f = " + " + ".join(f"pulse(a{k}, {1 + k % 2})" for k in range(n)) + ";\nf <= 4;\n"


def steps(n):
    """So many events that fill a store or empty it."""
    tasks = "".join(f"a{k} = intervalVar(size=1, end=0..{4 * n});\n" for k in range(n))
    parts = " ".join(f"{'-' if k % 2 else '+'} stepAtEnd(a{k}, {1 + k % 3})" for k in range(n))
    return tasks + f"f = step(0, 5) {parts};\nalwaysIn(f, 0, {4 * n}, 0, 12);\n"


def parts(word, n):
    """A span or an alternative over so many optional parts."""
    tasks = "".join(f"b{k} = intervalVar(optional, size={2 + k % 9}, end=0..1000);\n" for k in range(n))
    return "a = intervalVar(size=0..1000, end=0..1000);\n" + tasks + f"{word}(a, [" + ", ".join(f"b{k}" for k in range(n)) + "]);\n"


def members(n):
    """A sequence without overlap of so many, the last of which is to end soon."""
    tasks = "".join(f"a{k} = intervalVar(size={1 + k % 7}, end=0..{6 * n});\n" for k in range(n))
    ends = ", ".join(f"endOf(a{k})" for k in range(n))
    return tasks + "noOverlap([" + ", ".join(f"a{k}" for k in range(n)) + f"]);\nminimize(max([{ends}]));\n"


def states(n):
    """So many demands of three states on one function."""
    tasks = "".join(f"a{k} = intervalVar(size={1 + k % 5}, end=0..{6 * n});\n" for k in range(n))
    return tasks + "g = stateFunction();\n" + "".join(f"alwaysEqual(g, a{k}, {k % 3});\n" for k in range(n))


MADE = {
    "pulses_500": pulses(500),
    "pulses_2000": pulses(2000),
    "steps_200": steps(200),
    "span_500": parts("span", 500),
    "span_1999": parts("span", 1999),
    "alternative_1999": parts("alternative", 1999),
    "members_64": members(64),
    "members_65": members(65),
    "members_200": members(200),
    "members_500": members(500),
    "states_100": states(100),
    "states_400": states(400),
}
SHOPS = {"shop_20x20": (20, 20), "shop_50x20": (50, 20), "shop_100x20": (100, 20)}


def child(timeout):
    """The search itself, which is the one child of the process that ends it; 0 where it is gone."""
    try:
        with open(f"/proc/{timeout}/task/{timeout}/children") as children:
            return int(children.read().split()[0])
    except (OSError, IndexError):
        return 0


def held(pid):
    """The most megabytes that a running process has held, or 0 where it is gone."""
    try:
        with open(f"/proc/{pid}/status") as status:
            return next(int(line.split()[1]) / 1024 for line in status if line.startswith("VmHWM"))
    except (OSError, StopIteration):
        return 0.0


def user_time(pid):
    """The seconds of a running process, or 0 where it is gone."""
    try:
        with open(f"/proc/{pid}/stat") as stat:
            return int(stat.read().rsplit(")", 1)[1].split()[11]) / os.sysconf("SC_CLK_TCK")
    except (OSError, IndexError):
        return 0.0


class Run:
    """A search whose log is read through a named pipe."""

    def __init__(self, words, pipe, seconds):
        os.mkfifo(pipe)
        ran = subprocess.Popen(["timeout", str(seconds), *words], stdout=subprocess.PIPE, stderr=subprocess.DEVNULL)
        self.first, self.lines, self.nodes, self.memory = None, 0, 0, 0.0
        with open(pipe, "rb") as log:
            for line in log:
                if self.lines % 256 == 0:
                    self.memory = max(self.memory, held(child(ran.pid)))
                self.lines += 1
                self.nodes += line[:1] in (b"s", b"f", b"v")
                if self.first is None and line[:1] == b"v":
                    self.first = user_time(child(ran.pid))
        said = ran.stdout.read().split()
        _, _, used = os.wait4(ran.pid, 0)
        ran.returncode = 0
        os.unlink(pipe)
        self.answer = b" ".join(said[:2]).decode() if said else "cut"
        self.seconds = used.ru_utime

    def line_cost(self):
        return 1e6 * self.seconds / max(self.lines, 1)

    def cells(self):
        first = "-" if self.first is None else f"{self.first:.1f}"
        node = 1e3 * self.seconds / max(self.nodes, 1)
        return f"{first} | {self.seconds:.1f} | {self.nodes:,} | {self.lines:,} | {node:.1f} | {self.line_cost():.1f} | {self.memory:.0f} | {self.answer}"


def models(folder):
    """Names and paths of all models."""
    for name in sorted(os.listdir(os.path.join(HERE, "large"))):
        yield name.removesuffix(".cpo"), os.path.join(HERE, "large", name)
    for name, text in MADE.items():
        path = os.path.join(folder, name + ".cpo")
        with open(path, "w") as file:
            file.write(text)
        yield name, path
    for name, (jobs, machines) in SHOPS.items():
        path = os.path.join(folder, name + ".cpo")
        with open(path, "wb") as file:
            file.write(subprocess.run([TOOL, "gen", "1", str(jobs), str(machines)], stdout=subprocess.PIPE).stdout)
        yield name, path


def option(words, name, given):
    if name not in words:
        return given
    at = words.index(name)
    value = words[at + 1]
    del words[at : at + 2]
    return value


def main(words):
    nodes, seconds = option(words, "--nodes", "200"), option(words, "--seconds", "60")
    head = "| Model | First schedule, s | In all, s | Nodes | Lines | ms a node | us a line | MB | Answer |"
    print(head + (" Beside: us a line | Ratio |" if BESIDE else ""))
    print("|---" * (11 if BESIDE else 9) + "|")
    with tempfile.TemporaryDirectory() as folder:
        pipe = os.path.join(folder, "pipe")
        for name, path in models(folder):
            if words and not any(it in name for it in words):
                continue
            run = Run([TOOL, "solve", path, pipe, "--nodes", nodes], pipe, seconds)
            row = f"| {name} | {run.cells()} |"
            if BESIDE:
                other = Run([BESIDE, "solve", path, pipe, "--nodes", nodes, *WORDS], pipe, seconds)
                ratio = f"{run.line_cost() / other.line_cost():.1f}" if other.lines > 1 and other.line_cost() > 0 else "-"
                row += f" {other.line_cost():.1f} | {ratio} |"
            print(row, flush=True)


if __name__ == "__main__":
    main(sys.argv[1:])
