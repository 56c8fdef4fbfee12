#!/usr/bin/env python3
"""Makes a conflict as small as it gets: which constraints of a model can't all be met, and none of them can go.

usage: shrink.py MODEL [--nodes N]

MODEL is a model without a schedule. The constraints that its log uses (`core`) are tried one after the other: where what is
left without one of them still has no schedule, that one goes, and with it all that the new log doesn't use. Each time the
verdict is that of `solve`, and `check` has to accept its log. Printed are the constraints that are left, each by its number
and as `show` prints it: giving up any one of them resolves this clash. A model that isn't settled within N nodes
(100,000 where none is given) keeps its constraint, which is then told as `perhaps`. Intervals keep their ranges.

Nothing here is proved, and nothing has to be trusted: that the constraints printed can't all be met is what `check`
accepted, and that one of them can't go is a schedule that `verify` accepted. It ends with status 1 where MODEL has a
schedule or isn't settled.
It wants a built program: (cd crates/schedtool && rt run -- solve ../../examples/two_in_a_row.cpo two_in_a_row.log)
"""

import os
import re
import subprocess
import sys
import tempfile

TOOL = os.environ.get("TOOL") or os.path.join(os.path.dirname(os.path.abspath(__file__)), "../crates/schedtool/out/schedtool")
# what defines something, or is the objective: no constraint
DEFINED = re.compile(r"^(?:\w+ = |minimize\(|maximize\()")
DONE, INFEASIBLE, UNFINISHED = 0, 10, 20


def said(*words, wanted=(DONE,)):
    """What the program prints, and its status, which has to be one of these."""
    run = subprocess.run([TOOL, *words], capture_output=True, text=True, check=False)
    if run.returncode not in wanted:
        sys.exit(f"{' '.join(words)}: {run.stderr.strip() or run.stdout.splitlines()[0]}")
    return run.stdout, run.returncode


class Clash:
    """A canonical text, and which of its constraints are kept."""

    def __init__(self, text, room, nodes):
        self.lines = text.splitlines()
        self.places = [i for i, line in enumerate(self.lines) if not DEFINED.match(line)]
        self.room = room
        self.nodes = nodes

    def statement(self, c):
        return self.lines[self.places[c]]

    def settle(self, kept):
        """The constraints that a proof uses that these can't all be met; or None, and whether a schedule shows that they can."""
        model, log, plan = (os.path.join(self.room, name) for name in ("model.cpo", "model.log", "model.txt"))
        chosen = {self.places[c] for c in kept}
        hidden = set(self.places) - chosen
        with open(model, "w", encoding="utf-8") as file:
            file.writelines(
                line + "\n"
                for i, line in enumerate(self.lines)
                if i not in hidden and not line.startswith(("minimize(", "maximize("))
            )
        answer, status = said("solve", model, log, "--nodes", self.nodes, wanted=(DONE, INFEASIBLE, UNFINISHED))
        if status == UNFINISHED:
            return None, False
        if status == DONE:
            with open(plan, "w", encoding="utf-8") as file:
                file.write(answer)
            said("verify", model, plan)
            return None, True
        if not said("check", model, log)[0].startswith("accepted infeasible\n"):
            sys.exit("`check` doesn't find what `solve` found")
        used = [int(line.split()[1]) for line in said("core", model, log)[0].splitlines() if line.startswith("constraint ")]
        return [kept[c] for c in used], False


def main():
    words = sys.argv[1:]
    nodes = "100000"
    if "--nodes" in words:
        at = words.index("--nodes")
        nodes = words[at + 1]
        del words[at : at + 2]
    if len(words) != 1:
        sys.exit(__doc__)
    with tempfile.TemporaryDirectory() as room:
        clash = Clash(said("show", words[0])[0], room, nodes)
        core, met = clash.settle(list(range(len(clash.places))))
        if core is None:
            sys.exit("there is a schedule" if met else "not settled: give more nodes")
        print(f"{len(clash.places)} constraints, of which the first proof uses {len(core)}")
        needed, perhaps = set(), set()
        while left := [c for c in core if c not in needed]:
            fewer, met = clash.settle([d for d in core if d != left[0]])
            if fewer is None:
                needed.add(left[0])
                if not met:
                    perhaps.add(left[0])
            else:
                core = fewer
        for c in core:
            print(f"constraint {c}{' perhaps' if c in perhaps else ''}: {clash.statement(c)}")


if __name__ == "__main__":
    main()
