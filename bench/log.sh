#!/usr/bin/env bash
# Prints, for the models of bench/models and for some that are made here, how many nodes and lines the search needs, how
# many lines that is a node, and how fast they are written and checked.
# It wants a built program: (cd crates/schedtool && rt run -- solve ../../examples/two_in_a_row.cpo two_in_a_row.log)
# Each time is the best of five runs. Another program is measured with TOOL=PATH.
set -eu
top=$(cd "$(dirname "$0")/.." && pwd)
tool=${TOOL:-"$top/crates/schedtool/out/schedtool"}
work=$(mktemp -d)
trap 'rm -rf "$work"' EXIT
cp "$top"/bench/models/*.cpo "$work"

# An end as early as may be, of one interval whose moments are all open.
echo 'a = intervalVar(size=3); minimize(endOf(a));' > "$work/default_range.cpo"

python3 - "$work" <<'PY'
import random, sys
work = sys.argv[1]

# So many intervals of fixed size that nothing binds: a search that looks at all intervals at each node is slow here.
with open(f"{work}/many_2000.cpo", "w") as text:
    text.writelines(f"task_{i} = intervalVar(size=5);\n" for i in range(2000))

# 8 orders of 10 steps each. A step begins when the one before it in its order is done, and one unit of time after the
# one before it in the order beside it. The search ends at its limit of 100,000 nodes.
orders, steps = 8, 10
lines = [f"step_{i}_{j} = intervalVar(size=3,start=0..400,end=0..400);" for i in range(orders) for j in range(steps)]
for i in range(orders):
    for j in range(steps - 1):
        lines.append(f"endBeforeStart(step_{i}_{j}, step_{i}_{j + 1});")
        lines.append(f"endBeforeStart(step_{i}_{j}, step_{(i + 1) % orders}_{j + 1}, 1);")
lines.append("minimize(max([" + ", ".join(f"endOf(step_{i}_{steps - 1})" for i in range(orders)) + "]));")
with open(f"{work}/orders_8_10.cpo", "w") as text:
    text.write("\n".join(lines) + "\n")

# A chain of 1,000 intervals, whose precedences stand in a random order. An engine that asks them in the order of the model
# learns each bound again and again, and writes hundreds of thousands of lines.
order = list(range(999))
random.Random(1).shuffle(order)
with open(f"{work}/chain_1000.cpo", "w") as text:
    text.writelines(f"task_{i} = intervalVar(size=1);\n" for i in range(1000))
    text.writelines(f"endBeforeStart(task_{i}, task_{i + 1});\n" for i in order)
    text.write("minimize(endOf(task_999));\n")

# A wide objective: the sum of 1,000 ends. A guess on one interval must not look at all of it.
with open(f"{work}/wide_1000.cpo", "w") as text:
    text.writelines(f"task_{i} = intervalVar(size=2,start=0..3,end=0..5);\n" for i in range(1000))
    text.write("minimize(" + " + ".join(f"endOf(task_{i})" for i in range(1000)) + ");\n")
PY

python3 - "$tool" "$work" <<'PY'
import glob, os, subprocess, sys, time
tool, work = sys.argv[1:]

def timed(word, model, log):
    best, said = None, []
    for _ in range(5):
        begin = time.perf_counter()
        ran = subprocess.run([tool, word, model, log], stdout=subprocess.PIPE, stderr=subprocess.PIPE)
        seconds = time.perf_counter() - begin
        best = seconds if best is None else min(best, seconds)
        said = (ran.stdout + ran.stderr).decode().strip().split("\n")
    return best, said

heads = ("model", "answer", "nodes", "lines", "lines/node", "solve s", "lines/s", "check s", "lines/s", "check/solve")
print("{:16} {:18} {:>8} {:>9} {:>10} {:>8} {:>11} {:>8} {:>11} {:>11}".format(*heads))
for model in sorted(glob.glob(f"{work}/*.cpo")):
    log = f"{work}/log"
    solve, said = timed("solve", model, log)
    answer, nodes = said[0], int(said[1].split()[1])
    with open(log, "rb") as text:
        lines = sum(piece.count(b"\n") for piece in iter(lambda: text.read(1 << 20), b""))
    check, judged = timed("check", model, log)
    if judged[0] != f"accepted {answer}":
        sys.exit(f"{model}: {judged[0]} after {answer}")
    name = os.path.basename(model)[:-4]
    print(f"{name:16} {answer:18} {nodes:8,} {lines:9,} {lines / nodes:10.1f} {solve:8.4f} {lines / solve:11,.0f} {check:8.4f} {lines / check:11,.0f} {check / solve:11.2f}")
PY
