#!/usr/bin/env python3
"""What the gate costs, crate by crate, and how long it takes by the clock.

usage: audit/gate.py [PROCESSORS [GIGABYTES]]
       audit/gate.py --measure NAME..

Without --measure it reads the table of docs/TESTING.md, which has for each crate the processor seconds of its proof, of its
tests and of its edits, and the memory that the kit sets aside for it, and plays the kit's order of work with them: a task
for each processor, where memory is free, those with most work waiting behind them first. It prints the sum and the time by
the clock, for 2 and 4 processors and 14 GB where nothing else is said, and which crates of crates.txt the table lacks.

With --measure it proves crates from nothing, as the gate does it, over the libraries that are built in out/rlib (`rt lib`),
and prints a row for each: processor seconds, peak of memory, and what the kit sets aside. Times on a busy machine are a
fifth above those of a quiet one.
"""
import os
import re
import resource
import subprocess
import sys
import tempfile

ROOT = os.path.dirname(os.path.dirname(os.path.abspath(__file__)))
KIT = os.path.dirname(subprocess.run(["rt", "doc"], capture_output=True, text=True, check=True).stdout.strip())
sys.path.insert(0, f"{KIT}/bin")
import rtlib  # noqa: E402  (the kit's own)

ROW = re.compile(r"^\| `(\w+)` \| (\d+) \| (\d*) \| (\d*) \| ([\d.]+) \|", re.M)


def crates():
    """The crates of crates.txt as the kit sees them."""
    known, found = {}, {}
    for line in open(f"{ROOT}/crates.txt", encoding="utf-8"):
        name, colon, _ = line.partition("#")[0].partition(":")
        if colon:
            folder = f"{ROOT}/crates/{name.split()[0]}"
            if folder not in known:
                known[folder] = rtlib.Crate(folder, ROOT, known)
            found[name.split()[0]] = known[folder]
    return found


def need(crate):
    """The gigabytes that the kit sets aside for a check of the crate (as its gate reckons them)."""
    antt = sum(rtlib.text_of(it).count("\n") for it in rtlib.files_of(crate.folder) if it.endswith(".antt"))
    named = {name for it in [crate, *crate.below()] for name in it.of_kit} - {*rtlib.SEALED, "io", "libc", "os"}
    files = [f"{KIT}/rlibs/{it}.rlib/toolchain/checked.a" for it in named]
    loaded = sum(os.path.getsize(it) for it in files if os.path.isfile(it))
    lines = sum(it.count(rb"\n") for it in crate.below())
    return 1 + crate.count(rb"\n") / 1e3 + antt / 5e3 + lines / 12.5e3 + min(5 * loaded / 1e9, 2.5)


def measure(names):
    """Proves each crate, and its tests, from nothing, and prints what that took."""
    all_of = crates()
    for name in names:
        crate = all_of[name]
        lacking = [it.name for it in crate.below() if not it.is_built()]
        if lacking:
            print(f"{name}: not built yet: {' '.join(lacking)}")
            return 1
        told = []
        for tests in [False] + [True] * crate.has_tests():
            words = crate.words(["--jobs", "1"], tests=tests, keeps=False)
            with tempfile.TemporaryDirectory(prefix="gate-") as room:
                if crate.is_program or tests:
                    words = ["check", *words, "--empty-contracts", "-o", f"{room}/checked"]
                else:
                    words = ["build", *words, "--statements", "--empty-contracts", "-o", f"{room}/{name}.rlib"]
                before = resource.getrusage(resource.RUSAGE_CHILDREN)
                ran = subprocess.run([rtlib.RATTLE, *words], cwd=crate.folder, stdin=subprocess.DEVNULL, stdout=subprocess.PIPE, stderr=subprocess.STDOUT, errors="replace")
                after = resource.getrusage(resource.RUSAGE_CHILDREN)
            seconds = after.ru_utime + after.ru_stime - before.ru_utime - before.ru_stime
            told.append(f"{seconds:.0f}" + ("" if ran.returncode == 0 else " NOT PROVED"))
        print(f"| `{name}` | {told[0]} | {told[1] if len(told) > 1 else ''} | | {need(crate):.1f} |  (peak of all so far {after.ru_maxrss / 1e6:.1f} GB)", flush=True)
    return 0


def clock(rows, all_of, processors, memory):
    """Plays the gate's lanes, and returns its minutes by the clock."""
    tasks = {}
    for name, (proof, tests, edits, needs) in sorted(rows.items(), key=lambda it: len(all_of[it[0]].below())):
        below = [(it.name, "proof") for it in all_of[name].below() if it.name in rows]
        lines = all_of[name].count(rb"\n")
        tasks[name, "proof"] = (below, lines, proof, needs)
        tasks[name, "tests"] = (below, lines * bool(tests), tests, needs)
        tasks[name, "edits"] = ([(name, "proof"), (name, "tests")], lines * bool(edits), edits, needs)
    behind = {it: 0 for it in tasks}
    for key in reversed([*tasks]):
        behind[key] += tasks[key][1]
        for it in tasks[key][0]:
            behind[it] = max(behind[it], behind[key])
    left, running, done, now = sorted(tasks, key=lambda it: -behind[it]), [], set(), 0.0
    while left or running:
        for key in [it for it in left if all(below in done for below in tasks[it][0])]:
            room = 0.85 * memory - sum(tasks[it][3] for _, it in running)
            if len(running) < processors and (not running or tasks[key][3] <= room):
                left.remove(key)
                running.append((now + tasks[key][2], key))
        running.sort()
        now, key = running.pop(0)
        done.add(key)
    return now / 60


def main(words):
    if words[:1] == ["--measure"]:
        return measure(words[1:])
    all_of = crates()
    text = open(f"{ROOT}/docs/TESTING.md", encoding="utf-8").read()
    rows = {it[1]: (int(it[2]), int(it[3] or 0), int(it[4] or 0), float(it[5])) for it in ROW.finditer(text)}
    lacking = [it for it in all_of if it not in rows] + [it for it in rows if it not in all_of]
    rows = {it: rows[it] for it in all_of if it in rows}
    parts = [sum(it[k] for it in rows.values()) / 60 for k in range(3)]
    print(f"{len(rows)} crates: proofs {parts[0]:.0f}, tests {parts[1]:.0f}, edits {parts[2]:.0f}, in all {sum(parts):.0f} minutes of processor time")
    for processors in [int(words[0])] if words else [2, 4]:
        memory = float(words[1]) if len(words) > 1 else 14
        print(f"{processors} processors, {memory:.0f} GB free: {clock(rows, all_of, processors, memory):.0f} minutes by the clock")
    if lacking:
        print(f"the table and crates.txt differ: {' '.join(lacking)}")
    return 1 if lacking else 0


if __name__ == "__main__":
    sys.exit(main(sys.argv[1:]))
