#!/usr/bin/env python3
"""Checks a log that is written while it is read, and prints its size, the lines and megabytes a second, and the most
memory that the checker held. The log has no wrong line, and the last one is missing, so that it is refused there.

usage: stream.py [MEGABYTES]

The model's bounds creep: each of two intervals is to come before the other, so every line raises a start by one. The log
goes through a named pipe and is kept nowhere; 1,000 megabytes are written where no size is given. It wants a built
program: (cd crates/schedtool && rt run -- solve ../../examples/two_in_a_row.cpo two_in_a_row.log)
Another program is measured with TOOL=PATH.
"""

import os
import resource
import subprocess
import sys
import tempfile
import threading
import time

HERE = os.path.dirname(os.path.abspath(__file__))
TOOL = os.environ.get("TOOL", os.path.join(HERE, "../crates/schedtool/out/schedtool"))
MODEL = """a = intervalVar(size=1, end=0..1000000000);
b = intervalVar(size=1, end=0..1000000000);
endOf(a) <= startOf(b);
endOf(b) <= startOf(a);
"""
STEPS = 20_000


def write(pipe, size, told):
    lines, sent, at = 1, 11, 0
    try:
        with open(pipe, "wb") as log:
            log.write(b"schedlog 1\n")
            while sent < size:
                steps = range(at, at + 2 * STEPS, 2)
                piece = "".join(f"d SL 1 {k} EXPR 0\nd SL 0 {k + 1} EXPR 1\n" for k in steps).encode()
                log.write(piece)
                lines, sent, at = lines + 2 * STEPS, sent + len(piece), at + 2 * STEPS
    except BrokenPipeError:
        pass
    told.extend((lines, sent))


def main():
    size = int(sys.argv[1] if len(sys.argv) > 1 else 1000) * 1_000_000
    with tempfile.TemporaryDirectory() as folder:
        model, pipe = os.path.join(folder, "creep.cpo"), os.path.join(folder, "log")
        with open(model, "w") as file:
            file.write(MODEL)
        os.mkfifo(pipe)
        told = []
        writer = threading.Thread(target=write, args=(pipe, size, told), daemon=True)
        begin = time.perf_counter()
        writer.start()
        ran = subprocess.run([TOOL, "check", model, pipe], capture_output=True, text=True)
        seconds = time.perf_counter() - begin
        if not told:
            writer.join(5)
    lines, sent = told or (0, 0)
    said = (ran.stdout or ran.stderr).strip()
    most = resource.getrusage(resource.RUSAGE_CHILDREN).ru_maxrss / 1024
    print(f"{sent / 1e6:,.0f} MB, {lines:,} lines: {said}")
    print(f"{lines / seconds / 1e6:.2f} million lines and {sent / seconds / 1e6:.0f} MB a second, {most:.1f} MiB of memory at most")
    sys.exit(0 if said == f"log refused line {lines + 1}" else 1)


main()
