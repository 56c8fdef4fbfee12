#!/usr/bin/env bash
# Prints the time and the peak memory of reading large model texts, beside those of the empty one.
# It wants a built program: (cd crates/schedtool && rt run -- solve ../../examples/two_in_a_row.cpo two_in_a_row.log)
set -eu
top=$(cd "$(dirname "$0")/.." && pwd)
tool="$top/crates/schedtool/out/schedtool"
work=$(mktemp -d)
trap 'rm -rf "$work"' EXIT

limit=16777216
: > "$work/empty"
head -c $limit /dev/zero | tr '\0' ' ' > "$work/spaces"
head -c $limit /dev/zero | tr '\0' '(' > "$work/brackets"
head -c $limit /dev/zero | tr '\0' ';' > "$work/semicolons"
python3 - "$work" $limit <<'PY'
import sys
work, limit = sys.argv[1], int(sys.argv[2])
# 100,000 statements: 2,000 intervals, 20,000 precedences, and empty ones with blanks up to the limit; the last
# statement is unknown, so that the text is read whole and then refused.
lines = [f"interval_{i:04} = intervalVar(size=1..9,start=0..1000,end=0..2000);" for i in range(2000)]
lines += [f"endBeforeStart(interval_{i % 1999:04}, interval_{i % 1999 + 1:04}, -3);" for i in range(20000)]
used = sum(len(l) + 1 for l in lines)
pad = (limit - used - 100) // 78000 - 2
lines += [" " * pad + ";"] * 77999 + ["unknown();"]
open(f"{work}/statements", "w").write("\n".join(lines) + "\n")
# names as long as they may be
names = [f"n{i:063}" for i in range(2000)]
text = "".join(f"{n}=intervalVar();" for n in names)
uses = []
size = len(text)
i = 0
while size < limit - 200 and len(uses) < 20000:
    use = f"endBeforeStart({names[i % 2000]},{names[(i + 1) % 2000]});"
    uses.append(use)
    size += len(use)
    i += 1
open(f"{work}/names", "w").write(text + "".join(uses) + "unknown();")
# one long sum, one long list of names, and statements of 200 brackets each; doubled functions
open(f"{work}/sum", "w").write("a=intervalVar();startOf(a)" + "+1" * ((limit - 40) // 2) + ">=0;")
open(f"{work}/list", "w").write("a=intervalVar();span(a,[a" + ",a" * ((limit - 40) // 2) + "]);")
deep = "(" * 200 + "1" + ")" * 200 + ";"
open(f"{work}/nesting", "w").write(deep * (limit // len(deep)))
doubled = ["f0=step(0,1);"] + [f"f{i + 1}=f{i}+f{i};" for i in range(60)]
open(f"{work}/doubling", "w").write("".join(doubled))
# one number as long as the text allows
open(f"{work}/digits", "w").write("a=intervalVar(size=" + "0" * (limit - 30) + "5);;x;")
PY

printf '%-12s %12s %10s %14s  %s\n' text bytes seconds 'peak KiB' 'first line printed'
for name in empty spaces brackets semicolons statements names sum list nesting doubling digits; do
  set +e
  python3 - "$tool" "$work/$name" "$name" <<'PY'
import os, resource, subprocess, sys, time
tool, path, name = sys.argv[1:]
begin = time.time()
ran = subprocess.run([tool, "solve", path, path + ".log"], stdout=subprocess.PIPE, stderr=subprocess.PIPE)
seconds = time.time() - begin
peak = resource.getrusage(resource.RUSAGE_CHILDREN).ru_maxrss
said = (ran.stdout + ran.stderr).decode().split("\n")[0]
print(f"{name:12} {os.path.getsize(path):12} {seconds:10.2f} {peak:14}  {said}")
PY
  set -e
done
