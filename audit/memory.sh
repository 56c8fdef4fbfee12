#!/usr/bin/env bash
# Refuses each allocation once in turn, in four runs of a built program: a search, one with states, a log that is judged, and a
# schedule that is verified. Each run must end in want of memory (status 70), or with the status and the output that it has where
# none is refused. Ends with status 1 where one doesn't. It wants a C compiler, for a library that is loaded before the C
# library and refuses the n-th call of malloc or realloc.
# usage: audit/memory.sh [PROGRAM]
set -u
here=$(cd "$(dirname "$0")" && pwd)
tool=$(realpath "${1:-$here/../crates/schedtool/out/schedtool}") || exit 2
room=$(mktemp -d)
trap 'rm -rf "$room"' EXIT
cd "$room" || exit 2
cat > refuse.c << 'C'
#define _GNU_SOURCE
#include <dlfcn.h>
#include <stdlib.h>
static long left = -1;
static int refused(void) {
  if (left < 0) { const char *n = getenv("REFUSED"); left = n ? atol(n) : 0; }
  return left > 0 && --left == 0;
}
void *malloc(size_t n) {
  static void *(*next)(size_t);
  if (!next) next = dlsym(RTLD_NEXT, "malloc");
  return refused() ? NULL : next(n);
}
void *realloc(void *p, size_t n) {
  static void *(*next)(void *, size_t);
  if (!next) next = dlsym(RTLD_NEXT, "realloc");
  return refused() ? NULL : next(p, n);
}
C
"${CC:-cc}" -shared -fPIC -O1 -o refuse.so refuse.c -ldl || exit 2
cat > chain << 'M'
a = intervalVar(size=5); b = intervalVar(size=3); endBeforeStart(a,b,2); minimize(endOf(b));
M
cat > states << 'M'
M = transitionMatrix([[0,2],[3,0]]); s = stateFunction(M); a = intervalVar(size=2); b = intervalVar(size=2);
alwaysEqual(s,a,0); alwaysEqual(s,b,1); minimize(max([endOf(a),endOf(b)]));
M
cat > crowded << 'M'
A = intervalVar(size=4,end=0..8); B = intervalVar(size=3,end=0..8); C = intervalVar(size=2,end=0..8); noOverlap([A,B,C]); minimize(endOf(C));
M
printf 'schedlog 1\nf OVERLOAD 0 3 0 1 2\nend\n' > log
printf 'a 0 5\nb 7 10\nend\n' > schedule

failed=0
# Runs the program with these words, each time with a later allocation refused, until none is left to refuse.
refuses() {
  local wanted status n=0 wants=0
  "$tool" "$@" > wanted 2> /dev/null
  wanted=$?
  while n=$((n + 1)); do
    REFUSED=$n LD_PRELOAD=$room/refuse.so "$tool" "$@" > told 2> /dev/null
    status=$?
    if [ "$status" = 70 ]; then
      wants=$((wants + 1))
    elif [ "$status" != "$wanted" ] || ! cmp -s told wanted; then
      failed=1
      echo "FAILED: $*: allocation $n refused: status $status, wanted 70 or $wanted"
    elif [ "$n" -gt 20000 ] || [ "$((n - wants))" -gt 200 ]; then
      break
    fi
  done
  echo "$*: $wants runs of $n end in want of memory, the others as they would"
}
refuses solve chain l
refuses solve states l
refuses check crowded log
refuses verify chain schedule
exit $failed
