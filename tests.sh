#!/usr/bin/env bash
# All tests without any proof, in about ten minutes: builds the programs unproved, runs each as the gate does, runs the
# tests of public calls, every example and the audits, and ends with one line 'N passed, M failed'. It says nothing of
# contracts: the gate, and the only verdict, is `rt ci`.
# usage: sh tests.sh
[ -n "${BASH_VERSION:-}" ] || exec bash "$0" "$@"
set -u
top=$(cd "$(dirname "$0")" && pwd)
cd "$top" || exit 2
room=$(mktemp -d)
trap 'rm -rf "$room"' EXIT
passed=0
failed=0

# Counts what one test came to: a name, and the command that is to succeed.
tells() {
  local name=$1
  shift
  if "$@" > "$room/said" 2>&1; then
    passed=$((passed + 1))
    echo "ok: $name"
  else
    failed=$((failed + 1))
    echo "FAILED: $name"
    tail -n 20 "$room/said"
  fi
}

# Runs a program on the files beside its code, and compares its status and its output with what stands there.
runs() {
  local name=$1 crate=crates/$1 data=$room/data words=() given=/dev/null status=0 ended=0
  rm -rf "$data"
  mkdir "$data"
  [ -d "$crate/data" ] && cp -r "$crate/data/." "$data"
  [ -f "$crate/args" ] && mapfile -t words < "$crate/args"
  [ -f "$crate/stdin" ] && given=$top/$crate/stdin
  [ -f "$crate/status" ] && status=$(cat "$crate/status")
  (cd "$data" && "$room/$name" "${words[@]}" < "$given" > "$room/$name.out") || ended=$?
  [ "$ended" = "$status" ] || { echo "it ended with status $ended, and not $status"; return 1; }
  diff "$crate/stdout" "$room/$name.out"
}

# The tests of public calls, which rt builds and runs one by one.
calls() {
  (cd crates/call_tests && rt try --test) > "$room/calls" 2>&1
}

echo "building ${programs:=schedtool gantt lastplan why trials}, and the tests of public calls, all unproved"
calls &
testing=$!
# shellcheck disable=SC2086
audit/unproved.sh $programs --to "$room" > "$room/built" 2>&1 || { cat "$room/built"; echo "0 passed, 1 failed"; exit 1; }
for name in $programs; do tells "$name, run as the gate does" runs "$name"; done
wait $testing
tells "the tests of public calls" sh -c "tail -n 3 $room/calls; exit $?"
tells "every example: answer, log, plan" examples/run.sh "$room/schedtool"
tells "models from other tools, and answers back" tools/test.sh "$room/schedtool"
tells "streams that are closed" audit/streams.sh "$room/schedtool"
tells "a second reading of the language" env TOOL="$room/schedtool" audit/agree.py 100
tells "the audits that read the texts alone" audit/all.sh
echo "$passed passed, $failed failed"
[ $failed = 0 ]
