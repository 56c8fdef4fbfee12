#!/usr/bin/env bash
# A first look, in some three minutes and without any proof: builds both programs unproved, solves a model, checks the log of
# its search, and draws the schedule as a page for a browser. What counts is what `rt ci` proves and builds.
# usage: sh examples/first.sh [MODEL [FOLDER]]      (the paint shop, and a new folder of the system's)
# FOLDER gets the programs `schedtool` and `gantt`, the log, the answer and the page; programs that it has are not built anew.
[ -n "${BASH_VERSION:-}" ] || exec bash "$0" "$@"
set -eu
top=$(cd "$(dirname "$0")/.." && pwd)
model=$(realpath "${1:-$top/examples/paint_shop.cpo}")
room=${2:-$(mktemp -d)}
mkdir -p "$room"
cd "$room"
room=$PWD

build() {
  [ -x "$1" ] || { "$top/audit/unproved.sh" "$1" --to "$room/$1.build" > "$1.built" 2>&1 && mv "$1.build/$1" .; } || { cat "$1.built" >&2; return 1; }
  rm -rf "$1.build" "$1.built"
}

echo "building schedtool and gantt, unproved, in $room"
build schedtool & first=$!
build gantt & second=$!
wait $first && wait $second || exit 1
status=0
./schedtool solve "$model" search.log > answer.txt || status=$?
cat answer.txt
[ $status = 0 ] || [ $status = 10 ] || [ $status = 20 ] || exit $status
echo "the log of the search, checked line by line:"
./schedtool check "$model" search.log
if ./gantt "$model" answer.txt > page.svg 2> no_page; then echo "drawn: $room/page.svg"; else rm page.svg; fi
rm -f no_page
