#!/usr/bin/env bash
# Writes the models of the samples with the scripts of this folder, solves them, and compares: the answer with the one that
# is wanted, what `check` says of the log, that what `solve` printed is a solution by `verify`, and the answers written as
# CSV, as JSON and into the table with the files of samples/. Texts of no use have to end a script with one line. The script
# that stands in docs/FROM_OTHER_TOOLS.md is run as it stands there. It ends with status 1 where something differs.
# usage: tools/test.sh [PROGRAM]
# It wants a built program: (cd crates/schedtool && rt run -- solve ../../examples/two_in_a_row.cpo two_in_a_row.log)
set -eu
here=$(cd "$(dirname "$0")" && pwd)
tool=$(realpath "${1:-$here/../crates/schedtool/out/schedtool}")
work=$(mktemp -d)
trap 'rm -rf "$work"' EXIT
cd "$work"
export PYTHONDONTWRITEBYTECODE=1
wrong=0

differs() {
  echo "$1: $2"
  wrong=1
}

# solves WANTED NAME SCRIPT WORDS..: the model that a script writes has this answer, which stands in NAME.txt then.
solves() {
  local wanted=$1 name=$2 script=$3
  shift 3
  python3 "$script" "$@" > "$name.cpo" || { differs "$name" "no model"; return; }
  "$tool" solve "$name.cpo" log > "$name.txt" || true
  [ "$(head -n 1 "$name.txt")" = "$wanted" ] || differs "$name" "solve prints '$(head -n 1 "$name.txt")', wanted is '$wanted'"
  [ "$("$tool" check "$name.cpo" log | head -n 1)" = "accepted $wanted" ] || differs "$name" "check refuses the log"
  [ "$("$tool" verify "$name.cpo" "$name.txt" | head -n 1)" = valid ] || differs "$name" "verify refuses what solve printed"
  echo "$name: $(head -n 1 "$name.txt")"
}

# ends TEXT SCRIPT WORDS..: the script ends with a status and this line on standard error.
ends() {
  local text=$1
  shift
  if python3 "$@" > out 2> err || [ "$(cat err)" != "$text" ]; then differs "$*" "says '$(cat err)'"; fi
}

samples=$here/samples
solves "optimal 11" shop "$here/jsplib.py" "$samples/shop.jsp"
solves "optimal 10" flexible "$here/fjsp.py" "$samples/flexible.fjs"
solves "optimal 12" project "$here/psplib.py" "$samples/project.sm"
solves "optimal -10" bakery "$here/table.py" "$samples/bakery.csv" --limit power=4

# Answers of which nothing is left open, so that they are the same whoever searches.
python3 "$here/answer.py" "$samples/oven.txt" | diff - "$samples/oven.csv" || differs oven "another CSV"
python3 "$here/answer.py" "$samples/oven.txt" --json | diff - "$samples/oven.json" || differs oven "another JSON"
python3 "$here/answer.py" "$samples/bakery.txt" --table "$samples/bakery.csv" | diff - "$samples/bakery_planned.csv" || differs bakery "another table"
[ "$("$tool" verify bakery.cpo "$samples/bakery.txt" | head -n 1)" = valid ] || differs bakery "verify refuses the answer that is kept"

printf '2 2\n0 3 1\n' > short.jsp
ends "the file ends within job 0" "$here/jsplib.py" short.jsp
printf '2 2\n0 3 1 x\n' > word.jsp
ends "a word that is no number: 'x'" "$here/jsplib.py" word.jsp
sed 's/   2        1  /   2        2  /; s/^  2      1     3/  2      2     3/' "$samples/project.sm" > modes.sm
ends "a job has several modes: only files of one mode a job (.sm) are read" "$here/psplib.py" modes.sm
printf 'task,size,after\na,3,b\n' > after.csv
ends "a stands after a task that isn't there: 'b'" "$here/table.py" after.csv
printf 'task,length\na,3\n' > column.csv
ends "a column that isn't known: length; there are task, size, from, until, after, on, uses, worth" "$here/table.py" column.csv
head -n 3 "$samples/oven.txt" > cut.txt
ends "this is no whole answer: its last line isn't 'end'" "$here/answer.py" cut.txt

# The script of the page.
sed -n '/^```python$/,/^```$/p' "$here/../docs/FROM_OTHER_TOOLS.md" | sed '/^```/d' > week.py
solves "optimal 12" week week.py

[ $wrong = 0 ] && echo "all as wanted"
exit $wrong
