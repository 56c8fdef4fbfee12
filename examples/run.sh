#!/usr/bin/env bash
# Solves each model of this folder and compares: the answer with the one beside the model (NAME.answer), what `check` says
# of the log, and that what `solve` printed is a solution by `verify`. Then the logs that are kept beside models are
# checked, a plan is changed by hand, once rightly and once not, and a plan that can't be is asked why. It ends with status 1
# where something differs.
# usage: run.sh [PROGRAM]
# It wants a built program: (cd crates/schedtool && rt run -- solve ../../examples/two_in_a_row.cpo two_in_a_row.log)
set -eu
here=$(cd "$(dirname "$0")" && pwd)
tool=$(realpath "${1:-$here/../crates/schedtool/out/schedtool}")
work=$(mktemp -d)
trap 'rm -rf "$work"' EXIT
cd "$work"
wrong=0

differs() {
  echo "$1: $2"
  wrong=1
}

for model in "$here"/*.cpo; do
  name=$(basename "$model" .cpo)
  wanted=$(cat "$here/$name.answer")
  "$tool" solve "$model" log > plan || true
  got=$(head -n 1 plan)
  [ "$got" = "$wanted" ] || differs "$name" "solve prints '$got', wanted is '$wanted'"
  said=$("$tool" check "$model" log | head -n 1)
  [ "$said" = "accepted $wanted" ] || differs "$name" "check prints '$said'"
  if [ "$wanted" != infeasible ]; then
    [ "$("$tool" verify "$model" plan | head -n 1)" = valid ] || differs "$name" "verify refuses what solve printed"
  fi
  echo "$name: $got, $(sed -n 2p plan), $(wc -l < log) lines"
done

# A log that is kept beside its model.
for log in "$here"/*.log; do
  name=$(basename "$log" .log)
  said=$("$tool" check "$here/$name.cpo" "$log" | head -n 1)
  [ "$said" = "accepted $(cat "$here/$name.answer")" ] || differs "$name" "check prints '$said' of the log that is kept"
done

# A plan changed by hand: the report one unit later is still a plan, three units later it isn't.
model=$here/night_shift.cpo
printf 'day 0 2\nnight absent\nreport 4 5\nend\n' > later
printf 'day 0 2\nnight absent\nreport 7 8\nend\n' > too_late
[ "$("$tool" verify "$model" later | head -n 1)" = valid ] || differs night_shift "verify refuses a plan that keeps all"
if "$tool" verify "$model" too_late 2> why; then
  differs night_shift "verify takes a plan that ends too late"
fi
[ "$(cat why)" = "schedule refused line 3" ] || differs night_shift "verify says '$(cat why)'"

# A plan that can't be: fourteen rules clash, and none of them can go.
left=$(TOOL=$tool "$here/../audit/shrink.py" "$here/festival.cpo" | grep -c '^constraint [0-9]*:') || true
[ "$left" = 14 ] || differs festival "shrink.py leaves $left constraints, wanted are 14"

# What a closed log shows of the best value is its optimum.
said=$("$tool" bound "$here/two_in_a_row.cpo" "$here/two_in_a_row.log" | head -n 2 | tr '\n' ' ')
wanted=$(cut -d ' ' -f 2 "$here/two_in_a_row.answer")
[ "$said" = "bound $wanted best $wanted " ] || differs two_in_a_row "bound prints '$said'"

[ $wrong = 0 ] && echo "all as wanted"
exit $wrong
