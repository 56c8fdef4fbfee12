#!/usr/bin/env bash
# Runs the program with standard input, output and error closed, alone and together, and compares each run with one in
# which all are open: its status, what it writes to the streams that are open, and that the model and the log are what
# they were. A closed stream is a failed write, and never a file of the run. Among the words are some that aren't UTF-8,
# as one that names a file, and as the program's own name. It ends with status 1 where something differs.
# usage: streams.sh [PROGRAM]
# It wants a built program: (cd crates/schedtool && rt run -- solve ../../examples/two_in_a_row.cpo two_in_a_row.log)
set -eu
top=$(cd "$(dirname "$0")/.." && pwd)
tool=${1:-$top/crates/schedtool/out/schedtool}
work=$(mktemp -d)
trap 'rm -rf "$work"' EXIT
cd "$work"
rows=0
wrong=0
# what the program is called
name=schedtool

# Runs the program on some words, with the streams of these numbers closed.
run() {
  local closed=$1
  shift
  rm -f out err
  (
    case $closed in *0*) exec <&- ;; *) exec < /dev/null ;; esac
    case $closed in *1*) exec >&- ;; *) exec > out ;; esac
    case $closed in *2*) exec 2>&- ;; *) exec 2> err ;; esac
    exec -a "$name" "$tool" "$@"
  )
}

# Whether a stream is closed, or got these bytes.
got() {
  [[ $1 == *$2* ]] || cmp -s "$3" "$4"
}

# expect CLOSED STATUS OUT ERR WORDS..: what the run has to end with and to write where the streams are open.
expect() {
  local closed=$1 status=$2 out=$3 err=$4 ended=0
  shift 4
  run "$closed" "$@" || ended=$?
  printf '%s' "$out" > wanted_out
  printf '%s' "$err" > wanted_err
  rows=$((rows + 1))
  if [ "$ended" != "$status" ] || ! got "$closed" 1 out wanted_out || ! got "$closed" 2 err wanted_err; then
    printf 'closed: %-3s  %s: status %s, wanted %s, or other words\n' "$closed" "$*" "$ended" "$status"
    wrong=$((wrong + 1))
  fi
}

# same WHAT FILE OTHER: two files with the same bytes.
same() {
  rows=$((rows + 1))
  if ! cmp -s "$2" "$3"; then
    echo "$1"
    wrong=$((wrong + 1))
  fi
}

cp "$top/examples/two_in_a_row.cpo" model
cp model kept_model
echo 'a = intervalVar(size=-1);' > refused
for command in solve check; do
  run none "$command" model kept_log
  cp out "of_$command"
done
run none show model
cp out of_show
# a command substitution drops the line feeds at the end
solved="$(cat of_solve)"$'\n'
checked="$(cat of_check)"$'\n'
shown="$(cat of_show; echo .)"
shown=${shown%.}
usage=$'usage: schedtool COMMAND ARGUMENTS\n'

for closed in none 0 1 2 01 02 12 012; do
  done=0
  told=
  if [[ $closed == *1* ]]; then
    done=4
    told=$'fault\n'
  fi
  rm -f log
  expect "$closed" $done "$solved" "$told" solve model log
  same "closed: $closed  solve: the log has other bytes" log kept_log
  expect "$closed" $done "$checked" "$told" check model kept_log
  expect "$closed" $done "$shown" "$told" show model
  expect "$closed" 2 '' "$usage" solve model
  expect "$closed" 3 '' $'model refused 8 statement 1 at 0\n' solve refused log
  expect "$closed" 4 '' $'fault\n' solve missing log
  expect "$closed" 4 '' $'fault\n' check model missing
  expect "$closed" 2 '' "$usage" solve model log $'\xff'
  same "closed: $closed  the log was changed" log kept_log
  same "closed: $closed  the model was changed" model kept_model
done

# The program's own name is no word of a command.
name=$'\xff'
expect none 0 "$solved" '' solve model log
name=schedtool

# A closed stream has no name either.
expect 0 4 '' $'fault\n' show /dev/stdin
expect 1 4 '' $'fault\n' solve model /dev/stdout
expect 12 4 '' $'fault\n' solve model /dev/stderr
expect 012 4 '' $'fault\n' solve model /dev/stdout
same 'the model was written over by a log that a closed stream names' model kept_model
echo "$rows looks, $wrong wrong"
[ $wrong = 0 ]
