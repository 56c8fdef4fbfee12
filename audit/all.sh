#!/usr/bin/env bash
# Runs the audits that read the repository's texts alone, in under a minute: which crate stands on which, laws that stand in
# two places, definitions in their rooms, what the pages name, what nothing names, and lines that stand twice. It prints the
# last line of each, all lines of one that fails, and ends with status 1 where one does. The last two list what to look at,
# and never fail: call them by themselves for their lists.
# usage: audit/all.sh
set -u
cd "$(dirname "$0")/.." || exit 2
failed=0

audit() {
  local said status=0
  said=$("audit/$1" "${@:2}" 2>&1) || status=$?
  if [ $status = 0 ]; then
    echo "$*: ${said##*$'\n'}"
  else
    printf '%s FAILED:\n%s\n' "$*" "$said"
    failed=1
  fi
}

audit layers.py
audit statements.py
audit reading.py --rooms
audit reading.py --page
audit names.py
audit unused.py
audit clones.py
exit $failed
