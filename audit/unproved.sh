#!/usr/bin/env bash
# Builds a native, optimised program of this repository WITHOUT proving it, in a few minutes, and prints its path: for
# tests and measurements alone. What counts is what `rt ci` proves and builds.
# usage: audit/unproved.sh PROGRAM.. [--to FOLDER]      (schedtool, gantt, lastplan, why, ..; FOLDER: a new one of the system's)
# How: `rt try` lowers all crates to one module and hands it to the kit's clang, with checks, for a run of its own. Here it
# runs from a copy of the kit's two scripts, beside links to all else, whose clang keeps the module and fails, so that the
# kit compiles and runs nothing; the module is then compiled and linked as `rt run` does it.
set -eu
top=$(cd "$(dirname "$0")/.." && pwd)
programs=()
to=
while [ $# -gt 0 ]; do
  case $1 in
    --to) to=$2; shift 2 ;;
    *) programs+=("$1"); shift ;;
  esac
done
[ "${#programs[@]}" -gt 0 ] || { echo "usage: audit/unproved.sh PROGRAM.. [--to FOLDER]" >&2; exit 2; }
mkdir -p "${to:=$(mktemp -d)}"
to=$(cd "$to" && pwd)
kit=$(dirname "$(rt doc)")

# The kit once more: links, but for its scripts, which look for the kit where they stand, and the clang.
like=$to/kit
rm -rf "$like"
mkdir -p "$like/bin" "$like/toolchain/bin"
for it in "$kit"/*; do [ -e "$like/$(basename "$it")" ] || ln -s "$it" "$like/"; done
for it in "$kit"/bin/*; do ln -s "$it" "$like/bin/"; done
rm "$like/bin/rt" "$like/bin/rtlib.py"
cp "$kit/bin/rt" "$kit/bin/rtlib.py" "$like/bin/"
for it in "$kit"/toolchain/*; do [ -e "$like/toolchain/$(basename "$it")" ] || ln -s "$it" "$like/toolchain/"; done
for it in "$kit"/toolchain/bin/*; do ln -s "$it" "$like/toolchain/bin/"; done
rm "$like/toolchain/bin/clang"
build() {
  local name=$1 room=$to/$1.room
  rm -rf "$room"
  mkdir -p "$room"
  : > "$room/empty"
  # (the tools run with no environment; a module of a few bytes comes first, which only asks whether that clang works)
  printf '#!/bin/sh\nfor it in *.bc; do [ -e "$it" ] && cp "$it" "%s" && [ "$(wc -c < "$it")" -gt 100000 ] && exit 1; done\nexec "%s" "$@"\n' "$room/module.bc" "$kit/toolchain/bin/clang" > "$like/toolchain/bin/clang"
  chmod +x "$like/toolchain/bin/clang"
  # (what the run of its own prints is of no use here, and may be a fault for want of its files)
  (cd "$top/crates/$name" && "$like/bin/rt" try --steps 1 --seconds 1 -- < "$room/empty") > "$room/try.log" 2>&1 || true
  [ -s "$room/module.bc" ] || { tail -n 5 "$room/try.log" >&2; echo "$name: the kit's clang was handed no module" >&2; return 1; }
  cd "$room"
  "$kit/toolchain/bin/clang" --target=x86_64-unknown-linux-gnu --sysroot="$kit/toolchain" -march=x86-64-v2 -O3 -ffunction-sections -fdata-sections \
    -mllvm -no-trap-after-noreturn -mllvm -trap-unreachable --no-default-config -no-canonical-prefixes -c -x ir module.bc -o module.o -fPIE -w
  "$kit/bin/rattle-link" --target x86_64-unknown-linux-gnu --toolchain "$kit/toolchain" -o "$to/$name" module.o "$kit/c/libos_c.a" "$kit/c/liblibc_c.a" > link.log 2>&1 || { tail -n 5 link.log >&2; return 1; }
  rm -rf "$room"
  echo "$to/$name"
}

for name in "${programs[@]}"; do build "$name"; done
rm -rf "$like"
