#!/usr/bin/env bash
# Prints where a proved program is, if it was built from the files as they are. Else it prints nothing, and fails.
#   tests/built.sh [NAME]
# NAME is xtfs where none is given.
set -u
top=$(cd "$(dirname "$0")/.." && pwd)
name=${1:-xtfs}
program=$top/crates/$name/out/$name

[ -x "$program" ] || exit 1
newer=$(find "$top/crates" "$top/crates.txt" -name out -prune -o -type f -newer "$program" -print -quit)
[ -z "$newer" ] || exit 1
echo "$program"
