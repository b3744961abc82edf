#!/usr/bin/env bash
# Proves and builds a program where that isn't done yet, and prints where it is. What the kit says goes to standard
# error.
#   tests/build.sh [NAME]
# NAME is xtfs where none is given.
set -u
here=$(cd "$(dirname "$0")" && pwd)
name=${1:-xtfs}
folder=$here/../crates/$name

# What the gate or an earlier run has built from the files as they are will do.
bash "$here/built.sh" "$name" && exit 0

# The kit builds a program as it runs it: here on nothing, and on the words in its crate's `args`. Those of xtfs start a cluster, which
# takes its time and its ports: an audit of nothing ends at once.
mapfile -t words <"$folder/args"
[ "$name" != xtfs ] || words=(audit)
if ! (cd "$folder" && rt run -- "${words[@]}" </dev/null >&2); then
    echo "the program wasn't built" >&2
    exit 1
fi
bash "$here/built.sh" "$name"
