#!/usr/bin/env bash
# One of the two ways of examples/run.sh gives the example's trace, and says in one line on standard error which it is.
#   tests/way.sh SAID [WORD..]
# SAID is what is in that line. The words are those of run.sh in front of the example's name.
set -u
here=$(cd "$(dirname "$0")" && pwd)
example=found-write
said=$1
shift
room=$(mktemp -d)
trap 'rm -rf "$room"' EXIT

if ! bash "$here/../examples/run.sh" "$@" "$example" >"$room/trace" 2>"$room/said"; then
    echo "run.sh $*: it failed"
    cat "$room/said"
    exit 1
fi
if ! cmp "$room/trace" "$here/../examples/$example.trace"; then
    echo "run.sh $*: another trace"
    exit 1
fi
if [ "$(wc -l <"$room/said")" != 1 ] || ! grep -q "$said" "$room/said"; then
    echo "run.sh $*: it says other than '$said':"
    cat "$room/said"
    exit 1
fi
echo "run.sh replays $example $said"
