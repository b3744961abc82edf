#!/usr/bin/env bash
# Makes the schedule of each NUMBER-SIZE.out of a folder, replays and audits it, and compares all output with that file and the exit
# status with NUMBER-SIZE.status.
#   tests/makes.sh DIR [PROGRAM]
# Prints each one that differs, and at the end how many agree. The status is 0 only if all do.
set -u
top=$(cd "$(dirname "$0")/.." && pwd)
if [ $# -lt 1 ] || [ $# -gt 2 ]; then
    echo "usage: tests/makes.sh DIR [PROGRAM]" >&2
    exit 2
fi
program=${2:-$top/crates/xtfs/out/xtfs}
if [ ! -x "$program" ]; then
    echo "no program at $program (tests/build.sh builds it)" >&2
    exit 2
fi

all=0
agreeing=0
for wanted in "$1"/*.out; do
    [ -e "$wanted" ] || continue
    name=$(basename "$wanted" .out)
    all=$((all + 1))
    got=$(timeout 120 "$program" make "${name%-*}" "${name##*-}" </dev/null 2>&1)
    status=$?
    if [ "$got" = "$(cat "$wanted")" ] && [ "$status" = "$(cat "${wanted%.out}.status")" ]; then
        agreeing=$((agreeing + 1))
    else
        echo "make ${name%-*} ${name##*-}: ended with $status, and wrote: $got"
    fi
done
echo "$agreeing of $all generated schedules agree"
[ "$all" -gt 0 ] && [ "$agreeing" = "$all" ]
