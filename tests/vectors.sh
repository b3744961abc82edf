#!/usr/bin/env bash
# Replays each NAME.schedule of a folder, and compares all output with NAME.trace and the exit status with NAME.status,
# or with 0 where there is no such file.
#   tests/vectors.sh DIR [PROGRAM]
# Prints each schedule that differs, and at the end how many agree. The status is 0 only if all do.
set -u
top=$(cd "$(dirname "$0")/.." && pwd)
if [ $# -lt 1 ] || [ $# -gt 2 ]; then
    echo "usage: tests/vectors.sh DIR [PROGRAM]" >&2
    exit 2
fi
program=${2:-$top/crates/xtfs/out/xtfs}
if [ ! -x "$program" ]; then
    echo "no program at $program (tests/build.sh builds it)" >&2
    exit 2
fi

got=$(mktemp)
trap 'rm -f "$got"' EXIT
all=0
agreeing=0
for schedule in "$1"/*.schedule; do
    [ -e "$schedule" ] || continue
    name=${schedule%.schedule}
    all=$((all + 1))
    wanted=0
    [ ! -e "$name.status" ] || wanted=$(cat "$name.status")
    timeout 120 "$program" replay <"$schedule" >"$got" 2>&1
    status=$?
    same=yes
    if [ "$status" != "$wanted" ]; then
        echo "$name: ended with $status, and should with $wanted"
        same=no
    fi
    if ! cmp -s "$got" "$name.trace"; then
        echo "$name: the output differs (< is, > should be)"
        diff "$got" "$name.trace" | head -n 8 | cut -c 1-160
        same=no
    fi
    [ "$same" = no ] || agreeing=$((agreeing + 1))
done
echo "$agreeing of $all agree"
[ "$all" -gt 0 ] && [ "$agreeing" = "$all" ]
