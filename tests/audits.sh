#!/usr/bin/env bash
# Audits each NAME.trace of a folder, and compares all output with NAME.out and the exit status with NAME.status.
#   tests/audits.sh DIR [PROGRAM]
# Prints each trace that differs, and at the end how many agree. The status is 0 only if all do.
set -u
top=$(cd "$(dirname "$0")/.." && pwd)
if [ $# -lt 1 ] || [ $# -gt 2 ]; then
    echo "usage: tests/audits.sh DIR [PROGRAM]" >&2
    exit 2
fi
program=${2:-$top/crates/xtfs/out/xtfs}
if [ ! -x "$program" ]; then
    echo "no program at $program (tests/build.sh builds it)" >&2
    exit 2
fi

got=$(mktemp)
trap 'rm -f "$got"' EXIT
all=0
agreeing=0
for trace in "$1"/*.trace; do
    [ -e "$trace" ] || continue
    name=${trace%.trace}
    all=$((all + 1))
    wanted=$(cat "$name.status")
    timeout 120 "$program" audit <"$trace" >"$got" 2>&1
    status=$?
    same=yes
    if [ "$status" != "$wanted" ]; then
        echo "$name: ended with $status, and should with $wanted"
        same=no
    fi
    if ! cmp -s "$got" "$name.out"; then
        echo "$name: the output differs (< is, > should be)"
        diff "$got" "$name.out" | head -n 8 | cut -c 1-160
        same=no
    fi
    [ "$same" = no ] || agreeing=$((agreeing + 1))
done
echo "$agreeing of $all agree"
[ "$all" -gt 0 ] && [ "$agreeing" = "$all" ]
