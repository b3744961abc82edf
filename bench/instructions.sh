#!/usr/bin/env bash
# How many instructions a line of a schedule takes, and where they go: a count by callgrind, which doesn't depend on what else
# the machine does.
#   bench/instructions.sh [PROGRAM]
# Prints the count for each of 4,000 lines of 60 clients on files of one replica (schedules.py makes them), and the ten
# functions that took the most themselves. Without valgrind it does nothing, and says so on standard error.
set -eu
here=$(cd "$(dirname "$0")" && pwd)
if ! command -v valgrind >/dev/null; then
    echo "instructions.sh: there is no valgrind here" >&2
    exit 0
fi
program=${1:-$(bash "$here/../tests/build.sh")}
folder=$(mktemp -d)
trap 'rm -rf "$folder"' EXIT
lines=4000
python3 "$here/schedules.py" 1 "$lines" 60 >"$folder/schedule"
valgrind --tool=callgrind --callgrind-out-file="$folder/counts" "$program" replay \
    <"$folder/schedule" >"$folder/trace" 2>"$folder/said" || { cat "$folder/said" >&2; exit 1; }
total=$(sed -n 's/^summary: *//p;s/^totals: *//p' "$folder/counts" | head -n 1)
echo "$((total / lines)) instructions a line"
# A row for a function: how many instructions, their part of all in parentheses, and its file and name.
callgrind_annotate --auto=no --inclusive=no --threshold=100 "$folder/counts" |
    grep -E '^ *[0-9,]+ \(' | grep -v 'PROGRAM TOTALS' | head -n 10 | cut -c 1-160
