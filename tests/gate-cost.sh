#!/usr/bin/env bash
# Runs the gate, and prints what each crate cost it: processor seconds for its proof, its tests and its must-fail
# edits, and the sum.
#   tests/gate-cost.sh [COMMAND..]
# COMMAND is .ci/run where none is given, and its status is the script's. What it says goes to standard error, and the
# table to standard output.
#
# `rt ci` leaves no record of time, and proves several crates at once. So the provers that run below it are
# looked at once a second, and the last second of each is lost.
set -u
cd "$(dirname "$0")/.." || exit 1
[ $# -gt 0 ] || set -- .ci/run

declare -A spent crate_of kind_of parent_of

# Whether the process is the gate, or one that it started. The processes are those that were seen last.
is_of_gate() {
    local pid=$1
    while [ "${pid:-0}" -gt 1 ]; do
        [ "$pid" != "$gate" ] || return 0
        pid=${parent_of[$pid]:-0}
    done
    return 1
}

# The crate and the kind of a prover's work, by its words and its folder: an edit is tried in a folder of its own, and
# tests are proved by a flag.
name_work() {
    local pid=$1 words=() word=0 kind=proof folder
    mapfile -d '' -t words <"/proc/$pid/cmdline"
    folder=$(readlink "/proc/$pid/cwd")
    while [ "$word" -lt "${#words[@]}" ]; do
        case ${words[word]} in
        --crate-name) crate_of[$2]=${words[word + 1]:-} ;;
        --test) kind=tests ;;
        esac
        word=$((word + 1))
    done
    case $folder in */rt-edit-*) kind=edits ;; esac
    kind_of[$2]=$kind
}

# Notes what each prover of the gate has spent so far, in hundredths of a second. A process is known by its number and
# its start.
look() {
    local stat line fields pid provers=() key
    parent_of=()
    for stat in /proc/[0-9]*/stat; do
        { read -r line <"$stat"; } 2>/dev/null || continue
        pid=${line%% *}
        read -r -a fields <<<"${line##*) }"
        parent_of[$pid]=${fields[1]}
        case $line in *"(rattle)"*) provers+=("$pid ${fields[19]} $((fields[11] + fields[12]))") ;; esac
    done
    for line in ${provers[@]+"${provers[@]}"}; do
        read -r pid key stat <<<"$line"
        is_of_gate "$pid" || continue
        key=$pid-$key
        [ -n "${crate_of[$key]:-}" ] || name_work "$pid" "$key" 2>/dev/null
        spent[$key]=$stat
    done
}

"$@" >&2 &
gate=$!
while kill -0 "$gate" 2>/dev/null; do
    look
    sleep 1
done
wait "$gate"
status=$?

row='%-20s %8s %8s %8s %8s\n'
# shellcheck disable=SC2059
printf "$row" seconds proof tests edits all
for key in "${!spent[@]}"; do
    echo "${crate_of[$key]:-unknown} ${kind_of[$key]:-proof} ${spent[$key]}"
done | awk -v ticks="$(getconf CLK_TCK)" -v row="$row" '
    function add(crate, kind, time) { of[crate, kind] += time; of[crate, "all"] += time; crates[crate] = 1 }
    function whole(crate, kind) { return sprintf("%.0f", of[crate, kind] / ticks) }
    { add($1, $2, $3); add("sum", $2, $3) }
    END { for (c in crates) printf row, c, whole(c, "proof"), whole(c, "tests"), whole(c, "edits"), whole(c, "all") }
' | sort -k5,5n
exit "$status"
