#!/usr/bin/env bash
# Replays a schedule of this folder: its trace is printed.
#   examples/run.sh [--unproved] [NAME]
# NAME is write-and-read where none is given. The proved program does it where it is built (`tests/build.sh` builds it).
# Else, or where that is asked for, the kit runs the same sources with no proof, which takes a few minutes. One line on
# standard error says which of the two it was. The status is the program's.
set -u
here=$(cd "$(dirname "$0")" && pwd)
top=$here/..
proved=yes
if [ "${1:-}" = --unproved ]; then
    proved=no
    shift
fi
schedule=$here/${1:-write-and-read}.schedule
if [ ! -r "$schedule" ]; then
    echo "run.sh: there is no schedule ${1:-write-and-read}" >&2
    exit 2
fi

if [ "$proved" = yes ] && program=$(bash "$top/tests/built.sh"); then
    echo "run.sh: replayed by the proved program" >&2
    "$program" replay <"$schedule"
    exit
fi

said=$(mktemp)
trap 'rm -f "$said"' EXIT
echo "run.sh: replayed with no proof, in a few minutes (tests/build.sh builds the proved program)" >&2
cd "$top/crates/xtfs" || exit 1
rt try -- replay <"$schedule" 2>"$said"
status=$?
# What the kit says is shown only if the program didn't end.
case $(tail -n 1 "$said") in
'run=ended '*) ;;
*) cat "$said" >&2 ;;
esac
exit "$status"
