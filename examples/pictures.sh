#!/usr/bin/env bash
# Makes the pictures of this folder's traces anew: found-write.svg, vanished-write.svg and write-and-read.svg.
#   examples/pictures.sh [--unproved] [FOLDER]
# They go to FOLDER, or to this one. The proved program makes them where it is built (`tests/build.sh trace_picture` builds it).
# Else, or where that is asked for, the kit runs the same sources with no proof, which takes a minute or two. One line on
# standard error says which of the two it was.
set -u
here=$(cd "$(dirname "$0")" && pwd)
top=$here/..
proved=yes
if [ "${1:-}" = --unproved ]; then
    proved=no
    shift
fi
folder=${1:-$here}
folder=$(cd "$folder" && pwd) || exit 2

program=
if [ "$proved" = yes ] && program=$(bash "$top/tests/built.sh" trace_picture); then
    echo "pictures.sh: made by the proved program" >&2
else
    program=
    echo "pictures.sh: made with no proof, in a minute or two (tests/build.sh trace_picture builds the proved program)" >&2
fi

# Writes the picture of the trace on standard input to standard output.
picture() {
    if [ -n "$program" ]; then
        "$program"
        return
    fi
    (cd "$top/crates/trace_picture" && rt try -- 2>"$said")
}

said=$(mktemp)
made=$(mktemp)
trap 'rm -f "$said" "$made"' EXIT
for name in found-write vanished-write write-and-read; do
    if ! picture <"$here/$name.trace" >"$made"; then
        echo "pictures.sh: there is no picture of $name" >&2
        cat "$said" >&2
        exit 1
    fi
    cp "$made" "$folder/$name.svg" || exit 1
    chmod 644 "$folder/$name.svg"
done
