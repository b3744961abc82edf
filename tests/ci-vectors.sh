#!/usr/bin/env bash
# The built program over the vectors, whose traces come from a model that was written apart from it, and over the
# examples, whose traces were worked out by hand; its audit of traces whose verdicts come from such models too; and generated schedules.
set -u
here=$(cd "$(dirname "$0")" && pwd)
program=$(bash "$here/build.sh") || exit 1
failed=0
for folder in "$here/vectors" "$here/vectors-roles" "$here/../examples"; do
    bash "$here/vectors.sh" "$folder" "$program" || failed=1
done
bash "$here/audits.sh" "$here/vectors-audit" "$program" || failed=1
bash "$here/makes.sh" "$here/vectors-make" "$program" || failed=1
exit $failed
