#!/usr/bin/env bash
# The built program gives the trace of an example. (.ci/run tries the other way of examples/run.sh, with no proof, beside the proofs.)
set -u
here=$(cd "$(dirname "$0")" && pwd)
bash "$here/build.sh" >/dev/null || exit 1
bash "$here/way.sh" 'by the proved program'
