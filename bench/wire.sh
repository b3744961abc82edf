#!/usr/bin/env bash
# How fast messages become frames and parts, and come back from them.
#   bench/wire.sh [PROGRAM]
# Runs `encode` and `decode` on messages with bodies of 50 bytes, 4 KiB and 128 KiB, and `cut` and `join` on messages of
# those lengths, and prints the megabytes (millions of bytes) of body or message a second: the best of three runs, by the
# processor time of the process.
set -eu
here=$(cd "$(dirname "$0")" && pwd)
program=${1:-$(bash "$here/../tests/build.sh" xt_bench)}
exec python3 - "$program" <<'PYTHON'
import resource
import subprocess
import sys

program = sys.argv[1]


def seconds(words):
    """The processor seconds of a run with these words."""
    before = resource.getrusage(resource.RUSAGE_CHILDREN)
    subprocess.run([program, *words], check=True, stdout=subprocess.DEVNULL)
    after = resource.getrusage(resource.RUSAGE_CHILDREN)
    return after.ru_utime + after.ru_stime - before.ru_utime - before.ru_stime


print(f"{'work':>7} {'bytes':>7} {'times':>8} {'MB/s':>7}")
for work in ("encode", "decode", "cut", "join"):
    for size, times in ((50, 4_000_000), (4096, 400_000), (131_072, 20_000)):
        best = min(seconds([work, str(size), str(times)]) for _ in range(3))
        print(f"{work:>7} {size:>7} {times:>8} {size * times / best / 1e6:>7.0f}")
PYTHON
