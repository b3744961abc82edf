#!/usr/bin/env bash
# How long a call on the volumes takes, with 10,000 files and with 100,000 in one directory.
#   bench/volume.sh [PROGRAM]
# Prints the microseconds of a Stat, of a Create with the Unlink that ends it, of a Grant to truncate, of a List of a page of
# 512 names, and of two Renames of the directory, there and back; and how much longer each takes with ten times as many files.
# The time in which the directory is filled is taken off: a run with no call takes turns with one with many, and the best of
# five counts.
set -eu
here=$(cd "$(dirname "$0")" && pwd)
program=${1:-$(bash "$here/../tests/build.sh" xt_bench)}
python3 - "$program" <<'PYTHON'
import subprocess
import sys
import time

program = sys.argv[1]
CALLS = {"stat": 300_000, "create": 100_000, "grant": 100_000, "list": 5_000, "rename": 100_000}


def seconds(call, files, times):
    """The seconds in which a directory of this many files is filled, and the call is made this many times."""
    begun = time.perf_counter()
    subprocess.run([program, "volume", call, str(files), str(times)], check=True, stdout=subprocess.DEVNULL)
    return time.perf_counter() - begun


def micros(call, files):
    """The microseconds of one call."""
    times = CALLS[call]
    pairs = [(seconds(call, files, 0), seconds(call, files, times)) for _ in range(5)]
    empty, full = (min(pair[place] for pair in pairs) for place in (0, 1))
    return (full - empty) / times * 1e6


print(f"{'call':>7} {'of 10,000':>10} {'of 100,000':>11} {'times as long':>14}   microseconds")
for call in CALLS:
    few, many = micros(call, 10_000), micros(call, 100_000)
    print(f"{call:>7} {few:>10.2f} {many:>11.2f} {many / few:>14.2f}")
PYTHON
