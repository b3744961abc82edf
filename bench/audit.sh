#!/usr/bin/env bash
# How fast traces are audited, beside their replays and beside a plain judge, and how the time grows with a trace and with its files.
#   bench/audit.sh [PROGRAM]
# Replays schedules of 16,000 and 64,000 lines over one file and over 1,000 (schedules.py makes them), and audits their traces, by the
# program and by judge.py, which asks the same questions in one thread of Python and goes through the whole trace for each file. Prints
# the seconds of each (the best of three; the plain judge is tried once, and not on the long trace of many files), and the ratio of
# the times for 64,000 and 16,000 lines, which is 4 where the time grows with the length alone.
set -eu
here=$(cd "$(dirname "$0")" && pwd)
program=${1:-$(bash "$here/../tests/build.sh")}
exec python3 - "$program" "$here" <<'PYTHON'
import os
import subprocess
import sys
import tempfile
import time

program, here = sys.argv[1:]
sys.path.insert(0, here)
sys.dont_write_bytecode = True
from schedules import many_files, text_of


def seconds_of(words, source, target, times):
    """The least time that a command takes, from a file to a file."""
    least = None
    for _ in range(times):
        with open(source, "rb") as lines, open(target, "wb") as output:
            begun = time.perf_counter()
            ended = subprocess.run(words, stdin=lines, stdout=output)
            seconds = time.perf_counter() - begun
        if ended.returncode != 0:
            sys.exit(f"{' '.join(words)} ended with {ended.returncode}")
        least = seconds if least is None else min(least, seconds)
    return least


columns = ("files", "lines", "entries", "replay", "audit", "audit/replay", "plain judge")
print(" ".join(f"{column:>12}" for column in columns))
with tempfile.TemporaryDirectory() as folder:
    schedule, trace, verdict = (os.path.join(folder, name) for name in ("schedule", "trace", "verdict"))
    for files in (1, 1000):
        taken = {}
        for length in (16_000, 64_000):
            with open(schedule, "w") as file:
                file.write(text_of(many_files(length, files)))
            replayed = seconds_of([program, "replay"], schedule, trace, 3)
            audited = seconds_of([program, "audit"], trace, verdict, 3)
            with open(verdict) as file:
                if file.read() != "safe\n":
                    sys.exit("a trace of a replay isn't safe")
            with open(trace, "rb") as file:
                entries = sum(1 for _ in file)
            plain = "-"
            if files == 1 or length == 16_000:
                plain = f"{seconds_of([sys.executable, os.path.join(here, 'judge.py')], trace, verdict, 1):.3f}"
            taken[length] = audited
            print(
                f"{files:>12} {length:>12} {entries:>12} {replayed:>12.3f} {audited:>12.3f} {audited / replayed:>12.2f} {plain:>12}",
                flush=True,
            )
        print(f"{files:>12} files: the audit of 64,000 lines takes {taken[64_000] / taken[16_000]:.2f} times that of 16,000")
PYTHON
