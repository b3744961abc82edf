#!/usr/bin/env bash
# What a failover costs, by how many objects the file has and how many writes wait for the new primary: the instructions of its replay, by
# callgrind, which doesn't depend on what else the machine does.
#   bench/failover.sh [PROGRAM]
# A file with this many objects has a replica on each of three OSDs. Its primary stops, and its lease ends. Then this many clients, each with
# an object of its own, write at the next OSD, which has to win the lease and to find what the file holds before it can serve them. What comes
# after their calls is replayed once more without it, and the difference is the failover. It is printed for a schedule with one write and
# with 60, with 100 objects and with 1,000, and then what each further write takes. That should be no more with 1,000 objects than with 100:
# about ten times as much says that the cost grows with the objects times the writes. Without valgrind the same is printed in
# microseconds, the best of five replays, and standard error says so.
set -eu
here=$(cd "$(dirname "$0")" && pwd)
program=${1:-$(bash "$here/../tests/build.sh")}
exec python3 - "$program" <<'PYTHON'
import os
import re
import shutil
import subprocess
import sys
import tempfile
import time

PROGRAM = sys.argv[1]
OBJECTS = (100, 1000)
WRITES = (1, 60)
FIRST_CLIENT = 100
VALGRIND = shutil.which("valgrind")


def schedule(objects, writes, fails_over):
    """OSD 1 serves until each object is written, and stops. Then these clients write at OSD 2, and what they send is delivered or not."""
    clients = range(FIRST_CLIENT, FIRST_CLIENT + writes)
    yield "times 1000 100"
    yield from ("osd 1", "osd 2", "osd 3", "client 10 0")
    yield from (f"client {client} 0" for client in clients)
    yield from ("start 1 0", "start 2 0", "start 3 0", "file 1 rep 1024 1 2 3", "tick 1100")
    for number in range(objects):
        yield f"write 10 1 {number} 0 61"
        yield "settle 1000"
    yield "stop 1"
    yield "tick 1200"  # the lease is over
    for place, client in enumerate(clients):
        yield f"aim {client} 1 2"
        yield f"write {client} 1 {place * objects // writes} 0 62"
    if fails_over:
        yield "settle 100000"


def replayed(path, trace, counts=None):
    """Replays the schedule at this path, under callgrind if it is to leave counts. What it writes goes to a file."""
    words = [PROGRAM, "replay"]
    if counts:
        words = [VALGRIND, "--tool=callgrind", f"--callgrind-out-file={counts}", *words]
    with open(path) as source, open(trace, "w") as output:
        done = subprocess.run(words, stdin=source, stdout=output, stderr=subprocess.PIPE)
    if done.returncode != 0:
        sys.exit(f"the replay ended with {done.returncode}: {done.stderr.decode()[-400:]}")


def instructions(path, trace, folder):
    counts = os.path.join(folder, "counts")
    replayed(path, trace, counts)
    with open(counts) as file:
        return int(re.search(r"^(?:summary|totals): *(\d+)", file.read(), re.M)[1])


def microseconds(path, trace):
    best = None
    for _ in range(5):
        begun = time.perf_counter()
        replayed(path, trace)
        took = time.perf_counter() - begun
        best = took if best is None else min(best, took)
    return int(best * 1_000_000)


def cost(lines, folder):
    """What a replay of these lines takes, and its trace."""
    path, trace = (os.path.join(folder, name) for name in ("schedule", "trace"))
    with open(path, "w") as file:
        file.writelines(f"{line}\n" for line in lines)
    took = instructions(path, trace, folder) if VALGRIND else microseconds(path, trace)
    with open(trace) as file:
        return took, file.read().splitlines()


def served(trace):
    """How many of the waiting clients had their write done."""
    done = (line.split() for line in trace if line.startswith("done "))
    return sum(1 for words in done if int(words[1]) >= FIRST_CLIENT and "ok" in words)


def failover(objects, writes, folder):
    with_it, trace = cost(schedule(objects, writes, True), folder)
    if served(trace) != writes:
        sys.exit(f"{served(trace)} of {writes} writes were done with {objects} objects")
    without, _ = cost(schedule(objects, writes, False), folder)
    return with_it - without


def times(large, small):
    """How many times as much one is as the other; a difference of times can be below zero."""
    return f"{large / small:.2f}" if small > 0 else "?"


def main():
    unit = "instructions" if VALGRIND else "microseconds"
    if not VALGRIND:
        print("failover.sh: there is no valgrind here, so this is the time", file=sys.stderr)
    print(f"{'objects':>8} {'writes':>8} {unit:>14} {'for a write':>12}")
    took = {}
    with tempfile.TemporaryDirectory() as folder:
        for objects in OBJECTS:
            for writes in WRITES:
                took[objects, writes] = failover(objects, writes, folder)
                print(f"{objects:>8} {writes:>8} {took[objects, writes]:>14,} {took[objects, writes] // writes:>12,}", flush=True)
    few, many = WRITES
    further = {objects: (took[objects, many] - took[objects, few]) / (many - few) for objects in OBJECTS}
    for objects in OBJECTS:
        print(f"{objects:,} objects: each further write takes {further[objects]:,.0f} {unit}")
    small, large = OBJECTS
    print(
        f"{large:,} objects beside {small:,}: {times(took[large, few], took[small, few])} times as much with one write, "
        f"{times(took[large, many], took[small, many])} times with {many}, "
        f"{times(further[large], further[small])} times for each further write, to be about 1"
    )


main()
PYTHON
