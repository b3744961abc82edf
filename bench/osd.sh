#!/usr/bin/env bash
# What it costs to bring an OSD up to date that was away, by how many objects it lacks of how many that the file has: the instructions of the
# replay of its catch-up, by callgrind, which doesn't depend on what else the machine does.
#   bench/osd.sh [PROGRAM]
# A file of this many objects lies on three OSDs. One of them is away while a number of its objects are written, comes back, and is fed by the
# primary of a new lease, which a read brings about. What the new lease takes is replayed with an OSD that lacks that many objects, and with one
# that was away and lacks none; the difference is the feeding. It is printed, in all and for each body that was sent, and beside each
# pair what ratio it is to have at most: to feed one of many objects is to cost no more than twice one of few, and to feed all
# grows no faster than n log n. Without valgrind it does nothing, and says so on standard error.
set -eu
here=$(cd "$(dirname "$0")" && pwd)
if ! command -v valgrind >/dev/null; then
    echo "osd.sh: there is no valgrind here" >&2
    exit 0
fi
program=${1:-$(bash "$here/../tests/build.sh")}
exec python3 - "$program" <<'PYTHON'
import math
import os
import re
import subprocess
import sys
import tempfile

PROGRAM = sys.argv[1]


def writes(objects):
    """A write of one byte to each of these objects, each done before the next one."""
    for number in objects:
        yield f"write 10 1 {number} 0 61"
        yield "settle 1000"


def schedule(lacking, objects, caught_up):
    """OSD 3 is away while the last `lacking` of the objects are written. Then it comes back, and is fed or not."""
    yield "times 1000 100"
    yield from ("osd 1", "osd 2", "osd 3", "client 10 0", "start 1 0", "start 2 0", "start 3 0")
    yield from ("file 1 rep 1024 1 2 3", "tick 1100")
    yield from writes(range(objects - lacking))
    yield "stop 3"
    yield from writes(range(objects - lacking, objects))
    yield "start 3 1100"
    # its silence passes, and with it the primary's lease
    yield "tick 1200"
    yield "read 10 1 0 0 1"
    if caught_up:
        yield "settle 100000"


def instructions(lines, folder):
    """How many instructions a replay of these lines takes."""
    source, counts = (os.path.join(folder, name) for name in ("schedule", "counts"))
    with open(source, "w") as file:
        file.writelines(f"{line}\n" for line in lines)
    with open(source) as file:
        done = subprocess.run(
            ["valgrind", "--tool=callgrind", f"--callgrind-out-file={counts}", PROGRAM, "replay"],
            stdin=file, stdout=subprocess.DEVNULL, stderr=subprocess.PIPE,
        )
    if done.returncode != 0:
        sys.exit(f"the replay ended with {done.returncode}: {done.stderr.decode()[-400:]}")
    with open(counts) as file:
        return int(re.search(r"^(?:summary|totals): *(\d+)", file.read(), re.M)[1])


def renewal(lacking, objects, folder):
    """What the new lease takes, with the feeding of what is lacking."""
    with_it, without = (instructions(schedule(lacking, objects, fed), folder) for fed in (True, False))
    return with_it - without


def catch_up(lacking, objects, folder):
    return renewal(lacking, objects, folder) - renewal(0, objects, folder)


def main():
    print(f"{'lacking':>8} {'objects':>8} {'instructions':>14} {'for a body':>12}")
    cost = {}
    with tempfile.TemporaryDirectory() as folder:
        for lacking, objects in ((1, 4), (1, 4096), (256, 256), (1024, 1024), (4096, 4096)):
            cost[lacking, objects] = catch_up(lacking, objects, folder)
            took = cost[lacking, objects]
            print(f"{lacking:>8} {objects:>8} {took:>14,} {took // lacking:>12,}", flush=True)
    print(f"one of 4,096 beside one of 4: {cost[1, 4096] / cost[1, 4]:.2f}, to be at most 2")
    for few, many in ((256, 1024), (1024, 4096)):
        most = many * math.log2(many) / (few * math.log2(few))
        print(f"all of {many:,} beside all of {few:,}: {cost[many, many] / cost[few, few]:.2f}, to be at most {most:.2f}")


main()
PYTHON
