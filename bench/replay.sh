#!/usr/bin/env bash
# How fast schedules are replayed, and how the time and the memory grow with their length.
#   bench/replay.sh [PROGRAM]
# Replays schedules of 16,000 and 64,000 lines, of one client and of 60, over files of one replica and of three
# (schedules.py makes them). Prints the lines and the delivered messages a second (the best of three replays), the greatest
# resident memory, and the ratio of the times for 64,000 and 16,000 lines, which is 4 where the time grows with the length alone.
#
# Files of three replicas fail over each 1,000 lines: the leases lapse, and the next OSD becomes the primary. No OSD stops for it,
# since one that starts reads the whole journal of its node, which is never made shorter yet: with stops the time of a failover
# would grow with the length.
set -eu
here=$(cd "$(dirname "$0")" && pwd)
program=${1:-$(bash "$here/../tests/build.sh")}
exec python3 - "$program" "$here" <<'PYTHON'
import os
import subprocess
import sys
import tempfile
import time

program, here = sys.argv[1:]
sys.path.insert(0, here)
sys.dont_write_bytecode = True
from schedules import schedule


def sent(text):
    """How many messages a schedule sends, found by the program itself: a `drop` of a later one is refused."""
    some, none = 0, 1 << 20
    while none - some > 1:
        step = -(-(none - some) // 1000)
        rungs = range(some + step, none + step, step)
        lines = text + "".join(f"drop {number}\n" for number in rungs)
        output = subprocess.run([program, "replay"], input=lines, capture_output=True, text=True).stdout
        *_, rule, number = output.splitlines()[-1].split()
        if rule != "nosuchmessage":
            sys.exit("a replay ended otherwise")
        none = int(number)
        some = none - step
    return some


def peak_kib(pid):
    """The greatest resident memory of a process so far, 0 where it isn't known."""
    try:
        with open(f"/proc/{pid}/status") as status:
            for line in status:
                if line.startswith("VmHWM:"):
                    return int(line.split()[1])
    except OSError:
        pass
    return 0


def replay(path):
    """The seconds and the KiB that a replay takes."""
    with open(path, "rb") as lines:
        begun = time.perf_counter()
        process = subprocess.Popen([program, "replay"], stdin=lines, stdout=subprocess.DEVNULL)
        peak = 0
        while process.poll() is None:
            peak = max(peak, peak_kib(process.pid))
            time.sleep(0.002)
        seconds = time.perf_counter() - begun
    if process.returncode != 0:
        sys.exit(f"a replay ended with {process.returncode}")
    return seconds, peak


columns = ("replicas", "clients", "lines", "messages", "seconds", "lines/s", "messages/s", "peak MiB")
print(" ".join(f"{column:>10}" for column in columns))
with tempfile.TemporaryDirectory() as folder:
    path = os.path.join(folder, "lines.schedule")
    for replicas in (1, 3):
        for clients in (1, 60):
            taken = {}
            for length in (16_000, 64_000):
                text = schedule(replicas, length, clients)
                with open(path, "w") as file:
                    file.write(text)
                messages = sent(text)
                runs = [replay(path) for _ in range(3)]
                seconds = min(run[0] for run in runs)
                peak = max(run[1] for run in runs)
                taken[length] = seconds
                print(
                    f"{replicas:>10} {clients:>10} {length:>10} {messages:>10} {seconds:>10.3f} {length / seconds:>10.0f} "
                    f"{messages / seconds:>10.0f} {peak / 1024:>10.0f}",
                    flush=True,
                )
            ratio = taken[64_000] / taken[16_000]
            print(f"{replicas:>10} {clients:>10} clients: the time for 64,000 lines is {ratio:.2f} times that for 16,000")
PYTHON
