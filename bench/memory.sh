#!/usr/bin/env bash
# How much memory an OSD takes: the DIR, the MRC and one OSD as processes of the built program on the loopback.
#   bench/memory.sh [PROGRAM]
# Puts four files of 64 MiB, which are 2,048 objects of 128 KiB, and prints after each how long the OSD's store is, its resident memory,
# and the greatest so far (which counts what a compaction takes for a moment). Then it reads all files, starts the OSD again, reads one
# file, and prints the same. Ends by itself, in about half a minute.
set -eu
here=$(cd "$(dirname "$0")" && pwd)
program=${1:-$(bash "$here/../tests/build.sh")}
exec python3 - "$program" <<'PYTHON'
import os
import socket
import subprocess
import sys
import tempfile
import time

PROGRAM = sys.argv[1]
TIMES = ["--lease", "1000", "--drift", "100"]
FILES, SIZE = 4, 1 << 26


def free_port():
    with socket.socket(socket.AF_INET, socket.SOCK_DGRAM) as s:
        s.bind(("127.0.0.1", 0))
        return s.getsockname()[1]


def started(words):
    """A node that has said that it is ready."""
    child = subprocess.Popen([PROGRAM, *words, *TIMES], stdin=subprocess.DEVNULL, stdout=subprocess.PIPE)
    if not child.stdout.readline().startswith(b"ready "):
        sys.exit(f"{words} isn't ready")
    return child


def ends_well(words, directory):
    """Makes a command until it ends well: the servers learn of new OSDs at their Wakes."""
    for _ in range(100):
        done = subprocess.run([PROGRAM, *words, "--dir", directory, *TIMES], stdin=subprocess.DEVNULL, stdout=subprocess.PIPE, timeout=120)
        if done.returncode == 0:
            return len(done.stdout)
        time.sleep(0.1)
    sys.exit(f"{words} never ended well: {done.stdout[-200:]!r}, {done.returncode}")


def memory(child):
    """The resident memory of a process, and the greatest so far, in MiB."""
    found = {}
    with open(f"/proc/{child.pid}/status") as status:
        for line in status:
            name, _, rest = line.partition(":")
            if name in ("VmRSS", "VmHWM"):
                found[name] = int(rest.split()[0]) / 1024
    return found["VmRSS"], found["VmHWM"]


def main():
    directory, metadata, device = (f"127.0.0.1:{free_port()}" for _ in range(3))
    children = []
    with tempfile.TemporaryDirectory() as folder:
        store = f"{folder}/1"

        def device_started():
            child = started(["osd", "--id", "1", "--listen", device, "--dir", directory, "--store", store, "--key", "00"])
            children.append(child)
            return child

        def show(what, child):
            resident, greatest = memory(child)
            print(f"{what}: the store has {os.path.getsize(store) / 2**20:.0f} MiB, the OSD {resident:.0f} MiB, at most {greatest:.0f} MiB so far")

        try:
            children.append(started(["dir", "--listen", directory, "--store", f"{folder}/dir", "--key", "00"]))
            children.append(started(["mrc", "--listen", metadata, "--dir", directory, "--store", f"{folder}/mrc", "--key", "00"]))
            osd = device_started()
            ends_well(["register", "901", "2", metadata], directory)
            ends_well(["register", "1", "1", device], directory)
            ends_well(["mkdir", "/v"], directory)
            show("at the start", osd)
            for number in range(FILES):
                ends_well(["put", f"/v/{number}", "--replicas", "1", "--pattern", str(SIZE)], directory)
                show(f"{(number + 1) * SIZE >> 20} MiB put", osd)
            for number in range(FILES):
                if ends_well(["get", f"/v/{number}"], directory) != SIZE:
                    sys.exit(f"file {number} isn't whole")
            show("all read", osd)
            osd.kill()
            osd.wait()
            osd = device_started()
            show("started again", osd)
            if ends_well(["get", "/v/0"], directory) != SIZE:
                sys.exit("file 0 isn't whole")
            show("one file read", osd)
        finally:
            for child in children:
                child.kill()
                child.wait()


main()
PYTHON
