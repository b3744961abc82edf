#!/usr/bin/env bash
# A file of 2 GiB, striped over five OSDs: the DIR, the MRC and the OSDs are processes of the built program on the loopback. (A store has at
# most 1 GiB, of which an OSD fills about half before a compaction finds no room: three of them are full before the file ends.)
#   bench/wide.sh [PROGRAM]
# Prints how long its put and its get took, how long each OSD's store is then, and its greatest resident memory. What is read is compared
# with what was written. Needs 3 GiB of room for temporary files; ends by itself, in a minute or two.
set -eu
here=$(cd "$(dirname "$0")" && pwd)
program=${1:-$(bash "$here/../tests/build.sh")}
exec python3 - "$program" <<'PYTHON'
import os
import socket
import subprocess
import sys
import tempfile
import time

PROGRAM = sys.argv[1]
TIMES = ["--lease", "2000", "--drift", "200"]
SIZE = 1 << 31
OSDS = 5
# The pattern's byte at a place is the place modulo 251.
ROUND = bytes(range(251)) * 4096


def free_port():
    with socket.socket(socket.AF_INET, socket.SOCK_DGRAM) as s:
        s.bind(("127.0.0.1", 0))
        return s.getsockname()[1]


def started(words):
    """A node that has said that it is ready."""
    child = subprocess.Popen([PROGRAM, *words, *TIMES], stdin=subprocess.DEVNULL, stdout=subprocess.PIPE)
    if not child.stdout.readline().startswith(b"ready "):
        sys.exit(f"{words} isn't ready")
    return child


def ends_well(words, directory):
    """Makes a command until it ends well: the servers learn of new OSDs at their Wakes."""
    for _ in range(100):
        done = subprocess.run([PROGRAM, *words, "--dir", directory, *TIMES], stdin=subprocess.DEVNULL, stdout=subprocess.PIPE, timeout=600)
        if done.returncode == 0:
            return done.stdout
        time.sleep(0.1)
    sys.exit(f"{words} never ended well: {done.stdout[-200:]!r}, {done.returncode}")


def is_pattern(source):
    """Whether the source gives the whole pattern, and nothing else."""
    at = 0
    while piece := source.read(len(ROUND)):
        start = at % 251
        if (ROUND + ROUND[:251])[start : start + len(piece)] != piece:
            return False
        at += len(piece)
    return at == SIZE


def main():
    directory, metadata, *devices = (f"127.0.0.1:{free_port()}" for _ in range(2 + OSDS))
    children = []
    with tempfile.TemporaryDirectory() as folder:
        try:
            children.append(started(["dir", "--listen", directory, "--store", f"{folder}/dir", "--key", "00"]))
            children.append(started(["mrc", "--listen", metadata, "--dir", directory, "--store", f"{folder}/mrc", "--key", "00"]))
            ends_well(["register", "901", "2", metadata], directory)
            for number, address in enumerate(devices, 1):
                words = ["osd", "--id", str(number), "--listen", address, "--dir", directory, "--store", f"{folder}/{number}", "--key", "00"]
                children.append(started(words))
                ends_well(["register", str(number), "1", address], directory)
            ends_well(["mkdir", "/v"], directory)
            ends_well(["put", "/v/small", "--striped", str(OSDS), "--pattern", "1"], directory)
            before = time.monotonic()
            ends_well(["put", "/v/wide", "--striped", str(OSDS), "--pattern", str(SIZE)], directory)
            put = time.monotonic() - before
            before = time.monotonic()
            get = subprocess.Popen([PROGRAM, "get", "/v/wide", "--dir", directory, *TIMES], stdin=subprocess.DEVNULL, stdout=subprocess.PIPE)
            same = is_pattern(get.stdout)
            status = get.wait()
            got = time.monotonic() - before
            mebibytes = SIZE / (1 << 20)
            print(f"put {mebibytes:.0f} MiB: {put:.1f} s, {mebibytes / put:.0f} MiB/s; get: {got:.1f} s, {mebibytes / got:.0f} MiB/s")
            for number, child in enumerate(children[2:], 1):
                with open(f"/proc/{child.pid}/status") as lines:
                    greatest = next(int(line.split()[1]) / 1024 for line in lines if line.startswith("VmHWM"))
                length = os.path.getsize(f"{folder}/{number}") / (1 << 20)
                print(f"OSD {number}: a store of {length:.0f} MiB, {greatest:.0f} MiB of memory at most")
            if not same or status != 0:
                sys.exit(f"what was read differs, or its status {status} does")
        finally:
            for child in children:
                child.kill()
                child.wait()


main()
PYTHON
