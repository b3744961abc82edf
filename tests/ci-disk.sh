#!/usr/bin/env bash
# Bodies are read from the disk when they are asked for: an OSD whose store is cut while it serves ends with a disk fault at the next read of
# what was cut off, reports it once, and serves nothing wrong before. A directory service, a metadata server and an OSD as processes of the
# built program on the loopback. Ends by itself, in some five seconds.
set -u
here=$(cd "$(dirname "$0")" && pwd)
program=$(bash "$here/build.sh") || exit 1
exec timeout 60 python3 - "$program" <<'PYTHON'
import os
import socket
import subprocess
import sys
import tempfile
import time

PROGRAM = sys.argv[1]
TIMES = ["--lease", "800", "--drift", "80"]
# A file of three objects, of which the second one isn't asked for again before the store is cut.
STRIPE = 32768
PATTERN = bytes(ord("0") + at % 10 for at in range(3 * STRIPE))


def free_port():
    with socket.socket(socket.AF_INET, socket.SOCK_DGRAM) as s:
        s.bind(("127.0.0.1", 0))
        return s.getsockname()[1]


def started(words):
    """A node that has said that it is ready."""
    child = subprocess.Popen([PROGRAM, *words, *TIMES], stdin=subprocess.DEVNULL, stdout=subprocess.PIPE)
    if not child.stdout.readline().startswith(b"ready "):
        sys.exit(f"{words} isn't ready")
    return child


def command(words, directory, given=b""):
    done = subprocess.run([PROGRAM, *words, "--dir", directory, *TIMES, "--tries", "3"], input=given, stdout=subprocess.PIPE, timeout=60)
    return done.stdout, done.returncode


def ends_well(words, directory, given=b""):
    """Makes a command until it ends well: the servers learn of new OSDs at their Wakes."""
    for _ in range(100):
        wrote, status = command(words, directory, given)
        if status == 0:
            return wrote
        time.sleep(0.1)
    sys.exit(f"{words} never ended well: {wrote!r}, {status}")


def check(what, found, wanted):
    if found != wanted:
        sys.exit(f"{what}: {found!r}, and not {wanted!r}")
    print(f"{what}: ok")


def main():
    directory, metadata, device = (f"127.0.0.1:{free_port()}" for _ in range(3))
    children = []
    with tempfile.TemporaryDirectory() as folder:
        store = f"{folder}/1"
        try:
            children.append(started(["dir", "--listen", directory, "--store", f"{folder}/dir", "--key", "00"]))
            children.append(started(["mrc", "--listen", metadata, "--dir", directory, "--store", f"{folder}/mrc", "--key", "00"]))
            osd = started(["osd", "--id", "1", "--listen", device, "--dir", directory, "--store", store, "--key", "00"])
            children.append(osd)
            ends_well(["register", "901", "2", metadata], directory)
            ends_well(["register", "1", "1", device], directory)
            ends_well(["mkdir", "/v"], directory)
            ends_well(["put", "/v/f", "--replicas", "1", "--stripe", str(STRIPE)], directory, PATTERN)
            check("the whole file", ends_well(["get", "/v/f"], directory), PATTERN)
            # The bodies of the first two objects stay on the disk, and most of the third goes.
            with open(store, "rb") as file:
                last = file.read().rindex(PATTERN[2 * STRIPE:])
            os.truncate(store, last + 100)
            front = ["get", "/v/f", "--at", "0", "--len", str(2 * STRIPE)]
            check("what is still on the disk", ends_well(front, directory), PATTERN[:2 * STRIPE])
            wrote, status = command(["get", "/v/f", "--at", str(2 * STRIPE), "--len", "10"], directory)
            check("a read of what was cut off", (wrote.startswith(b"! retry"), status), (True, 20))
            said, _ = osd.communicate(timeout=20)
            check("how the OSD ended", (said, osd.returncode), (b"! disk 1\n", 5))
        finally:
            for child in children:
                child.kill()
                child.wait()


main()
PYTHON
