#!/usr/bin/env bash
# How long a scrub takes, and how much memory: a store with a file of 8,000 objects of 128 KiB (1,000 MiB, which a journal of 1 GiB has room for),
# beside `sha256sum` of the same bytes.
#   bench/scrub.sh [PROGRAM]
# The store is written here, as docs/formats.md has it. The first scrub keeps 8,000 digests, the second one compares. Each is run on one
# processor and on two; what is printed is the time by the clock, its ratio to that of `sha256sum` on one processor, and the greatest resident memory. It takes a
# gigabyte of disk in the folder for temporary files, and ends by itself, in a minute or two.
set -eu
here=$(cd "$(dirname "$0")" && pwd)
program=${1:-$(bash "$here/../tests/build.sh")}
exec python3 - "$program" <<'PYTHON'
import os
import random
import shutil
import struct
import subprocess
import sys
import tempfile
import time

PROGRAM = sys.argv[1]
OBJECTS, BODY = 8_000, 131_072
FILE = bytes(16) + struct.pack(">Q", 1)
EPOCH = struct.pack(">QI", 1, 1)
STAMP = EPOCH + struct.pack(">Q", 1)


def record(payload):
    return b"\xa5" + struct.pack(">I", len(payload)) + payload


def head():
    """A head that names each object in one version."""
    versions = b"".join(struct.pack(">Q", number) + STAMP for number in range(OBJECTS))
    last, mark, sessions = struct.pack(">IQ", 10, 1), struct.pack(">QQ", 0, OBJECTS * BODY), struct.pack(">I", 0)
    return b"\x0f" + FILE + EPOCH + STAMP + last + mark + struct.pack(">I", OBJECTS) + versions + sessions


def write_store(path):
    random.seed(1)
    with open(path, "wb") as store:
        store.write(bytes.fromhex("58544653 4a524e4c 00000001"))
        store.write(record(b"\x01" + struct.pack(">Q", 1)))
        store.write(record(b"\x06" + FILE + struct.pack(">IBIBI", 1, 1, BODY, 1, 1)))
        store.write(record(b"\x02" + FILE + EPOCH))
        for number in range(OBJECTS):
            store.write(record(b"\x0e" + FILE + struct.pack(">Q", number) + STAMP + struct.pack(">I", BODY) + random.randbytes(BODY)))
        store.write(record(head()))
        store.write(b"\x00")


def timed(processors, words):
    """The seconds that a command takes on these processors, its greatest resident memory in MiB, and what it writes."""
    start = time.monotonic()
    child = subprocess.Popen(["taskset", "-c", processors, *words], stdin=subprocess.DEVNULL, stdout=subprocess.PIPE)
    wrote = child.stdout.read().decode()
    _, status, usage = os.wait4(child.pid, 0)
    seconds = time.monotonic() - start
    if status != 0:
        sys.exit(f"{words} ended with {os.waitstatus_to_exitcode(status)}: {wrote!r}")
    return seconds, usage.ru_maxrss / 1024, wrote


def main():
    with tempfile.TemporaryDirectory() as folder:
        made, store = os.path.join(folder, "made"), os.path.join(folder, "store")
        write_store(made)
        timed("0", ["sha256sum", made])
        base, _, _ = timed("0", ["sha256sum", made])
        print(f"{os.path.getsize(made) / (1 << 20):.0f} MiB; sha256sum on one processor: {base:.2f} s")
        for processors in ("0", "0,1"):
            shutil.copyfile(made, store)
            for which, wanted in (("first", f"new {OBJECTS} good 0"), ("second", f"new 0 good {OBJECTS}")):
                seconds, memory, wrote = timed(processors, [PROGRAM, "scrub", "--store", store])
                if wrote != f"{wanted} damaged 0 mended 0\n":
                    sys.exit(f"the {which} scrub wrote {wrote!r}")
                count = len(processors.split(","))
                print(f"{which} scrub, {count} processor(s): {seconds:.2f} s, {seconds / base:.2f} times that, {memory:.0f} MiB")


main()
PYTHON
