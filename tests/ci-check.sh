#!/usr/bin/env bash
# The built program's `check`, as a table: stores whose bytes were worked out by hand, with what is written of each and its status. Each store is
# as it was afterwards, none is made, and one that a node has open is refused. Ends by itself, in some seconds.
set -u
here=$(cd "$(dirname "$0")" && pwd)
program=$(bash "$here/build.sh") || exit 1
exec timeout 60 python3 - "$program" <<'PYTHON'
import os
import subprocess
import sys
import tempfile

PROGRAM = sys.argv[1]
LIMIT = 1 << 30
HEADER = bytes.fromhex("58544653 4a524e4c 00000001")
BOOT = bytes.fromhex("a5 00000009 01 0000000000000001")
# the bytes of object 0 of a file, by a record of an old kind, which no head names
STAGE = bytes.fromhex(
    "a5 00000038 04 00000000000000000000000000000000 0000000000000001 00000000 0000000000000001 00000001 0000000000000001 00000003 616263"
)
# the journal of one boot, whose record was replaced by an equal one in an area at 83
MOVED = HEADER + BOOT + bytes.fromhex(
    "a5 00000033 08"
    "a5 0000000000000001 0000000000000053 000000000000000f"
    "00 0000000000000000 0000000000000000 0000000000000000 00"
) + BOOT + b"\0"


def report(boot, kinds, length, compacted, limit=LIMIT):
    records = "".join(f"record {kind} {count}\n" for kind, count in kinds)
    return f"boot {boot}\n{records}length {length}\nlimit {limit}\ncompacted {compacted}\n"


ONE = [("boot", 1)]
NONE = report(0, [], 13, 15)

# Stores with further words, what is written of each, and the status. A compaction makes an area of the last boot (14 bytes), of each file's
# head (98 bytes where that names nothing) and of a closed gate.
STORES = [
    ("one boot", HEADER + BOOT + b"\0", [], report(1, ONE, 27, 15), 0),
    ("two boots", HEADER + BOOT + BOOT[:-1] + b"\2\0", [], report(2, [("boot", 2)], 41, 15), 0),
    ("a body", HEADER + BOOT + STAGE + b"\0", [], report(1, [*ONE, ("oldstage", 1)], 88, 113), 0),
    ("a moved journal", MOVED, [], report(1, ONE, 98, 15), 0),
    ("a record that isn't open", HEADER + BOOT + b"\0" + STAGE[1:] + b"\0", [], report(1, ONE, 27, 15), 0),
    ("just room", HEADER + BOOT + b"\0", ["--limit", "41"], report(1, ONE, 27, 15, 41), 0),
    ("no room", HEADER + BOOT + b"\0", ["--limit", "40"], report(1, ONE, 27, 15, 40) + "! full 41 40\n", 16),
    ("no record", HEADER + b"\0", [], NONE, 0),
    ("no bytes", b"", [], NONE, 0),
    ("few bytes", b"hello", [], NONE, 0),
    ("no store", b"x" * 20, [], "! notours 7878787878787878\n", 13),
    ("another layout", HEADER[:-1] + b"\2\0\0", [], "! layout 2\n", 14),
    ("a gate and nothing else", HEADER + BOOT + b"\xa5", [], "! damaged 26\n", 18),
    ("no such kind", HEADER + BOOT + bytes.fromhex("a5 00000001 63 00"), [], "! damaged 26\n", 18),
]

failures = 0


def run(words, folder):
    return subprocess.run([PROGRAM, *words], stdin=subprocess.DEVNULL, capture_output=True, timeout=30, cwd=folder)


def check(what, good, ended):
    global failures
    if not good:
        failures += 1
        print(f"{what}: ended with {ended.returncode}, wrote {ended.stdout!r} and said {ended.stderr.decode()}")


def main():
    with tempfile.TemporaryDirectory() as folder:
        store = os.path.join(folder, "s")
        for what, held, words, wrote, status in STORES:
            with open(store, "wb") as file:
                file.write(held)
            ended = run(["check", "--store", "s", *words], folder)
            good = ended.returncode == status and ended.stdout.decode() == wrote and open(store, "rb").read() == held
            check(what, good, ended)

        ended = run(["check", "--store", "t"], folder)
        good = ended.returncode == 5 and ended.stdout == b"" and b"t" in ended.stderr
        check("a store that isn't there", good and os.listdir(folder) == ["s"], ended)

        os.remove(store)
        words = ["dir", "--listen", "127.0.0.1:0", "--store", "s", "--key", "00"]
        node = subprocess.Popen([PROGRAM, *words], stdin=subprocess.DEVNULL, stdout=subprocess.PIPE, cwd=folder)
        node.stdout.readline()
        ended = run(["check", "--store", "s"], folder)
        check("a store that a node has", ended.returncode == 5 and ended.stdout == b"! disk 1\n", ended)
        node.kill()
        node.wait()
        ended = run(["check", "--store", "s"], folder)
        check("the store of a node that was killed", ended.returncode == 0 and ended.stdout.decode() == report(1, ONE, 27, 15), ended)
    print(f"{len(STORES)} stores that are checked, one that isn't there, and one that a node has: {failures} failed")
    return 1 if failures else 0


sys.exit(main())
PYTHON
