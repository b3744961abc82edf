#!/usr/bin/env bash
# Stores that the program wrote while objects had 32 bits are loaded, served, written to and compacted by the built program: what they
# keep is read back, and a compaction leaves no record of an old kind. A site on the loopback (`cluster`), from stores/32-bit-objects.tar.gz.
# Ends by itself, in some ten seconds.
set -u
here=$(cd "$(dirname "$0")" && pwd)
program=$(bash "$here/build.sh") || exit 1
exec timeout 100 python3 - "$program" "$here/stores/32-bit-objects.tar.gz" <<'PYTHON'
import os
import socket
import subprocess
import sys
import tarfile
import tempfile

PROGRAM, STORES = sys.argv[1:]
NAMES = {"dir": "s900", "mrc": "s901", "osd-1": "s1", "osd-2": "s2", "osd-3": "s3"}
OLD_KINDS = {3, 4, 5, 10, 11}
# Writes of whole objects, enough that the stores are compacted.
WRITES = 40


def pattern(at, count):
    return "".join(f"{place % 251:02x}" for place in range(at, at + count))


# Each line with what it writes.
LINES = [
    ("stat /v/c", "file 1 1 600 1 3000\n"),
    ("get /v/c --at 1020 --len 8 --hex", pattern(1020, 8) + "\n"),
    ("get /v/c --at 2990 --len 20 --hex", pattern(2990, 10) + "\n"),
    ("get /v/b --at 100000 --len 20 --hex", pattern(100000, 11) + "\n"),
    *[("put /v/b --pattern 100012", "100012\n")] * WRITES,
    ("get /v/b --at 100000 --len 20 --hex", pattern(100000, 12) + "\n"),
    ("put /v/wide --replicas 3 --pattern 1000", "1000\n"),
    ("get /v/wide --at 990 --len 20 --hex", pattern(990, 10) + "\n"),
    ("get /v/c --at 0 --len 4 --hex", pattern(0, 4) + "\n"),
]


def free_ports(count):
    """The first of this many ports that nobody has."""
    for first in range(23000, 60000, count + 7):
        sockets = []
        try:
            for port in range(first, first + count):
                s = socket.socket(socket.AF_INET, socket.SOCK_DGRAM)
                sockets.append(s)
                s.bind(("127.0.0.1", port))
            return first
        except OSError:
            pass
        finally:
            for s in sockets:
                s.close()
    sys.exit("no free ports")


def records(journal, place):
    """The kinds of the records from a gate on, with the place after each."""
    while journal[place] == 0xA5:
        length = int.from_bytes(journal[place + 1 : place + 5], "big")
        yield journal[place + 5], place + 5
        place += 5 + length


def kinds_that_count(path):
    """The kinds of the records that count, and whether the journal was compacted (docs/formats.md)."""
    journal = open(path, "rb").read()
    for kind, at in records(journal, 12):
        if kind == 8:
            slots = [journal[at + 1 : at + 26], journal[at + 26 : at + 51]]
            counting = [(int.from_bytes(s[1:9], "big"), int.from_bytes(s[9:17], "big")) for s in slots if s[0] == 0xA5]
            if counting:
                return {kind for kind, _ in records(journal, max(counting)[1])}, True
    return {kind for kind, _ in records(journal, 12)} - {8}, False


def main():
    with tempfile.TemporaryDirectory() as folder:
        with tarfile.open(STORES) as stores:
            for member in stores.getmembers():
                with open(os.path.join(folder, NAMES[member.name]), "wb") as store:
                    store.write(stores.extractfile(member).read())
        before = {n: kinds_that_count(os.path.join(folder, f"s{n}")) for n in (1, 2, 3)}
        words = ["cluster", "--osds", "3", "--port", str(free_ports(5)), "--store", os.path.join(folder, "s"), "--key", "5ec7e7"]
        done = subprocess.run(
            [PROGRAM, *words, "--lease", "1000", "--drift", "100"],
            input="".join(f"{line}\n" for line, _ in LINES).encode(),
            stdout=subprocess.PIPE,
            timeout=90,
        )
        after = {n: kinds_that_count(os.path.join(folder, f"s{n}")) for n in (1, 2, 3)}
    failed = []
    wanted = "".join(f"{wrote}= 0\n" for _, wrote in LINES)
    if done.returncode != 0 or done.stdout.decode() != wanted:
        failed.append(f"status {done.returncode}, and it wrote:\n{done.stdout.decode()}wanted:\n{wanted}")
    if not all(kinds & OLD_KINDS for kinds, _ in before.values()):
        failed.append(f"the kept stores have no old kinds: {before}")
    for n, (kinds, compacted) in after.items():
        if not compacted or kinds & OLD_KINDS:
            failed.append(f"OSD {n}, {'compacted' if compacted else 'not compacted'}, has the kinds {sorted(kinds)}")
    print("\n".join(failed) if failed else f"stores with objects of 32 bits: {len(LINES)} commands, as they should be")
    return 1 if failed else 0


sys.exit(main())
PYTHON
