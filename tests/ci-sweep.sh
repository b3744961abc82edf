#!/usr/bin/env bash
# The built program's `sweep`. First a table: the stores in stores/sweep.tar.gz, with what is written of each, the status, and the stores'
# bytes afterwards, which two models worked out that were written independently of this repository. Then an administrator's: a site with ten
# files on three OSDs, of which five are removed. Ten minutes pass by the clocks in a copy of the metadata server's store, which the script
# sets back. Then each OSD is swept, also by a process that is killed at twenty moments; none loses anything, and all serve the other five.
# Ends by itself, in half a minute.
set -u
here=$(cd "$(dirname "$0")" && pwd)
program=$(bash "$here/build.sh") || exit 1
exec timeout 110 python3 - "$program" "$here/stores/sweep.tar.gz" <<'PYTHON'
import hashlib
import os
import shutil
import socket
import subprocess
import sys
import tarfile
import tempfile
import time

PROGRAM, STORES = sys.argv[1:]
KEY = ["--key", "5ec7e7"]
TIMES = ["--lease", "1000", "--drift", "100"]
# The life of a capability, two leases and the drift, in milliseconds.
GRACE = 600_000 + 2 * 1000 + 100
FILES = [f"f{n}" for n in range(10)]
REMOVED, STAYING = FILES[::2], FILES[1::2]
SIZE = 300_000
KILLS = 20

failures = 0


def check(what, good, saw=""):
    global failures
    if not good:
        failures += 1
        print(f"{what}: {saw}")


def run(words, folder):
    return subprocess.run([PROGRAM, *words], stdin=subprocess.DEVNULL, stdout=subprocess.PIPE, timeout=60, cwd=folder)


def digest(path):
    return hashlib.sha256(open(path, "rb").read()).hexdigest() if os.path.exists(path) else None


# ---- stores whose outcome was worked out


def tell(case, name):
    """What a file of the case holds, if it is there."""
    return case[name].decode() if name in case else None


def sweep_case(name, case):
    with tempfile.TemporaryDirectory() as folder:
        for file in ("store", "mrc"):
            if file in case:
                with open(os.path.join(folder, file), "wb") as f:
                    f.write(case[file])
        places = {"STORE": "store", "MRCSTORE": "mrc"}
        ended = run([places.get(word, word) for word in tell(case, "words").split("\n")[:-1]], folder)
        wrote = ended.stdout.decode()
        check(name, (wrote, ended.returncode) == (tell(case, "out"), int(tell(case, "status"))), f"{ended.returncode}, {wrote!r}")
        for file in ("store", "mrc"):
            after = tell(case, f"{file}.after.sha256")
            if after is not None:
                check(f"{name}, {file}", digest(os.path.join(folder, file)) == after.split()[0], "other bytes")


def sweep_cases():
    cases = {}
    with tarfile.open(STORES) as stores:
        for member in stores.getmembers():
            if member.isfile():
                name, file = member.name.split("/")[-2:]
                cases.setdefault(name, {})[file] = stores.extractfile(member).read()
    for name, case in sorted(cases.items()):
        sweep_case(name, case)
    return len(cases)


# ---- a site


def free_port():
    with socket.socket(socket.AF_INET, socket.SOCK_DGRAM) as s:
        s.bind(("127.0.0.1", 0))
        return s.getsockname()[1]


class Site:
    """A directory service, a metadata server and three OSDs, each a process, with their stores in a folder."""

    def __init__(self, folder):
        self.folder = folder
        self.ports = {node: free_port() for node in (900, 901, 1, 2, 3)}
        self.directory = ["--dir", f"127.0.0.1:{self.ports[900]}"]
        self.nodes = []

    def start(self):
        roles = {900: ["dir"], 901: ["mrc", *self.directory]}
        for node, port in self.ports.items():
            words = [*roles.get(node, ["osd", "--id", str(node), *self.directory]), "--listen", f"127.0.0.1:{port}", "--store", f"s{node}"]
            child = subprocess.Popen(
                [PROGRAM, *words, *KEY, *TIMES], stdin=subprocess.DEVNULL, stdout=subprocess.PIPE, cwd=self.folder
            )
            self.nodes.append(child)
            if not child.stdout.readline().startswith(b"ready "):
                sys.exit(f"{words} isn't ready")

    def stop(self):
        for child in self.nodes:
            child.kill()
            child.wait()
        self.nodes = []

    def command(self, *words):
        ended = run([*words, *self.directory, *TIMES], self.folder)
        return ended.stdout.decode(), ended.returncode


def pattern(at, count):
    return "".join(f"{place % 251:02x}" for place in range(at, at + count)) + "\n"


def fill(site):
    """Ten files, of which five are removed."""
    for node, port in site.ports.items():
        if node != 900:
            ended = site.command("register", str(node), "2" if node == 901 else "1", f"127.0.0.1:{port}")
            check(f"register {node}", ended == ("", 0), ended)
    check("mkdir", site.command("mkdir", "/v") == ("", 0))
    for name in FILES:
        for _ in range(30):
            ended = site.command("put", f"/v/{name}", "--replicas", "3", "--pattern", str(SIZE))
            if not ended[0].startswith("! refused toofew"):
                break
            time.sleep(0.2)
        check(f"put {name}", ended == (f"{SIZE}\n", 0), ended)
    for name in REMOVED:
        check(f"rm {name}", site.command("rm", f"/v/{name}") == ("", 0))


def serves(site):
    for name in REMOVED:
        ended = site.command("stat", f"/v/{name}")
        check(f"stat {name}", ended == ("! refused notfound\n", 21), ended)
    for name in STAYING:
        ended = site.command("get", f"/v/{name}", "--at", "262140", "--len", "40", "--hex")
        check(f"get {name}", ended == (pattern(262140, 40), 0), ended)


# ---- stores of the site


def records(journal, place):
    """The payloads from a gate on."""
    while journal[place] == 0xA5:
        length = int.from_bytes(journal[place + 1 : place + 5], "big")
        yield place + 5, journal[place + 5 : place + 5 + length]
        place += 5 + length


def counting(path):
    """The records that count (docs/formats.md)."""
    journal = open(path, "rb").read()
    for _, payload in records(journal, 12):
        if payload[0] == 8:
            slots = [payload[1:26], payload[26:51]]
            counting = [(int.from_bytes(s[1:9], "big"), int.from_bytes(s[9:17], "big")) for s in slots if s[0] == 0xA5]
            if counting:
                return [payload for _, payload in records(journal, max(counting)[1])]
    return [payload for _, payload in records(journal, 12) if payload[0] != 8]


def aged(store, copy, by):
    """A copy of a metadata server's store whose records have clocks that are earlier by so much."""
    journal = bytearray(open(store, "rb").read())
    for at, payload in list(records(bytes(journal), 12)):
        if payload[0] == 7:
            clock = int.from_bytes(payload[13:21], "big")
            journal[at + 13 : at + 21] = (clock - by).to_bytes(8, "big")
    with open(copy, "wb") as file:
        file.write(journal)


def sweep(folder, store, server):
    ended = run(["sweep", "--store", store, "--mrc-store", server, *KEY, *TIMES], folder)
    return ended.stdout.decode(), ended.returncode


def needed(folder, store):
    """How long the area of the store's journal is once it is compacted."""
    lines = run(["check", "--store", store], folder).stdout.decode().splitlines()
    return int(dict(line.rsplit(" ", 1) for line in lines)["compacted"])


def killed(folder, store, whole, took):
    """Sweeps that are killed at so many moments, each on a copy, and then done again: all that is to stay is there."""
    counts = []
    for moment in range(KILLS):
        shutil.copy(os.path.join(folder, store), os.path.join(folder, "k"))
        words = ["sweep", "--store", "k", "--mrc-store", "aged", *KEY, *TIMES]
        child = subprocess.Popen([PROGRAM, *words], stdin=subprocess.DEVNULL, stdout=subprocess.PIPE, cwd=folder)
        time.sleep(took * moment / KILLS)
        child.kill()
        child.wait()
        loads = run(["check", "--store", "k"], folder).returncode
        check(f"a store whose sweep was killed, {moment}", loads == 0, loads)
        left = len(REMOVED) - sum(payload[0] == 19 for payload in counting(os.path.join(folder, "k")))
        wrote, status = sweep(folder, "k", "aged")
        again = int(wrote.split()[1]) if status == 0 else None
        good = status == 0 and again in (0, left) and wrote == f"swept {again} kept {len(STAYING)} unknown 0\n"
        check(f"a sweep after one that was killed, {moment}", good, (wrote, status))
        check(f"what stays then, {moment}", counting(os.path.join(folder, "k")) == whole, "other records")
        counts.append(again)
    return counts


def session():
    with tempfile.TemporaryDirectory() as folder:
        site = Site(folder)
        site.start()
        try:
            fill(site)
            serves(site)
            ended = sweep(folder, "s1", "s901")
            check("a store that a node has", ended == ("! disk 1\n", 5), ended)
        finally:
            site.stop()
        stores = [f"s{node}" for node in (1, 2, 3)]
        for name in (*stores, "s901"):
            shutil.copy(os.path.join(folder, name), os.path.join(folder, f"old-{name}"))
        held = sum(len(payload) for payload in counting(os.path.join(folder, "s1")))

        # nothing is old enough, and stores of other roles say nothing of any file
        for server, wrote in [("s901", "swept 0 kept 10 unknown 0\n"), ("s2", "swept 0 kept 0 unknown 10\n"), ("s1", "swept 0 kept 0 unknown 10\n")]:
            shutil.copy(os.path.join(folder, "old-s1"), os.path.join(folder, "s1"))
            ended = sweep(folder, "s1", server)
            check(f"a sweep by {server}", ended == (wrote, 0), ended)
            check(f"what stays after a sweep by {server}", sum(payload[0] == 15 for payload in counting(os.path.join(folder, "s1"))) == 10)
        aged(os.path.join(folder, "s901"), os.path.join(folder, "aged"), GRACE - 60_000)
        ended = sweep(folder, "s1", "aged")
        check("a sweep that comes too early", ended == ("swept 0 kept 10 unknown 0\n", 0), ended)
        ended = sweep(folder, "s901", "s901")
        check("a sweep of the metadata server's store", ended == ("swept 0 kept 0 unknown 0\n", 0), ended)
        check("what stays of the metadata server's store", counting(os.path.join(folder, "s901")) != [] and open(os.path.join(folder, "aged"), "rb").read() != b"")

        # ten minutes later
        aged(os.path.join(folder, "old-s901"), os.path.join(folder, "aged"), GRACE)
        moments = []
        for store in stores:
            shutil.copy(os.path.join(folder, f"old-{store}"), os.path.join(folder, store))
            before = needed(folder, store)
            start = time.monotonic()
            ended = sweep(folder, store, "aged")
            took = time.monotonic() - start
            check(f"a sweep of {store}", ended == ("swept 5 kept 5 unknown 0\n", 0), ended)
            check(f"the length of {store}", 0.45 * before < needed(folder, store) < 0.55 * before, (before, needed(folder, store)))
            whole = counting(os.path.join(folder, store))
            ended = sweep(folder, store, "aged")
            check(f"a second sweep of {store}", ended == ("swept 0 kept 5 unknown 0\n", 0), ended)
            check(f"what stays of {store}", counting(os.path.join(folder, store)) == whole, "other records")
            moments += killed(folder, f"old-{store}", whole, took)
        check("the moments of the kills", moments.count(len(REMOVED)) < len(moments), moments)
        shutil.copy(os.path.join(folder, "k"), os.path.join(folder, "s3"))
        site.start()
        try:
            serves(site)
        finally:
            site.stop()
        return held


def main():
    cases = sweep_cases()
    session()
    print(f"{cases} sweeps as they were worked out, and those of a site of three OSDs, {3 * KILLS} of them killed: {failures} failed")
    return 1 if failures else 0


sys.exit(main())
PYTHON
