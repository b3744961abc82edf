#!/usr/bin/env bash
# The built program's `scrub`: over stores that another model of the system wrote (stores/scrubs.tar.gz), each with what is written, the status,
# and the store afterwards; and over the store of an OSD that is stopped, of which a byte is changed with dd. What is written was worked out by
# hand. Ends by itself, in some ten seconds.
set -u
here=$(cd "$(dirname "$0")" && pwd)
program=$(bash "$here/build.sh") || exit 1
exec timeout 100 python3 - "$program" "$here/stores/scrubs.tar.gz" <<'PYTHON'
import os
import socket
import subprocess
import sys
import tarfile
import tempfile
import time

PROGRAM, STORES = sys.argv[1:]
TIMES = ["--lease", "1000", "--drift", "100"]
OSDS = [1, 2, 3]
# A file of three objects, the last one with 37,856 bytes.
SIZE, OBJECT = 300_000, 131_072

failures = 0


def check(what, good, ended):
    global failures
    if not good:
        failures += 1
        print(f"{what}: ended with {ended.returncode}, wrote {ended.stdout!r} and said {ended.stderr.decode()}")


def run(words):
    return subprocess.run([PROGRAM, *words], stdin=subprocess.DEVNULL, capture_output=True, timeout=60)


def line(new, good, damaged):
    unmended = f"! unmended {damaged}\n" if damaged else ""
    return f"new {new} good {good} damaged {damaged} mended 0\n{unmended}"


def is_scrubbed(store, new, good, damaged):
    ended = run(["scrub", "--store", store])
    return ended.stdout.decode() == line(new, good, damaged) and ended.returncode == (22 if damaged else 0), ended


# ---- stores that another model wrote


# The other model puts digests one after the other, up to the one that has no room; here all are put at once, or none.
AS_IT_WAS = ["full-journal"]


def kept_stores(folder):
    with tarfile.open(STORES) as stores:
        stores.extractall(folder)
    names = sorted(os.listdir(folder))
    for name in names:
        read = lambda file: open(os.path.join(folder, name, file), "rb").read()
        store = os.path.join(folder, name, "before")
        words = [store if word == "STORE" else word for word in read("words").decode().split("\n") if word]
        was = read("before") if os.path.exists(store) else b""
        ended = run(words)
        good = ended.stdout == read("out") and ended.returncode == int(read("status")) and read("before") == (was if name in AS_IT_WAS else read("after"))
        check(name, good, ended)
    return len(names)


# ---- the store of an OSD of a site


def free_port():
    with socket.socket(socket.AF_INET, socket.SOCK_DGRAM) as s:
        s.bind(("127.0.0.1", 0))
        return s.getsockname()[1]


def started(words):
    """A node that has said that it is ready."""
    child = subprocess.Popen([PROGRAM, *words], stdin=subprocess.DEVNULL, stdout=subprocess.PIPE)
    if not child.stdout.readline().startswith(b"ready "):
        sys.exit(f"{words} isn't ready")
    return child


def stopped(child):
    child.kill()
    child.wait()


def ends_well(words, directory):
    """Makes a command until it ends well, and gives what it wrote: the servers learn of new OSDs at their Wakes."""
    for _ in range(100):
        ended = run([*words, "--dir", directory, *TIMES])
        if ended.returncode == 0:
            return ended.stdout.decode()
        time.sleep(0.1)
    sys.exit(f"{words} never ended well: {ended.stdout!r}, {ended.returncode}")


def changed_byte(store, number):
    """Changes the first byte of an object's present body with dd."""
    body = bytes(place % 251 for place in range(number * OBJECT, min(SIZE, (number + 1) * OBJECT)))
    journal = open(store, "rb").read()
    # A put that was made again wrote it again, and the last one counts.
    place = journal.rfind(body)
    if place < 0:
        sys.exit(f"object {number} isn't in the store")
    words = ["dd", f"of={store}", "bs=1", f"seek={place}", "conv=notrunc", "status=none"]
    subprocess.run(words, input=bytes([body[0] ^ 1]), check=True)


def site(folder):
    directory = f"127.0.0.1:{free_port()}"
    common = ["--key", "00", *TIMES]
    children = {}
    store = lambda node: os.path.join(folder, str(node))
    words_of = lambda node, listen: ["osd", "--id", str(node), "--listen", listen, "--dir", directory, "--store", store(node), *common]
    try:
        children[900] = started(["dir", "--listen", directory, "--store", store(900), *common])
        addresses = {node: f"127.0.0.1:{free_port()}" for node in (901, *OSDS)}
        children[901] = started(["mrc", "--listen", addresses[901], "--dir", directory, "--store", store(901), *common])
        for node in OSDS:
            children[node] = started(words_of(node, addresses[node]))
        for node, address in addresses.items():
            ends_well(["register", str(node), "2" if node == 901 else "1", address], directory)
        ends_well(["mkdir", "/v"], directory)
        ends_well(["put", "/v/f", "--replicas", "3", "--pattern", str(SIZE)], directory)

        ended = run(["scrub", "--store", store(1)])
        check("the store of an OSD that runs", ended.returncode == 5 and ended.stdout == b"! disk 1\n", ended)

        # An OSD that was slower than the majority of the three may lack the last writes: a stopped one that has all of them is looked for.
        for node in OSDS:
            stopped(children.pop(node))
        whole = [node for node in OSDS if open(store(node), "rb").read().count(bytes(place % 251 for place in range(2 * OBJECT, SIZE))) > 0]
        if not whole:
            sys.exit("no OSD has the whole file")
        node = whole[0]
        check("a first scrub", *is_scrubbed(store(node), 3, 0, 0))
        check("a second scrub", *is_scrubbed(store(node), 0, 3, 0))
        changed_byte(store(node), 1)
        check("a scrub of a damaged body", *is_scrubbed(store(node), 0, 2, 1))
        check("a scrub of it once more", *is_scrubbed(store(node), 0, 2, 1))

        # What a scrub has kept doesn't keep a node from starting: the file is served by the other two.
        for other in OSDS:
            if other != node:
                children[other] = started(words_of(other, addresses[other]))
        wrote = ends_well(["get", "/v/f", "--at", str(OBJECT), "--len", "3", "--hex"], directory)
        if wrote != "".join(f"{place % 251:02x}" for place in range(OBJECT, OBJECT + 3)) + "\n":
            sys.exit(f"the other OSDs gave {wrote!r}")
    finally:
        for child in children.values():
            stopped(child)


def main():
    with tempfile.TemporaryDirectory() as folder:
        count = kept_stores(folder)
    with tempfile.TemporaryDirectory() as folder:
        site(folder)
    print(f"{count} stores that another model wrote, and the store of an OSD with a changed byte: {failures} failed")
    return 1 if failures else 0


sys.exit(main())
PYTHON
