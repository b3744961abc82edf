#!/usr/bin/env bash
# One OSD, the MRC and the DIR as processes of the built program on the loopback. Two files are written over and over, so that the OSD's
# records are rewritten again and again, while it is killed by SIGKILL at any moment and started again. Every byte that was acknowledged
# is read back each time, the store stays short, and at the end it loads.
#   tests/compaction.sh [--rounds N] [--clients N] [PROGRAM]
# With --clients there are this many clients at once, each with a file of its own, and all of them write when the OSD is killed.
# Ends by itself: in 40 rounds, after about three minutes. Prints a line a round, and what it counted.
set -u
here=$(cd "$(dirname "$0")" && pwd)
rounds=40
clients=0
while [ "${1#--}" != "${1:-}" ]; do
    case $1 in
    --rounds) rounds=$2 ;;
    --clients) clients=$2 ;;
    *)
        echo "compaction.sh: there is no option $1" >&2
        exit 2
        ;;
    esac
    shift 2
done
program=${1:-$(bash "$here/build.sh")} || exit 1
exec python3 - "$program" "$rounds" "$clients" <<'PYTHON'
import os
import random
import signal
import socket
import subprocess
import sys
import tempfile
import time

PROGRAM, ROUNDS, CLIENTS = sys.argv[1], int(sys.argv[2]), int(sys.argv[3])
STRIPE, OBJECTS = 32768, 6
LEASE, DRIFT = 800, 80
KEY = "00"
# The bytes from which on records are rewritten, and what a file takes with all that is said of it, at most.
LEAST, FILE = 1 << 20, 1 << 18
OPEN_GATE, SUPERBLOCK = 0xA5, 8
random.seed(32)


def free_ports(count):
    """Ports of the loopback that nobody has bound now."""
    sockets = [socket.socket(socket.AF_INET, socket.SOCK_DGRAM) for _ in range(count)]
    for s in sockets:
        s.bind(("127.0.0.1", 0))
    ports = [s.getsockname()[1] for s in sockets]
    for s in sockets:
        s.close()
    return ports


def areas_made(path):
    """How often the records of a store were rewritten: the greatest number of an open slot of its superblock; 0 where it has none."""
    with open(path, "rb") as file:
        journal = file.read()
    place = 12
    while place + 5 < len(journal) and journal[place] == OPEN_GATE:
        size = int.from_bytes(journal[place + 1:place + 5], "big")
        payload = journal[place + 5:place + 5 + size]
        if payload[:1] == bytes([SUPERBLOCK]):
            slots = [payload[1:26], payload[26:51]]
            return max([int.from_bytes(s[1:9], "big") for s in slots if s[:1] == bytes([OPEN_GATE])], default=0)
        place += 5 + size
    return 0


class Cluster:
    """The processes, by the number of their node."""

    def __init__(self, folder):
        self.folder = folder
        names = [900, 901, 1]
        self.addresses = {n: f"127.0.0.1:{p}" for n, p in zip(names, free_ports(len(names)))}
        self.running = {}

    def store(self, node):
        return f"{self.folder}/{node}"

    def words(self, node):
        """The words that start a node."""
        role = {900: ["dir"], 901: ["mrc"]}.get(node, ["osd", "--id", str(node)])
        words = role + ["--listen", self.addresses[node], "--store", self.store(node), "--key", KEY]
        if node != 900:
            words += ["--dir", self.addresses[900]]
        return words + ["--lease", str(LEASE), "--drift", str(DRIFT)]

    def start(self, node):
        """Starts a node and waits until it has said that it is ready."""
        child = subprocess.Popen([PROGRAM] + self.words(node), stdin=subprocess.DEVNULL, stdout=subprocess.PIPE)
        line = child.stdout.readline()
        if line != f"ready {node}\n".encode():
            raise SystemExit(f"node {node} isn't ready: {line!r}, status {child.wait()}")
        self.running[node] = child

    def kill(self, node):
        child = self.running.pop(node)
        child.send_signal(signal.SIGKILL)
        child.wait()

    def stop(self):
        for node in list(self.running):
            self.kill(node)

    def client(self, words, tries=20, client=0):
        """The words of a command of the client with this number."""
        ours = ["--dir", self.addresses[900], "--id", str(500 + client), "--lease", str(LEASE), "--drift", str(DRIFT), "--tries", str(tries)]
        return [PROGRAM] + words + ours


class File:
    """A file of a client, with what each of its objects may be: what was acknowledged last, or anything that was tried since."""

    def __init__(self, path, client):
        self.path = path
        self.client = client
        self.may_be = [set() for _ in range(OBJECTS)]

    def begin(self, cluster):
        """Begins to write it anew."""
        self.content = [random.randbytes(STRIPE) for _ in range(OBJECTS)]
        given = tempfile.TemporaryFile()
        given.write(b"".join(self.content))
        given.seek(0)
        words = ["put", self.path, "--replicas", "1", "--stripe", str(STRIPE)]
        self.put = subprocess.Popen(cluster.client(words, client=self.client), stdin=given, stdout=subprocess.PIPE)

    def end(self):
        """Whether what was begun is acknowledged."""
        wrote = self.put.communicate(timeout=120)[0]
        status = self.put.returncode
        if status == 0:
            self.may_be = [{o} for o in self.content]
        elif status == 20:
            for may_be, new in zip(self.may_be, self.content):
                if may_be:
                    may_be.add(new)
        elif not (status == 21 and b"toofew" in wrote):
            raise SystemExit(f"put {self.path} ended with {status}: {wrote!r}")
        return status == 0

    def read(self, cluster):
        """Reads it back."""
        until = time.monotonic() + 60
        while True:
            done = subprocess.run(cluster.client(["get", self.path], client=self.client), stdin=subprocess.DEVNULL, stdout=subprocess.PIPE, timeout=300)
            if done.returncode == 0:
                break
            if done.returncode != 20 or time.monotonic() > until:
                raise SystemExit(f"get {self.path} ended with {done.returncode}: {done.stdout!r}")
        if len(done.stdout) != OBJECTS * STRIPE:
            raise SystemExit(f"get {self.path} gave {len(done.stdout)} bytes")
        for place, may_be in enumerate(self.may_be):
            if done.stdout[place * STRIPE:(place + 1) * STRIPE] not in may_be:
                raise SystemExit(f"object {place} of {self.path} isn't what was acknowledged")


def wait_for(call, what, seconds=60):
    until = time.monotonic() + seconds
    while not call():
        if time.monotonic() > until:
            raise SystemExit(f"{what} never ended well")
        time.sleep(0.1)


def main():
    began = time.monotonic()
    with tempfile.TemporaryDirectory() as folder:
        cluster = Cluster(folder)
        store = cluster.store(1)
        try:
            for node in [900, 901, 1]:
                cluster.start(node)
            for words in [["register", "901", "2", cluster.addresses[901]], ["register", "1", "1", cluster.addresses[1]], ["mkdir", "/v"]]:
                wait_for(lambda: subprocess.run(cluster.client(words), stdin=subprocess.DEVNULL, stdout=subprocess.DEVNULL).returncode == 0, words)
            files = [File(f"/v/f{n}", n) for n in range(CLIENTS or 2)]

            def begin(some):
                for file in some:
                    file.begin(cluster)

            def end(some):
                """How many of them are acknowledged."""
                return sum([file.end() for file in some])

            def written(file):
                file.begin(cluster)
                return file.end()

            for file in files:
                wait_for(lambda: written(file), "the first put")
            puts, longest, before = len(files), 0, 0
            for number in range(ROUNDS):
                # Some are written in peace, so that the records grow; in the last ones the OSD is killed.
                mixed = random.sample(files, len(files))
                last, peaceful = (files, files) if CLIENTS else (mixed[:1], mixed[1:])
                for _ in range(random.randrange(1, 4)):
                    begin(peaceful)
                    puts += end(peaceful)
                begin(last)
                time.sleep(random.random() * 0.3)
                cluster.kill(1)
                longest = max(longest, os.path.getsize(store))
                cluster.start(1)
                acknowledged = end(last)
                puts += acknowledged
                for each in files:
                    each.read(cluster)
                made = areas_made(store)
                if made < before:
                    raise SystemExit(f"{before} areas were made, and now {made}")
                print(f"round {number + 1}: killed, {acknowledged} of {len(last)} puts acknowledged; all read again; "
                      f"{os.path.getsize(store)} bytes, rewritten {made} times", flush=True)
                before = made
        finally:
            cluster.stop()
        for node in [900, 901, 1]:
            done = subprocess.run([PROGRAM] + cluster.words(node) + ["--turns", "1"], stdin=subprocess.DEVNULL,
                                  stdout=subprocess.PIPE, timeout=60)
            if done.stdout != f"ready {node}\n! turns 1\n".encode() or done.returncode != 11:
                raise SystemExit(f"the journal of {node} doesn't load: {done.stdout!r}, status {done.returncode}")
        made = areas_made(store)
        written_bytes = puts * OBJECTS * STRIPE
        if made == 0 and written_bytes > LEAST + 4 * len(files) * FILE:
            raise SystemExit("the records were never rewritten")
        print(f"{puts} puts of {OBJECTS * STRIPE} bytes were acknowledged and all read back over {ROUNDS} kills; the records were rewritten "
              f"{made} times; the store had {longest} bytes at most, for {written_bytes} that were written; {time.monotonic() - began:.0f} s")


main()
PYTHON
