#!/usr/bin/env bash
# How much 1, 4 and 16 clients at once get done: three OSDs, the MRC and the DIR as processes of the built program on the loopback, and each
# client a process with a replicated file of its own.
#   bench/clients.sh [PROGRAM]
# For each number of clients it prints, of all of them together: how many writes of 4 KiB and of 128 KiB are acknowledged a second, how many
# pieces of these sizes are read a second, and how many files are made a second (a `put` of one byte at a new path, a whole command each).
# A client makes its writes one after the other, so what one write takes is the number of clients divided by the writes a second. Beside each
# writing stands how many syncs an OSD makes for a write: counted by `strace`, or by `perf` where that is the one installed, in a run of
# its own, since counting makes a node slow. Where neither is installed, or neither may look at the nodes, it says so. Then, where `etcd`
# is installed, the same for three nodes of it in the same folder: values of both sizes, put and read by as many processes, each at a key of
# its own over one connection to the JSON gateway. Last, what a bare write and fdatasync of 4 KiB takes in that folder. Each rate is
# the best of three.
set -eu
here=$(cd "$(dirname "$0")" && pwd)
program=${1:-$(bash "$here/../tests/build.sh")}
exec python3 - "$program" <<'PYTHON'
import base64
import http.client
import json
import multiprocessing
import os
import re
import shutil
import signal
import socket
import subprocess
import sys
import tempfile
import time

PROGRAM = sys.argv[1]
TIMES = ["--lease", "2000", "--drift", "200"]
CLIENTS = (1, 4, 16)
# The sizes of writes, and how many of them all clients together make in a run.
WRITES = {4096: 2048, 131072: 256}
# how many files all clients together make in a run
MADE = 64
OSDS = (1, 2, 3)


def free_ports(count):
    sockets = [socket.socket(socket.AF_INET, socket.SOCK_DGRAM) for _ in range(count)]
    for s in sockets:
        s.bind(("127.0.0.1", 0))
    ports = [s.getsockname()[1] for s in sockets]
    for s in sockets:
        s.close()
    return ports


def best(work):
    """The shortest time of three, in seconds."""
    times = []
    for _ in range(3):
        began = time.monotonic()
        work()
        times.append(time.monotonic() - began)
    return min(times)


class Site:
    """The nodes of a site, and commands of its clients."""

    def __init__(self, folder):
        self.folder = folder
        nodes = [(900, ["dir"]), (901, ["mrc"])] + [(n, ["osd", "--id", str(n)]) for n in OSDS]
        self.addresses = {n: f"127.0.0.1:{p}" for (n, _), p in zip(nodes, free_ports(len(nodes)))}
        self.children = {}
        self.made = 0
        for node, role in nodes:
            words = role + ["--listen", self.addresses[node], "--store", f"{folder}/{node}", "--key", "00"] + TIMES
            words += ["--dir", self.addresses[900]] if node != 900 else []
            child = subprocess.Popen([PROGRAM] + words, stdin=subprocess.DEVNULL, stdout=subprocess.PIPE)
            child.stdout.readline()
            self.children[node] = child
        for node, kind in [(901, 2)] + [(n, 1) for n in OSDS]:
            self.must(["register", str(node), str(kind), self.addresses[node]])
        self.must(["mkdir", "/v"])
        self.must(["put", "/v/first", "--pattern", "1", "--replicas", "3"])

    def stop(self):
        for child in self.children.values():
            child.kill()
            child.wait()

    def begun(self, words, client):
        """A command of this client, which runs."""
        words = [PROGRAM] + words + ["--dir", self.addresses[900], "--id", str(500 + client), "--tries", "60"] + TIMES
        return subprocess.Popen(words, stdin=subprocess.DEVNULL, stdout=subprocess.DEVNULL)

    def must(self, words):
        """Makes a command until it ends well: the servers learn of new OSDs at their Wakes."""
        for _ in range(100):
            if self.begun(words, 0).wait() == 0:
                return
            time.sleep(0.1)
        sys.exit(f"{words} never ended well")

    def all_at_once(self, commands):
        """One command of each client, all at the same time."""
        running = [self.begun(words, client) for client, words in enumerate(commands)]
        for child in running:
            if child.wait() != 0:
                sys.exit(f"{child.args} ended with {child.returncode}")

    def writing(self, clients, size, each):
        """Each client makes so many writes of this size, one after the other."""
        file = ["--pattern", str(size * each), "--stripe", str(size), "--replicas", "3"]
        return lambda: self.all_at_once([["put", f"/v/w{size}-{client}"] + file for client in range(clients)])

    def reading(self, clients, size):
        """Each client reads its file."""
        return lambda: self.all_at_once([["get", f"/v/w{size}-{client}"] for client in range(clients)])

    def making(self, clients, each):
        """Each client makes so many files, one command after the other."""
        def work():
            for _ in range(each):
                paths = range(self.made, self.made + clients)
                self.made += clients
                self.all_at_once([["put", f"/v/m{path}", "--pattern", "1", "--replicas", "3"] for path in paths])
        return work


class Counting:
    """Counts the syncs of the OSDs while something is done."""

    def __init__(self, site):
        self.processes = [site.children[n].pid for n in OSDS]
        self.report = f"{site.folder}/syncs"
        self.how = next((how for how in (self.by_strace, self.by_perf) if how(lambda: None) is not None), None)

    def name(self):
        return {None: "nothing", self.by_strace: "strace", self.by_perf: "perf"}[self.how]

    def run(self, words, work):
        """What a program reports that looks at the OSDs while the work is done, or None where it can't."""
        if not shutil.which(words[0]):
            return None
        tracer = subprocess.Popen(words, stdin=subprocess.DEVNULL, stdout=subprocess.DEVNULL, stderr=subprocess.DEVNULL)
        time.sleep(1)
        if tracer.poll() is not None:
            return None
        work()
        tracer.send_signal(signal.SIGINT)
        tracer.wait()
        with open(self.report) as file:
            return file.read()

    def by_strace(self, work):
        words = ["strace", "-c", "-f", "-e", "trace=fdatasync", "-o", self.report]
        for process in self.processes:
            words += ["-p", str(process)]
        report = self.run(words, work)
        if report is None:
            return None
        found = re.search(r"^\s*[\d.]+\s+[\d.]+\s+\d+\s+(\d+)\s+(?:\d+\s+)?fdatasync$", report, re.M)
        return int(found[1]) if found else 0

    def by_perf(self, work):
        processes = ",".join(map(str, self.processes))
        report = self.run(["perf", "stat", "-x", ",", "-e", "syscalls:sys_enter_fdatasync", "-p", processes, "-o", self.report], work)
        found = re.search(r"^(\d+),", report or "", re.M)
        return int(found[1]) if found else None

    def a_write(self, work, writes):
        """How many syncs one OSD makes for a write, in words."""
        if self.how is None:
            return "syncs not counted"
        return f"{self.how(work) / len(OSDS) / writes:.2f} syncs a write at each OSD"


def measure_site(site, counting):
    for clients in CLIENTS:
        for size, all_writes in WRITES.items():
            each = all_writes // clients
            writing = site.writing(clients, size, each)
            # the files are there, and each has its primary
            writing()
            wrote = each * clients / best(writing)
            syncs = counting.a_write(writing, each * clients)
            read = each * clients / best(site.reading(clients, size))
            print(f"{clients:>2} clients, {size >> 10:>3} KiB: {wrote:>6.0f} writes a second ({clients / wrote * 1e3:.2f} ms each), {syncs}; "
                  f"{read:>6.0f} reads a second", flush=True)
        each = MADE // clients
        made = each * clients / best(site.making(clients, each))
        print(f"{clients:>2} clients: {made:>6.1f} files made a second", flush=True)


def etcd_call(link, name, fields):
    link.request("POST", f"/v3/kv/{name}", json.dumps(fields))
    answer = link.getresponse()
    text = answer.read()
    if answer.status != 200:
        raise OSError(text)


def etcd_client(port, key, size, puts, count):
    """One client: so many puts of a value of this size, or reads of it."""
    link = http.client.HTTPConnection("127.0.0.1", port, timeout=60)
    fields = {"key": base64.b64encode(key.encode()).decode()}
    if puts:
        fields["value"] = base64.b64encode(os.urandom(size)).decode()
    for _ in range(count):
        etcd_call(link, "put" if puts else "range", fields)


def measure_etcd(folder):
    ports = free_ports(2 * len(OSDS))
    own, peers = ports[:len(OSDS)], ports[len(OSDS):]
    cluster = ",".join(f"n{n}=http://127.0.0.1:{port}" for n, port in enumerate(peers))
    children = []

    def clients_do(clients, size, puts, each):
        running = [multiprocessing.Process(target=etcd_client, args=(own[0], f"{size}-{n}", size, puts, each)) for n in range(clients)]
        for child in running:
            child.start()
        for child in running:
            child.join()
            if child.exitcode != 0:
                sys.exit("a client of etcd failed")

    try:
        for n, (port, peer) in enumerate(zip(own, peers)):
            here, there = f"http://127.0.0.1:{port}", f"http://127.0.0.1:{peer}"
            words = ["--name", f"n{n}", "--data-dir", f"{folder}/etcd-{n}", "--listen-client-urls", here, "--advertise-client-urls", here,
                     "--listen-peer-urls", there, "--initial-advertise-peer-urls", there, "--initial-cluster", cluster, "--log-level", "error"]
            children.append(subprocess.Popen(["etcd"] + words, stdout=subprocess.DEVNULL, stderr=subprocess.DEVNULL))
        for tries in range(100):
            try:
                etcd_client(own[0], "first", 1, True, 1)
                break
            except (OSError, http.client.HTTPException):
                time.sleep(0.2)
        else:
            sys.exit("etcd never answered")
        for clients in CLIENTS:
            for size, all_writes in WRITES.items():
                each = all_writes // clients
                wrote = each * clients / best(lambda: clients_do(clients, size, True, each))
                read = each * clients / best(lambda: clients_do(clients, size, False, each))
                print(f"etcd, {clients:>2} clients, {size >> 10:>3} KiB: {wrote:>6.0f} puts a second ({clients / wrote * 1e3:.2f} ms each); "
                      f"{read:>6.0f} reads a second", flush=True)
    finally:
        for child in children:
            child.kill()
            child.wait()


def bare(folder, count):
    """Writes of 4 KiB to a file, each with its fdatasync, one after the other."""
    file = os.open(f"{folder}/bare", os.O_CREAT | os.O_WRONLY | os.O_TRUNC)
    for _ in range(count):
        os.write(file, bytes(4096))
        os.fdatasync(file)
    os.close(file)


def main():
    with tempfile.TemporaryDirectory() as folder:
        site = Site(folder)
        try:
            counting = Counting(site)
            if counting.how is None:
                print("neither strace nor perf can count syncs here: none is installed, or none may look at another process")
            else:
                print(f"syncs are counted by {counting.name()}")
            measure_site(site, counting)
        finally:
            site.stop()
        if shutil.which("etcd"):
            measure_etcd(folder)
        else:
            print("etcd isn't installed")
        count = 256
        print(f"bare write and fdatasync of 4 KiB: {best(lambda: bare(folder, count)) / count * 1e3:.2f} ms")


main()
PYTHON
