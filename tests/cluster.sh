#!/usr/bin/env bash
# Three OSDs, the MRC and the DIR as processes of the built program on the loopback. Files are written and read while each node in
# turn is killed by SIGKILL and started again. Every byte that was acknowledged is read back, and at the end all journals load.
#   tests/cluster.sh [--rounds N] [--clients N] [--machines] [PROGRAM]
# With --clients there are this many clients at once, each with a file of its own. All of them write while a node is killed, at any moment of
# that; in one of six rounds all OSDs are killed at once.
# With --machines each node is on a machine of its own, and so are the clients: a network namespace with an address of its own, joined to the
# others by a bridge. In every second round of an OSD its machine is cut off the network and joined again, while the OSD runs. That needs
# root, and the command ip.
# Ends by itself: in 30 rounds, after about four minutes. Prints a line a round, and what it counted.
set -u
here=$(cd "$(dirname "$0")" && pwd)
rounds=30
clients=0
machines=
while [ "${1#--}" != "${1:-}" ]; do
    case $1 in
    --rounds)
        rounds=$2
        shift
        ;;
    --clients)
        clients=$2
        shift
        ;;
    --machines) machines=1 ;;
    *)
        echo "cluster.sh: there is no option $1" >&2
        exit 2
        ;;
    esac
    shift
done
program=${1:-$(bash "$here/build.sh")} || exit 1
exec python3 - "$program" "$rounds" "$clients" "$machines" <<'PYTHON'
import os
import random
import signal
import socket
import subprocess
import sys
import tempfile
import time

PROGRAM, ROUNDS, CLIENTS, MACHINES = sys.argv[1], int(sys.argv[2]), int(sys.argv[3]), bool(sys.argv[4])
NODES = [900, 901, 1, 2, 3]
OSDS = [1, 2, 3]
STRIPE = 4096
LEASE, DRIFT = 1000, 100
KEY = "00"
random.seed(20)


def free_ports(count):
    """Ports of the loopback that nobody has bound now."""
    sockets = [socket.socket(socket.AF_INET, socket.SOCK_DGRAM) for _ in range(count)]
    for s in sockets:
        s.bind(("127.0.0.1", 0))
    ports = [s.getsockname()[1] for s in sockets]
    for s in sockets:
        s.close()
    return ports


class OneMachine:
    """All processes are on this machine, and reach one another by its loopback."""

    def __init__(self):
        self.addresses = {n: f"127.0.0.1:{p}" for n, p in zip(NODES, free_ports(len(NODES)))}

    def words(self, node):
        """The words before those of a process at this node."""
        return []

    def remove(self):
        pass


class Machines:
    """A network namespace for each node and one for the client, joined by a bridge in one more. The client's number is 0."""

    def __init__(self):
        self.names = {}
        self.addresses = {}
        self.hub = self.make("hub")
        self.ip("-n", self.hub, "link", "add", "name", "bridge0", "type", "bridge")
        self.ip("-n", self.hub, "link", "set", "bridge0", "up")
        for place, node in enumerate([0] + NODES, 1):
            name = self.make(node)
            self.ip("-n", self.hub, "link", "add", "name", f"port{node}", "type", "veth", "peer", "name", "eth0", "netns", name)
            self.ip("-n", self.hub, "link", "set", f"port{node}", "master", "bridge0", "up")
            self.ip("-n", name, "address", "add", f"10.77.0.{place}/24", "dev", "eth0")
            self.ip("-n", name, "link", "set", "lo", "up")
            self.ip("-n", name, "link", "set", "eth0", "up")
            self.addresses[node] = f"10.77.0.{place}:7400"

    def ip(self, *words):
        subprocess.run(["ip", *words], check=True)

    def make(self, who):
        self.names[who] = f"xtfs-{os.getpid()}-{who}"
        self.ip("netns", "add", self.names[who])
        return self.names[who]

    def words(self, node):
        return ["ip", "netns", "exec", self.names[node]]

    def cut(self, node):
        """No packet goes to the node's machine, or comes from it."""
        self.ip("-n", self.hub, "link", "set", f"port{node}", "down")

    def join(self, node):
        self.ip("-n", self.hub, "link", "set", f"port{node}", "up")

    def remove(self):
        for name in self.names.values():
            self.ip("netns", "delete", name)


class Cluster:
    """The processes, by the number of their node, and where they are."""

    def __init__(self, folder, site):
        self.folder = folder
        self.site = site
        self.addresses = site.addresses
        self.running = {}

    def words(self, node):
        """The words that start a node."""
        role = {900: ["dir"], 901: ["mrc"]}.get(node, ["osd", "--id", str(node)])
        words = role + ["--listen", self.addresses[node], "--store", f"{self.folder}/{node}", "--key", KEY]
        if node != 900:
            words += ["--dir", self.addresses[900]]
        return words + ["--lease", str(LEASE), "--drift", str(DRIFT)]

    def start(self, node):
        """Starts a node and waits until it has said that it is ready."""
        words = self.site.words(node) + [PROGRAM] + self.words(node)
        child = subprocess.Popen(words, stdin=subprocess.DEVNULL, stdout=subprocess.PIPE)
        line = child.stdout.readline()
        if line != f"ready {node}\n".encode():
            raise SystemExit(f"node {node} isn't ready: {line!r}, status {child.wait()}")
        self.running[node] = child

    def kill(self, node):
        child = self.running.pop(node)
        child.send_signal(signal.SIGKILL)
        child.wait()

    def stop(self):
        for node in list(self.running):
            self.kill(node)

    def begin(self, words, given=b"", tries=20, client=0):
        """A client command that runs, of the client with this number."""
        source = tempfile.TemporaryFile()
        source.write(given)
        source.seek(0)
        words = words + ["--dir", self.addresses[900], "--id", str(500 + client), "--lease", str(LEASE), "--drift", str(DRIFT), "--tries", str(tries)]
        return subprocess.Popen(self.site.words(0) + [PROGRAM] + words, stdin=source, stdout=subprocess.PIPE)

    def client(self, words, given=b"", tries=20):
        """A client command: its status, and what it wrote."""
        return ended(self.begin(words, given, tries))


def ended(command):
    """The status of a command, and what it wrote, once it has ended."""
    wrote = command.communicate(timeout=300)[0]
    return command.returncode, wrote


class File:
    """A file of a client, with what each of its objects may be: what was acknowledged last, or anything that was tried since."""

    def __init__(self, path, objects, client=0):
        self.path = path
        self.objects = objects
        self.client = client
        self.may_be = [None] * objects
        self.acknowledged = 0

    def begin_put(self, cluster, tries):
        self.content = [random.randbytes(STRIPE) for _ in range(self.objects)]
        words = ["put", self.path, "--replicas", "3", "--stripe", str(STRIPE)]
        self.running = cluster.begin(words, b"".join(self.content), tries, self.client)

    def end_put(self):
        content = self.content
        status, wrote = ended(self.running)
        if status == 0:
            if wrote != f"{self.objects * STRIPE}\n".encode():
                raise SystemExit(f"put {self.path} wrote {wrote!r}")
            self.may_be = [{o} for o in content]
            self.acknowledged += 1
        elif status == 21 and b"toofew" in wrote:
            # The MRC knows the OSDs once it has listed them at a Wake after their registration.
            pass
        elif status == 20:
            for place, new in enumerate(content):
                if self.may_be[place] is not None:
                    self.may_be[place].add(new)
        else:
            raise SystemExit(f"put {self.path} ended with {status}: {wrote!r}")
        return status

    def put(self, cluster, tries):
        self.begin_put(cluster, tries)
        return self.end_put()

    def begin_get(self, cluster, tries):
        self.running = cluster.begin(["get", self.path], tries=tries, client=self.client)

    def end_get(self):
        status, wrote = ended(self.running)
        if status == 20:
            return status
        if status != 0:
            raise SystemExit(f"get {self.path} ended with {status}: {wrote!r}")
        if len(wrote) != self.objects * STRIPE:
            raise SystemExit(f"get {self.path} gave {len(wrote)} bytes")
        for place, may_be in enumerate(self.may_be):
            if wrote[place * STRIPE:(place + 1) * STRIPE] not in may_be:
                raise SystemExit(f"object {place} of {self.path} isn't what was acknowledged")
        return status

    def get(self, cluster, tries):
        self.begin_get(cluster, tries)
        return self.end_get()


def wait_for(cluster, words, what, seconds=60):
    """Tries a command until it ends well."""
    until = time.monotonic() + seconds
    while True:
        status, wrote = cluster.client(words)
        if status == 0:
            return
        if time.monotonic() > until:
            raise SystemExit(f"{what}: {status} {wrote!r}")
        time.sleep(0.2)


class Takedown:
    """Takes a node away and brings it back: it is killed and started again, or its machine is cut off the network and joined again."""

    def __init__(self, cluster, site, nodes, is_cut):
        self.cluster, self.site, self.nodes, self.is_cut = cluster, site, nodes, is_cut

    def begin(self):
        for node in self.nodes:
            if self.is_cut:
                self.site.cut(node)
            else:
                self.cluster.kill(node)

    def end(self):
        for node in self.nodes:
            if self.is_cut:
                self.site.join(node)
            else:
                self.cluster.start(node)

    def __str__(self):
        nodes = f"node {self.nodes[0]}" if len(self.nodes) == 1 else f"nodes {', '.join(map(str, self.nodes))}"
        return f"{nodes} {'cut off' if self.is_cut else 'killed'}"


def first_puts(cluster, files):
    """Each file is there."""
    for file in files:
        until = time.monotonic() + 60
        while file.put(cluster, 20) != 0:
            if time.monotonic() > until:
                raise SystemExit("the first put never ended well")
            time.sleep(0.1)


def read_again(cluster, files, counts):
    """All files are read back, by their clients at once."""
    until = time.monotonic() + 60
    left = files
    while left:
        for file in left:
            file.begin_get(cluster, 20)
        unread = [file for file in left if file.end_get() != 0]
        counts["get"] += len(left) - len(unread)
        counts["retry"] += len(unread)
        if unread and time.monotonic() > until:
            raise SystemExit(f"{unread[0].path} can't be read again")
        left = unread


def one_after_the_other(cluster, site, counts):
    """Puts and gets of some files while a node is away, one after the other."""
    files = [File(f"/v/f{n}", 4, n) for n in range(3)]
    first_puts(cluster, files)
    order = [1, 2, 3, 901, 900]
    for number in range(ROUNDS):
        node = order[number % len(order)]
        away = Takedown(cluster, site, [node], MACHINES and node < 900 and number // len(order) % 2 == 1)
        said = []
        away.begin()
        # Without the MRC or the DIR no command can end well; without an OSD each may.
        tries = 20 if node < 900 else 2
        for file in random.sample(files, 2 if node < 900 else 1):
            for name, call in [("put", file.put), ("get", file.get)]:
                status = call(cluster, tries)
                counts[name if status == 0 else "retry"] += 1
                said.append(f"{name} {status}")
                if node < 900 and status != 0:
                    raise SystemExit(f"{name} {file.path} without OSD {node} ended with {status}")
        away.end()
        read_again(cluster, files, counts)
        print(f"round {number + 1}: {away}: {', '.join(said)}; all read again", flush=True)


def all_at_once(cluster, site, counts):
    """All clients write while a node is taken away, at any moment of that, or all OSDs are killed."""
    files = [File(f"/v/f{n}", 12, n) for n in range(CLIENTS)]
    first_puts(cluster, files)
    order = [[1], [2], [3], OSDS, [901], [900]]
    for number in range(ROUNDS):
        nodes = order[number % len(order)]
        away = Takedown(cluster, site, nodes, MACHINES and nodes[0] < 900 and nodes != OSDS and number // len(order) % 2 == 1)
        tries = 20 if nodes[0] < 900 else 4
        for file in files:
            file.begin_put(cluster, tries)
        time.sleep(random.random() * 0.6)
        away.begin()
        if nodes == OSDS:
            # without them nothing ends well
            away.end()
        acknowledged = sum(file.end_put() == 0 for file in files)
        if nodes != OSDS:
            away.end()
        counts["put"] += acknowledged
        counts["retry"] += len(files) - acknowledged
        read_again(cluster, files, counts)
        print(f"round {number + 1}: {away}: {acknowledged} of {len(files)} puts acknowledged; all read again", flush=True)


def main():
    began = time.monotonic()
    site = Machines() if MACHINES else OneMachine()
    try:
        run(began, site)
    finally:
        site.remove()


def run(began, site):
    with tempfile.TemporaryDirectory() as folder:
        cluster = Cluster(folder, site)
        try:
            for node in NODES:
                cluster.start(node)
            for node, kind in [(901, 2), (1, 1), (2, 1), (3, 1)]:
                wait_for(cluster, ["register", str(node), str(kind), cluster.addresses[node]], f"register {node}")
            wait_for(cluster, ["mkdir", "/v"], "mkdir /v")
            counts = {"put": 0, "get": 0, "retry": 0}
            rounds = all_at_once if CLIENTS else one_after_the_other
            rounds(cluster, site, counts)
        finally:
            cluster.stop()
        for node in NODES:
            words = site.words(node) + [PROGRAM] + cluster.words(node) + ["--turns", "1"]
            done = subprocess.run(words, stdin=subprocess.DEVNULL, stdout=subprocess.PIPE, timeout=60)
            if done.stdout != f"ready {node}\n! turns 1\n".encode() or done.returncode != 11:
                raise SystemExit(f"the journal of {node} doesn't load: {done.stdout!r}, status {done.returncode}")
        print(f"{counts['put']} puts and {counts['get']} gets ended well while nodes were away, {counts['retry']} were to be tried "
              f"again; every acknowledged byte was read back, and all journals load; {time.monotonic() - began:.0f} s")


main()
PYTHON
