#!/usr/bin/env bash
# Looks for inputs on which the built program crashes, hangs, ends with a status that its job hasn't, or answers otherwise the second
# time: schedules, traces and command lines, drawn anew or changed from good ones; stores, cut and changed; datagrams to a running
# directory service, metadata server and OSD, which have to serve afterwards. Loopback alone.
#   tests/fuzz.sh [--runs N] [--seed N] [--workers N] [PROGRAM]
# Ends by itself after N runs (10,000 if none are given). They are shared among the workers (one for each processor if N isn't
# given), each of which draws its own inputs from the seed and its number. An input that was found is kept, and reported with what was
# wrong; the status is then 1.
set -u
here=$(cd "$(dirname "$0")" && pwd)
runs=10000
seed=1
workers=$(nproc)
while :; do
    case "${1:-}" in
    --runs) runs=$2 ;;
    --seed) seed=$2 ;;
    --workers) workers=$2 ;;
    *) break ;;
    esac
    shift 2
done
program=${1:-$(bash "$here/build.sh")} || exit 1
exec python3 - "$program" "$here" "$runs" "$seed" "$workers" <<'PYTHON'
import concurrent.futures
import glob
import itertools
import multiprocessing
import os
import random
import select
import signal
import socket
import subprocess
import sys
import tempfile
import threading
import time

PROGRAM, HERE, RUNS, SEED, WORKERS = sys.argv[1], sys.argv[2], *map(int, sys.argv[3:6])
# a number that was drawn is changed as one again, however many digits it has
sys.set_int_max_str_digits(0)
KEPT = tempfile.mkdtemp(prefix="xtfs-found-")
# A run takes milliseconds; one that takes this many seconds hangs.
PATIENCE = 20
# So many command lines run at once in a worker: most wait for an answer that nobody gives.
LINES_AT_ONCE = 32
counting = threading.Lock()
found = 0

# The statuses that each job may end with.
REPLAY = {0, 3, 4, 12, 15, 16}
AUDIT = {0, 3, 12, 15, 17}
WORDS = {0, 2, 3, 5, 6, 11, 12, 13, 14, 15, 16, 17, 18, 20, 21}
NODE = {5, 11, 12, 13, 14, 15, 16, 18}


def tell(what, words, data):
    """Keeps what was found, and reports it."""
    global found
    with counting:
        found += 1
        name = os.path.join(KEPT, f"{os.getpid()}-{found}")
    with open(name, "wb") as out:
        out.write(data)
    print(f"FOUND: {what}: {' '.join(words)} <{name}", flush=True)


def once(words, data, folder=None):
    """The status and the output of a run; None where it hangs."""
    if folder is None:
        return once_here(words, data)
    try:
        done = subprocess.run(
            [PROGRAM, *words], input=data, stdout=subprocess.PIPE, stderr=subprocess.DEVNULL, timeout=PATIENCE, cwd=folder
        )
    except subprocess.TimeoutExpired:
        return None
    return done.returncode, done.stdout


class Streams:
    """A worker's files in memory, which its runs have one after the other as their input and output."""

    def __init__(self):
        self.source, self.sink = os.memfd_create("source"), os.memfd_create("sink")
        self.moved = [
            (os.POSIX_SPAWN_DUP2, self.source, 0),
            (os.POSIX_SPAWN_DUP2, self.sink, 1),
            (os.POSIX_SPAWN_OPEN, 2, os.devnull, os.O_WRONLY, 0),
        ]


def once_here(words, data):
    """The same in the worker's folder. A run takes a millisecond or two, and pipes would take as long again."""
    os.ftruncate(streams.source, 0)
    os.pwrite(streams.source, data, 0)
    os.ftruncate(streams.sink, 0)
    # (the offsets are shared with the run before)
    os.lseek(streams.source, 0, os.SEEK_SET)
    os.lseek(streams.sink, 0, os.SEEK_SET)
    child = os.posix_spawn(PROGRAM, [PROGRAM, *words], os.environ, file_actions=streams.moved)
    ended = os.pidfd_open(child)
    ends = select.poll()
    ends.register(ended, select.POLLIN)
    has_ended = ends.poll(PATIENCE * 1000)
    if not has_ended:
        os.kill(child, signal.SIGKILL)
    status = os.waitstatus_to_exitcode(os.waitpid(child, 0)[1])
    os.close(ended)
    return (status, os.pread(streams.sink, os.fstat(streams.sink).st_size, 0)) if has_ended else None


def last_line(out):
    lines = out.split(b"\n")
    return lines[-2] if len(lines) > 1 else b""


def tried(words, data, statuses, is_twice=True, folder=None):
    """Runs the program, and reports what is wrong."""
    first = once(words, data, folder)
    if first is None:
        return tell("it hangs", words, data)
    status, out = first
    if status < 0:
        return tell(f"signal {-status}", words, data)
    if status not in statuses:
        return tell(f"status {status}", words, data)
    if status not in (0, 2) and not last_line(out).startswith(b"!"):
        return tell(f"status {status} without its last line", words, data)
    if is_twice and once(words, data) != first:
        return tell("another answer the second time", words, data)


# ---- changed inputs

NUMBERS = [0, 1, 2, 3, 9, 10, 255, 256, 1023, 1024, 4095, 4096, 131072, 131073, 2**31 - 1, 2**31, 2**32 - 1, 2**32, 2**40, 2**48,
           2**48 + 1, 2**62 - 1, 2**62, 2**63, 2**64 - 1, 2**64, 10**30]
ODD = [b"", b"-1", b"00", b"0x10", b"\xff", b"1e3", b"+1", b" ", b"ok", b"all", b"a5", b"zz", b"0" * 300]


def number(rng):
    return rng.choice(NUMBERS) if rng.random() < 0.5 else rng.randrange(0, rng.choice([4, 100, 5000, 2**32]))


def word(rng, old):
    """A word in the place of another."""
    kind = rng.randrange(4)
    if kind == 0:
        return str(number(rng)).encode()
    if kind == 1 and old.isdigit():
        return str(max(0, int(old) + rng.choice([-1, 1, -100, 100, 1000]))).encode()
    if kind == 2:
        return rng.choice(ODD)
    return bytes(rng.randrange(256) for _ in range(rng.randrange(4)))


def line_changed(rng, line):
    words = line.split(b" ")
    at = rng.randrange(len(words))
    kind = rng.randrange(4)
    if kind == 0:
        words[at] = word(rng, words[at])
    elif kind == 1:
        del words[at]
    elif kind == 2:
        words.insert(at, word(rng, words[at]))
    else:
        words[at] = rng.choice(words)
    return b" ".join(words)


def lines_changed(rng, text, others):
    """A text of lines, changed in some of them."""
    lines = text.split(b"\n")
    for _ in range(rng.choice([1, 1, 1, 2, 5])):
        at = rng.randrange(len(lines))
        kind = rng.randrange(7)
        if kind <= 1:
            lines[at] = line_changed(rng, lines[at])
        elif kind == 2:
            del lines[at]
        elif kind == 3:
            lines.insert(at, rng.choice(rng.choice(others).split(b"\n")))
        elif kind == 4:
            other = rng.randrange(len(lines))
            lines[at], lines[other] = lines[other], lines[at]
        elif kind == 5:
            lines.insert(at, lines[at])
        else:
            lines = lines[:at]
        lines = lines or [b""]
    return bytes_changed(rng, b"\n".join(lines)) if rng.random() < 0.1 else b"\n".join(lines)


def bytes_changed(rng, data):
    """Bytes, cut, lengthened or changed at some places."""
    data = bytearray(data)
    for _ in range(rng.choice([1, 1, 2, 4])):
        kind = rng.randrange(4)
        at = rng.randrange(len(data) + 1)
        if kind == 0:
            del data[at:]
        elif kind == 1:
            data[at:at] = bytes(rng.randrange(256) for _ in range(rng.randrange(1, 20)))
        elif kind == 2 and at < len(data):
            data[at] ^= 1 << rng.randrange(8)
        elif at < len(data):
            data[at : at + 8] = (number(rng) % 2**64).to_bytes(8, "big")
    return bytes(data)


# ---- schedules drawn anew

def schedule(rng):
    """A schedule of lines that are mostly legal."""
    osds, clients = rng.randrange(1, 5), rng.randrange(1, 3)
    lines = [f"times {rng.choice([1000, 14000])} {rng.choice([0, 100, 400])}"]
    lines += [f"osd {n}" for n in range(1, osds + 1)] + ["mrc", "dir"]
    lines += [f"client {n} 0" for n in range(10, 10 + clients)]
    files = rng.randrange(1, 3)
    for f in range(1, files + 1):
        members = rng.sample(range(1, osds + 1), rng.randrange(1, osds + 1))
        lines.append(f"file {f} {rng.choice(['rep', 'rep', 'str'])} 1024 {' '.join(map(str, members))}")
    nodes = [*range(1, osds + 1), 900, 901]
    lines += [f"start {n} {rng.choice([0, 0, 50])}" for n in nodes]
    for n in range(1, osds + 1):
        lines += [f"registry 10 set {n} 1 {n} 0", "settle 9"]
    lines += ["wake 901", "settle 9", "meta 10 1 1 mkdir /v 777", "settle 9"]
    lines += [f"tick {rng.choice([1500, 15000, 20000])}"]
    for _ in range(rng.randrange(1, 60)):
        c, f, n = rng.randrange(10, 10 + clients), rng.choice([*range(1, files + 1), 1_000_000]), rng.choice(nodes)
        path, user = rng.choice(["/v/a", "/v/a", "/v/b", "/v/d", "/v"]), rng.randrange(1, 3)
        lines.append(
            rng.choice(
                [
                    "settle 99", "settle 99", "settle 99", f"tick {rng.choice([1, 10, 500, 1000, 3000])}", f"wake {n}", f"wake {n}",
                    f"read {c} {f} {rng.randrange(3)} 0 {rng.choice([1, 16, 1024])}",
                    f"write {c} {f} {rng.randrange(3)} {rng.randrange(8)} {rng.randbytes(rng.randrange(1, 9)).hex()}",
                    f"truncate {c} {f} {rng.randrange(1, 9)} {rng.randrange(0, 3000)}",
                    f"aim {c} {f} {n}", f"again {c}", f"deliver {rng.randrange(1, 200)}", f"drop {rng.randrange(1, 200)}",
                    f"stop {n}", f"start {n} {rng.randrange(0, 40000)}", f"clock {n} {rng.randrange(0, 40000)}",
                    f"meta {c} {user} 1 create {path} 644 {rng.choice(['rep', 'str'])} {rng.randrange(1, 4)} 1024",
                    f"meta {c} {user} 1 grant {path} {rng.choice(['read', 'write', 'truncate'])}", f"meta {c} {user} 1 report {f}",
                    f"meta {c} {user} 1 {rng.choice(['stat', 'unlink', 'rmdir'])} {path}", f"meta {c} {user} 1 rename {path} /v/b",
                    f"registry {c} {rng.choice(['get 1', 'list 1 0', 'remove 1 1', 'set 1 1 a 1'])}",
                    f"crash {n} {rng.randrange(1, 5)} {rng.choice(['00', 'a5', 'ff'])}", f"cut {n} {rng.randrange(0, 4)}",
                ]
            )
        )
    return "\n".join(lines).encode() + b"\n"


# ---- words

GOOD = [
    "replay", "audit", "dir --listen 127.0.0.1:0 --store s --key 00 --turns 1", "mrc --listen 127.0.0.1:0 --dir 127.0.0.1:1 --store s --key 00 --turns 1",
    "osd --id 3 --listen 127.0.0.1:0 --dir 127.0.0.1:1 --store s --key 5ec7e7 --turns 2 --lease 100 --drift 1",
    "register 3 1 127.0.0.1:9 --dir 127.0.0.1:1 --tries 1 --turns 3 --lease 8 --drift 1",
    "mkdir /a/b --dir 127.0.0.1:1 --tries 1 --turns 2 --lease 8 --drift 1", "get /a/b --at 0 --len 9 --hex --dir 127.0.0.1:1 --tries 1 --turns 2",
    "put /a/b --replicas 3 --stripe 1024 --dir 127.0.0.1:1 --tries 1 --turns 2 --lease 8 --drift 1", "truncate /a/b 77 --dir 127.0.0.1:1 --tries 1 --turns 2",
    "stat / --dir 127.0.0.1:1 --tries 1 --turns 2 --user 4 --group 5 --id 900",
]


def words_changed(rng):
    words = rng.choice(GOOD).encode().split(b" ")
    for _ in range(rng.choice([1, 1, 2])):
        words = line_changed(rng, b" ".join(words)).split(b" ")
    words = [w.replace(b"\0", b"?") for w in words]
    if b"--turns" not in words[:-1] and words[:1] not in ([b"replay"], [b"audit"]):
        words += [b"--turns", b"1"]
    for at, w in enumerate(words[:-1]):
        # a long lease is a long wait, and so are many turns
        if w == b"--lease" and len(words[at + 1]) > 4:
            words[at + 1] = b"1000"
        if w == b"--turns" and words[at + 1].isdigit() and 9 < int(words[at + 1]) < 2**62:
            words[at + 1] = b"9"
    return words


# ---- nodes

def port():
    with socket.socket(socket.AF_INET, socket.SOCK_DGRAM) as s:
        s.bind(("127.0.0.1", 0))
        return s.getsockname()[1]


# The only address that a datagram names here, so that no node learns one outside this machine.
NAMED = b"127.0.0.1:9"


class Tap(threading.Thread):
    """Stands before a node: hands its datagrams on in both ways, and keeps those that went to it."""

    def __init__(self, node_at):
        super().__init__(daemon=True)
        host, number = node_at.split(":")
        self.node = (host, int(number))
        self.heard = []
        self.socket = socket.socket(socket.AF_INET, socket.SOCK_DGRAM)
        self.socket.bind(("127.0.0.1", 0))
        self.at = f"127.0.0.1:{self.socket.getsockname()[1]}"
        self.start()

    def run(self):
        client = None
        while True:
            piece, sender = self.socket.recvfrom(65536)
            if sender == self.node:
                if client:
                    self.socket.sendto(piece, client)
            else:
                client = sender
                self.heard.append(piece)
                self.socket.sendto(piece, self.node)


class Node:
    """A node that runs."""

    def __init__(self, folder, role, name, dir_at=None):
        self.at = f"127.0.0.1:{port()}"
        words = [*role, "--listen", self.at, "--store", os.path.join(folder, name), "--key", "00", "--lease", "1000", "--drift", "100"]
        self.words = words + (["--dir", dir_at] if dir_at else [])
        self.child = subprocess.Popen([PROGRAM, *self.words], stdin=subprocess.DEVNULL, stdout=subprocess.PIPE, stderr=subprocess.DEVNULL)
        self.child.stdout.readline()

    def socket_address(self):
        host, number = self.at.split(":")
        return host, int(number)

    def stop(self):
        self.child.send_signal(signal.SIGKILL)
        self.child.wait()


def serves(words, told, tries=1):
    """Sees that a command is carried out, at the last of this many tries."""
    for _ in range(tries):
        done = once(words, b"some bytes")
        if done is not None and done[0] == 0:
            return
        time.sleep(0.1)
    tell(f"a node doesn't serve {told}: {done}", words, b"")


def nodes_are_told(rng, folder, count):
    """Sends changed datagrams to a DIR, an MRC and an OSD. They have to serve afterwards."""
    if count == 0:
        return
    directory = Node(folder, ["dir"], "dir")
    nodes = [directory, Node(folder, ["mrc"], "mrc", directory.at), Node(folder, ["osd", "--id", "1"], "osd", directory.at)]
    taps = [Tap(node.at) for node in nodes]
    common = ["--dir", taps[0].at, "--lease", "1000", "--drift", "100", "--tries", "9", "--id", "600"]
    # an OSD is silent for a lease and the drift after its start
    time.sleep(1.2)
    serves(["register", "901", "2", taps[1].at, *common], "at first")
    serves(["register", "1", "1", taps[2].at, *common], "at first")
    serves(["mkdir", "/seen", *common], "at first")
    # the MRC learns of the OSD at a Wake
    serves(["put", "/seen/f", *common], "at first", 100)
    for tap in taps:
        tap.heard.clear()
    serves(["register", "7", "2", NAMED.decode(), *common], "at first")
    serves(["mkdir", "/v", *common], "at first")
    for words in (["put", "/v/f"], ["get", "/v/f"], ["truncate", "/v/f", "3"], ["stat", "/v/f"], ["ls", "/v"], ["mv", "/v/f", "/v/g"]):
        serves([*words, *common], "at first")
    seeds = [tap.heard for tap in taps]
    all_seeds = [piece for heard in seeds for piece in heard]
    with socket.socket(socket.AF_INET, socket.SOCK_DGRAM) as s:
        s.bind(("127.0.0.1", 0))
        for n in range(count):
            to = rng.randrange(3)
            good = rng.choice(seeds[to] if rng.random() < 0.8 else all_seeds)
            piece = bytes_changed(rng, good)[:65000] if rng.random() < 0.9 else rng.randbytes(rng.randrange(0, 200))
            if NAMED in good and NAMED not in piece:
                continue
            s.sendto(piece, nodes[to].socket_address())
            if n % 50 == 49:
                time.sleep(0.005)
    time.sleep(0.2)
    for node in nodes:
        if node.child.poll() is not None:
            tell(f"a node ended with {node.child.returncode} by datagrams", node.words, b"")
    common = ["--dir", directory.at, "--lease", "1000", "--drift", "100", "--tries", "9", "--id", "700"]
    serves(["register", "901", "2", nodes[1].at, *common], "afterwards")
    serves(["register", "1", "1", nodes[2].at, *common], "afterwards")
    for words in (["mkdir", "/after"], ["put", "/after/f"], ["get", "/after/f"]):
        serves([*words, *common], "afterwards")
    for node in nodes:
        node.stop()


def stores_are_changed(rng, folder, count):
    """Starts a node on stores that are cut and changed. It serves from what is left, or says why it doesn't."""
    path = os.path.join(folder, "seed")
    words = ["dir", "--listen", "127.0.0.1:0", "--store", path, "--key", "00", "--turns", "1", "--lease", "8", "--drift", "1"]
    for _ in range(4):
        once(words, b"")
    with open(path, "rb") as store:
        good = store.read()
    words[4] = os.path.join(folder, "changed")
    for _ in range(count):
        data = bytes_changed(rng, good)
        with open(words[4], "wb") as store:
            store.write(data)
        tried(words, b"", NODE, is_twice=False)


def lines_are_tried(rng, folder, count):
    """Tries command lines, some at once, each in a folder that no other one uses meanwhile."""
    own = threading.local()

    def tried_alone(words, data):
        if not hasattr(own, "folder"):
            own.folder = tempfile.mkdtemp(dir=folder)
        tried(words, data, WORDS, is_twice=False, folder=own.folder)

    with concurrent.futures.ThreadPoolExecutor(LINES_AT_ONCE) as pool:
        drawn = (([os.fsdecode(w) for w in words_changed(rng)], rng.choice([b"", b"times 1000 100\n"])) for _ in range(count))
        # (a part at a time, so that what is drawn and not yet tried stays little; each part waits for its slowest line)
        while part := list(itertools.islice(drawn, 10_000)):
            for done in [pool.submit(tried_alone, *it) for it in part]:
                done.result()


def work(number):
    """Does one worker's share. Returns how many inputs it found."""
    global streams
    streams = Streams()
    rng = random.Random(f"{SEED}-{number}")
    runs = RUNS // WORKERS + (number < RUNS % WORKERS)
    schedules = [open(f, "rb").read() for f in sorted(glob.glob(f"{HERE}/vectors*/*.schedule") + glob.glob(f"{HERE}/../examples/*.schedule"))]
    traces = [open(f, "rb").read() for f in sorted(glob.glob(f"{HERE}/vectors*/*.trace"))]
    shares = {"schedules changed": 0.3, "schedules drawn": 0.1, "traces changed": 0.3, "words": 0.2, "stores": 0.05, "datagrams": 0.05}
    with tempfile.TemporaryDirectory() as folder:
        os.chdir(folder)
        for what, share in shares.items():
            count, began, before = int(runs * share), time.time(), found
            if what == "schedules changed":
                for _ in range(count):
                    tried(["replay"], lines_changed(rng, rng.choice(schedules), schedules), REPLAY)
            elif what == "schedules drawn":
                for _ in range(count):
                    tried(["replay"], schedule(rng), REPLAY)
            elif what == "traces changed":
                for _ in range(count):
                    tried(["audit"], lines_changed(rng, rng.choice(traces), traces), AUDIT)
            elif what == "words":
                lines_are_tried(rng, folder, count)
            elif what == "stores":
                stores_are_changed(rng, folder, count)
            else:
                nodes_are_told(rng, folder, count * 20)
            print(f"worker {number}: {what}: {count} in {time.time() - began:.0f} s, {found - before} found", flush=True)
        os.chdir("/")
    return found


def main():
    with multiprocessing.Pool(WORKERS) as pool:
        all_found = sum(pool.map(work, range(WORKERS), chunksize=1))
    print(f"{RUNS} runs, {all_found} found", flush=True)
    if not all_found:
        os.rmdir(KEPT)
    sys.exit(1 if all_found else 0)


main()
PYTHON
