#!/usr/bin/env bash
# What a person is told on standard error. Words that are refused: each wrong command line ends with 2 and `! usage`, and standard error names
# the wrong word and how the command is called. Options may come from the environment. A node isn't started on another node's store. A
# node says when it is ready and when it ends; a call of the system that fails is told with its reason; and a status is told with what
# helps. Ends by itself, in some ten seconds.
set -u
here=$(cd "$(dirname "$0")" && pwd)
program=$(bash "$here/build.sh") || exit 1
exec timeout 120 python3 - "$program" <<'PYTHON'
import os
import re
import socket
import subprocess
import sys
import tempfile
import time

PROGRAM = sys.argv[1]
SITE = ["--dir", "127.0.0.1:9"]
NODE = ["--listen", "127.0.0.1:0", "--store", "s", "--key", "00"]

# Wrong words, and what standard error has to say of them.
REFUSED = [
    (["bake"], ["bake"]),
    (["put"], ["<path>", "--dir"]),
    (["put", "/a"], ["--dir"]),
    (["get", "/a", "/b", *SITE], ["/b"]),
    (["mkdir", "/a", *SITE, "--colour", "red"], ["--colour"]),
    (["ls", "/a", *SITE, *SITE], ["--dir"]),
    (["put", "/a", *SITE, "--replicas", "0"], ["'0'", "'replicas'", "1 to 9"]),
    (["put", "/a", *SITE, "--replicas", "three"], ["'three'", "'replicas'"]),
    (["put", "/a", *SITE, "--striped", "10"], ["'10'", "'striped'"]),
    (["put", "/a", *SITE, "--replicas", "2", "--striped", "2"], ["--replicas", "--striped"]),
    (["put", "/a", *SITE, "--stripe", "1500"], ["--stripe", "1024"]),
    (["put", "/a", *SITE, "--stripe", "512"], ["'512'", "'stripe'"]),
    (["get", "/a", *SITE, "--at", "5"], ["--at", "--len"]),
    (["get", "/a", *SITE, "--at", "-1", "--len", "1"], ["-1"]),
    (["chmod", "/a", "888", *SITE], ["'888'", "'mode'", "octal"]),
    (["truncate", "/a", "1e6", *SITE], ["'1e6'", "'size'"]),
    (["register", "900", "1", "127.0.0.1:7", *SITE], ["900", "--dir"]),
    (["register", "1", "3", "127.0.0.1:7", *SITE], ["'3'", "'kind'", "1 to 2"]),
    (["unregister", "900", *SITE], ["900", "--dir"]),
    (["unregister", "0", *SITE], ["'0'", "'node'"]),
    (["unregister", *SITE], ["<node>"]),
    (["nodes", "1", *SITE], ["'1'"]),
    (["nodes"], ["--dir"]),
    (["replicas", *SITE], ["<path>"]),
    (["replicas", "/a", "1", *SITE], ["'1'"]),
    (["scrub"], ["--store"]),
    (["scrub", "--store", "s", "--limit", "0"], ["'0'", "'limit'"]),
    (["sweep", "--store", "s", "--key", "00"], ["--mrc-store"]),
    (["sweep", "--store", "s", "--mrc-store", "t", "--key", "0g"], ["'0g'", "'key'", "hex"]),
    (["stat", "/a", *SITE, "--lease", "100", "--drift", "60"], ["--drift", "--lease"]),
    (["stat", "/a", *SITE, "--tries", "0"], ["'0'", "'tries'"]),
    (["osd", "--id", "1", "--dir", "127.0.0.1:9", "--listen", "127.0.0.1:0", "--store", "s", "--key", "0g"], ["'0g'", "'key'", "hex"]),
    (["osd", *NODE, *SITE], ["--id"]),
    (["make", "7", "4097"], ["'4097'", "'size'", "4096"]),
    (["ls", "/a", "--dir", "7400"], ["'7400'", "'dir'", "HOST:PORT", "Usage: ls"]),
    (["ls", "/a", "--dir", "127.0.0.1:70000"], ["'127.0.0.1:70000'", "'dir'"]),
    (["register", "1", "1", "127.0.0.1", *SITE], ["'127.0.0.1'", "'addr'", "HOST:PORT", "Usage: register"]),
    (["osd", "--id", "1", *NODE, "--dir", "here"], ["'here'", "'dir'", "Usage: osd"]),
]

# The times of the sites here: a lease is over soon.
SHORT = ["--lease", "400", "--drift", "40"]
TIME = r"\d{4}-\d\d-\d\dT\d\d:\d\d:\d\dZ"

# Words that ask for help, and what it begins with or has.
HELP = [
    ([], ["Commands:", "put", "osd"]),
    (["help"], ["Commands:", "put", "osd"]),
    (["--help"], ["Commands:", "put", "osd"]),
    (["help", "put"], ["Usage: put", "--replicas", "--tries"]),
    (["put", "--help"], ["Usage: put", "--replicas"]),
    (["--version"], ["xtfs", "frames"]),
]

failures = 0


def run(words, folder, **environment):
    env = {name: value for name, value in os.environ.items() if not name.startswith("XTFS_")}
    return subprocess.run([PROGRAM, *words], stdin=subprocess.DEVNULL, capture_output=True, timeout=30, cwd=folder, env={**env, **environment})


def check(what, good, ended):
    global failures
    if not good:
        failures += 1
        print(f"{what}: ended with {ended.returncode}, wrote {ended.stdout!r} and said {ended.stderr.decode()}")


def free_port():
    with socket.socket(socket.AF_INET, socket.SOCK_DGRAM) as s:
        s.bind(("127.0.0.1", 0))
        return s.getsockname()[1]


def started(words, folder):
    """A node that has said that it is ready."""
    child = subprocess.Popen([PROGRAM, *words], stdin=subprocess.DEVNULL, stdout=subprocess.PIPE, stderr=subprocess.PIPE, cwd=folder)
    if not child.stdout.readline().startswith(b"ready "):
        sys.exit(f"{words} isn't ready")
    return child


def check_calls(folder):
    """Calls of the system that fail: a bind, an attach, and the start of a child."""
    node = ["dir", "--key", "00", "--turns", "3", *SHORT]
    with socket.socket(socket.AF_INET, socket.SOCK_DGRAM) as taken:
        taken.bind(("127.0.0.1", 0))
        address = "127.0.0.1:%d" % taken.getsockname()[1]
        ended = run([*node, "--listen", address, "--store", "taken"], folder)
        good = ended.returncode == 6 and ended.stdout == b"! link 1\n" and f"cannot bind {address}: Address already in use".encode() in ended.stderr
        check("an address that another process has", good, ended)
        port = taken.getsockname()[1]
        cluster = ["cluster", "--osds", "1", "--port", str(port), "--store", "c", "--key", "00", "--tries", "1", "--lease", "40", "--drift", "4"]
        if port <= 65_000:
            ended = run(cluster, folder)
            good = ended.returncode == 20 and f"cannot bind {address}: Address already in use".encode() in ended.stderr
            check("a cluster on a port that another process has", good, ended)
    ended = run([*node, "--listen", "7400", "--store", "malformed"], folder)
    good = ended.returncode == 6 and ended.stdout == b"! link 1\n" and b"cannot bind 7400: " in ended.stderr
    check("an address to listen at that is none", good, ended)
    ended = run([*node, "--listen", "127.0.0.1:0", "--store", "no/folder"], folder)
    good = ended.returncode == 5 and ended.stdout == b"! disk 1\n" and b"cannot open the store no/folder: No such file or directory" in ended.stderr
    check("a store in a folder that isn't there", good, ended)
    first = started(["dir", "--listen", "127.0.0.1:0", "--store", "shared", "--key", "00"], folder)
    ended = run([*node, "--listen", "127.0.0.1:0", "--store", "shared"], folder)
    first.kill()
    first.wait()
    good = ended.returncode == 5 and ended.stdout == b"! disk 1\n" and b"another process has the store shared" in ended.stderr
    check("a store that another process has", good, ended)
    ended = subprocess.run(
        ["no/program", "cluster", "--osds", "1", "--port", str(min(free_port(), 65_000)), "--store", "d", "--key", "00"],
        executable=PROGRAM, stdin=subprocess.DEVNULL, capture_output=True, timeout=30, cwd=folder,
    )
    good = ended.returncode == 10 and ended.stdout == b"! child 1\n" and b"cannot start no/program: No such file or directory" in ended.stderr
    check("a program that can't be started again", good, ended)


def check_node(folder):
    """A node is ready, and ends."""
    ended = run(["dir", "--listen", "127.0.0.1:0", "--store", "n", "--key", "00", "--turns", "3", *SHORT], folder)
    lines = [f"{TIME} xtfs: dir 900 is ready: it listens at 127.0.0.1:0 and keeps n", f"{TIME} xtfs: dir 900 has ended with status 11", "xtfs: .*--turns.*"]
    good = ended.returncode == 11 and ended.stdout == b"ready 900\n! turns 3\n" and re.fullmatch("\n".join(lines) + "\n", ended.stderr.decode())
    check("a node that ends", good, ended)


def check_hints(folder):
    """What helps after a status, at a site whose OSD has another key than its metadata server."""
    directory, metadata, device = (f"127.0.0.1:{free_port()}" for _ in range(3))
    site = ["--dir", directory, *SHORT]
    ended = run(["nodes", *site, "--tries", "1"], folder)
    check("nobody answers", ended.returncode == 20 and b"--dir" in ended.stderr and b"--id" in ended.stderr, ended)
    ended = run(["nodes", *SHORT, "--dir", "localhost:9", "--tries", "1"], folder)
    check("a name", ended.returncode == 20 and b"localhost:9: a name isn't looked up" in ended.stderr, ended)
    nodes = [
        started(["dir", "--listen", directory, "--store", "h900", "--key", "00", *SHORT], folder),
        started(["mrc", "--listen", metadata, "--dir", directory, "--store", "h901", "--key", "00", *SHORT], folder),
        started(["osd", "--id", "1", "--listen", device, "--dir", directory, "--store", "h1", "--key", "01", *SHORT], folder),
    ]
    try:
        for words in (["register", "901", "2", metadata], ["register", "1", "1", device]):
            ended = run([*words, *site], folder)
            check(words, ended.returncode == 0 and ended.stderr == b"", ended)
        ended = run(["unregister", "7", *site], folder)
        check("a node that isn't registered", ended.returncode == 21 and b"isn't registered" in ended.stderr, ended)
        time.sleep(0.2)
        ended = run(["mkdir", "/v", *site], folder)
        check("a volume", ended.returncode == 0 and ended.stderr == b"", ended)
        ended = run(["put", "/f", "--pattern", "3", *site], folder)
        check("a file that is in no volume", ended.returncode == 21 and ended.stdout == b"! refused namebad\n" and b"volume" in ended.stderr, ended)
        ended = run(["put", "/v/f", "--replicas", "3", "--pattern", "3", *site], folder)
        check("too few OSDs", ended.returncode == 21 and ended.stdout == b"! refused toofew 1\n" and b"fewer OSDs" in ended.stderr, ended)
        ended = run(["put", "/v/f", "--pattern", "3", *site], folder)
        good = ended.returncode == 21 and ended.stdout == b"! refused denied 1\n" and b"another key" in ended.stderr
        check("an OSD with another key", good, ended)
    finally:
        for node in nodes:
            node.kill()
            node.wait()


def main():
    with tempfile.TemporaryDirectory() as folder:
        for words, told in REFUSED + HELP:
            ended = run(words, folder)
            said = ended.stderr.decode()
            good = ended.returncode == 2 and ended.stdout == b"! usage\n" and all(word in said for word in told) and not os.listdir(folder)
            check(words, good, ended)

        # Without --dir the words are refused; the variable sets it, and nobody answers there.
        ended = run(["stat", "/a", "--tries", "1", "--lease", "20", "--drift", "2"], folder, XTFS_DIR=f"127.0.0.1:{free_port()}")
        check("XTFS_DIR", ended.returncode == 20, ended)
        ended = run(["nodes", "--tries", "1", "--lease", "20", "--drift", "2"], folder, XTFS_DIR=f"127.0.0.1:{free_port()}")
        check("nodes of XTFS_DIR", ended.returncode == 20 and ended.stdout == b"! retry 900=silent\n", ended)
        ended = run(["stat", "/a", "--tries", "1"], folder, XTFS_DIR="127.0.0.1:9", XTFS_LEASE="0")
        check("XTFS_LEASE", ended.returncode == 2 and b"'lease'" in ended.stderr, ended)

        # An OSD has a store; as another node it isn't started on it, and the store is as it was.
        words = ["osd", "--dir", "127.0.0.1:9", "--listen", "127.0.0.1:0", "--store", "s", "--key", "00", "--lease", "20", "--drift", "2", "--turns", "2"]
        ended = run([*words, "--id", "1"], folder)
        check("an OSD", ended.returncode == 11 and ended.stdout.startswith(b"ready 1\n"), ended)
        store = os.path.join(folder, "s")
        before = open(store, "rb").read()
        for other in ([*words, "--id", "2"], ["mrc", *words[1:]], ["dir", *words[3:]]):
            ended = run(other, folder)
            good = ended.returncode == 13 and ended.stdout == b"" and b"osd 1" in ended.stderr
            check(f"{other} on the store of OSD 1", good and open(store, "rb").read() == before, ended)
        ended = run([*words, "--id", "1"], folder)
        check("the OSD again", ended.returncode == 11, ended)
        check_calls(folder)
        check_node(folder)
        check_hints(folder)
    print(f"{len(REFUSED)} wrong command lines, help, the environment, other nodes' stores, failed calls and hints: {failures} failed")
    return 1 if failures else 0


sys.exit(main())
PYTHON
