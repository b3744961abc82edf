#!/usr/bin/env bash
# A user's session in a cluster of one command: `cluster` of the built program starts a directory service, a metadata server and four OSDs on
# the loopback, carries out its source's lines on a replicated file and then on a striped one, and stops its nodes. What each line writes
# was worked out by hand. Afterwards no node runs. Ends by itself, in some seconds.
set -u
here=$(cd "$(dirname "$0")" && pwd)
program=$(bash "$here/build.sh") || exit 1
exec timeout 100 python3 - "$program" <<'PYTHON'
import os
import socket
import subprocess
import sys
import tempfile

PROGRAM = sys.argv[1]
OSDS = 4


# What is done with a file that is made in this way, with what each line writes and its status.
def session(path, name, layout):
    get = f"get {path} --at 131071 --len 3 --hex"
    return [
        (f"put {path} {layout} --pattern 300000", "300000\n", 0),
        (get, "313233\n", 0),
        (f"truncate {path} 131073", "", 0),
        (get, "3132\n", 0),
        (f"truncate {path} 200000", "", 0),
        (get, "313200\n", 0),
        (f"stat {path}", "file 1 1 644 2 200000\n", 0),
        ("ls /v/d", f"{name}\n", 0),
        (f"rm {path}", "", 0),
        (f"stat {path}", "! refused notfound\n", 21),
    ]


# what `nodes` writes of a cluster from this port on, without these OSDs
def registry(first, gone=()):
    rows = [f"{osd} 1 127.0.0.1:{first + 1 + osd} 1" for osd in range(1, OSDS + 1) if osd not in gone]
    return "".join(f"{row}\n" for row in [*rows, f"901 2 127.0.0.1:{first + 1} 1"])


def lines(first):
    return [
        ("nodes", registry(first), 0),
        *LINES,
        ("unregister 4", "", 0),
        ("nodes", registry(first, [4]), 0),
        ("unregister 4", "! refused absent\n", 21),
        ("unregister 0", "! usage\n", 2),
    ]


LINES = [
    ("mkdir /v", "", 0),
    ("mkdir /v/d", "", 0),
    *session("/v/d/f", "f", "--replicas 3"),
    *session("/v/d/g", "g", "--striped 4"),
    # no client commands, and one without its pattern
    ("replay", "! usage\n", 2),
    ("", "! usage\n", 2),
    ("ls  /v", "! usage\n", 2),
    ("put /v/h", "! usage\n", 2),
    ("ls /v", "d\n", 0),
]


def free_ports(count):
    """The first of this many ports that nobody has."""
    for first in range(21000, 60000, count + 7):
        sockets = []
        try:
            for port in range(first, first + count):
                s = socket.socket(socket.AF_INET, socket.SOCK_DGRAM)
                sockets.append(s)
                s.bind(("127.0.0.1", port))
            return first
        except OSError:
            pass
        finally:
            for s in sockets:
                s.close()
    sys.exit("no free ports")


def are_free(first, count):
    for port in range(first, first + count):
        with socket.socket(socket.AF_INET, socket.SOCK_DGRAM) as s:
            try:
                s.bind(("127.0.0.1", port))
            except OSError:
                return False
    return True


def main():
    first, count = free_ports(OSDS + 2), OSDS + 2
    source = "".join(f"{line}\n" for line, _, _ in lines(first))
    wanted = "".join(f"{wrote}= {status}\n" for _, wrote, status in lines(first))
    with tempfile.TemporaryDirectory() as folder:
        words = ["cluster", "--osds", str(OSDS), "--port", str(first), "--store", os.path.join(folder, "s"), "--key", "00"]
        done = subprocess.run(
            [PROGRAM, *words, "--lease", "1000", "--drift", "100"], input=source.encode(), stdout=subprocess.PIPE, timeout=90
        )
        stores = sorted(os.listdir(folder))
    failed = 0
    if done.returncode != 0 or done.stdout.decode() != wanted:
        print(f"status {done.returncode}, and it wrote:\n{done.stdout.decode()}wanted:\n{wanted}")
        failed = 1
    nodes = ["s900", "s901", *(f"s{n}" for n in range(1, OSDS + 1))]
    if stores != sorted([*nodes, *(f"{node}.node" for node in nodes)]):
        print(f"the stores are {stores}")
        failed = 1
    if not are_free(first, count):
        print("a node still runs")
        failed = 1
    print(f"a cluster that carries out {len(lines(first))} lines: {'failed' if failed else 'as it should be'}")
    return failed


sys.exit(main())
PYTHON
