#!/usr/bin/env bash
# A user's session on a replicated file and then on a striped one, with a directory service, a metadata server and four OSDs as processes of
# the built program on the loopback. What each command writes was worked out by hand. Ends by itself, in some ten seconds.
set -u
here=$(cd "$(dirname "$0")" && pwd)
program=$(bash "$here/build.sh") || exit 1
exec timeout 100 python3 - "$program" <<'PYTHON'
import socket
import subprocess
import sys
import tempfile
import time

PROGRAM = sys.argv[1]
TIMES = ["--lease", "1000", "--drift", "100"]
SERVERS = [("dir", 900), ("mrc", 901)]
OSDS = [1, 2, 3, 4]

# What `replicas` writes of a file's list, and its status. The second file that is made has the number 1,000,001: of four OSDs its list begins
# at the second.
LISTED = ("1 2 3 4\n", 0)
STRIPED = ("! refused notreplicated\n", 21)


# The commands on a file that is made in this way, with what each writes and its status.
def session(path, name, layout, replicas):
    get = ["get", path, "--at", "131071", "--len", "3", "--hex"]
    return [
        (["put", path, *layout, "--pattern", "300000"], "300000\n", 0),
        (["replicas", path], *replicas),
        (get, "313233\n", 0),
        (["truncate", path, "131073"], "", 0),
        (get, "3132\n", 0),
        (["truncate", path, "200000"], "", 0),
        (get, "313200\n", 0),
        (["stat", path], "file 1 1 644 2 200000\n", 0),
        (["ls", "/v/d"], f"{name}\n", 0),
        (["rm", path], "", 0),
        (["stat", path], "! refused notfound\n", 21),
    ]


# What `nodes` writes of these rows: a node's number, kind, address and version.
def registry(addresses, versions):
    return "".join(f"{node} {2 if node == 901 else 1} {addresses[node]} {versions[node]}\n" for node in sorted(versions))


def commands(addresses):
    once = {node: 1 for node in addresses}
    return [
        (["nodes"], registry(addresses, once), 0),
        (["mkdir", "/v"], "", 0),
        (["mkdir", "/v/d"], "", 0),
        *session("/v/d/f", "f", ["--replicas", "3"], LISTED),
        *session("/v/d/g", "g", ["--striped", "4"], STRIPED),
        (["replicas", "/v/d"], "! refused isdir\n", 21),
        (["replicas", "/v/d/h"], "! refused notfound\n", 21),
        (["unregister", "4"], "", 0),
        (["nodes"], registry(addresses, {node: 1 for node in addresses if node != 4}), 0),
        (["unregister", "4"], "! refused absent\n", 21),
        (["register", "4", "1", addresses[4]], "", 0),
        (["nodes"], registry(addresses, once), 0),
        (["register", "4", "1", addresses[4]], "", 0),
        (["nodes"], registry(addresses, {**once, 4: 2}), 0),
    ]


def free_port():
    with socket.socket(socket.AF_INET, socket.SOCK_DGRAM) as s:
        s.bind(("127.0.0.1", 0))
        return s.getsockname()[1]


def started(words):
    """A node that has said that it is ready."""
    child = subprocess.Popen([PROGRAM, *words], stdin=subprocess.DEVNULL, stdout=subprocess.PIPE)
    if not child.stdout.readline().startswith(b"ready "):
        sys.exit(f"{words} isn't ready")
    return child


def command(words, directory):
    done = subprocess.run(
        [PROGRAM, *words, "--dir", directory, *TIMES], stdin=subprocess.DEVNULL, stdout=subprocess.PIPE, timeout=60
    )
    return done.stdout.decode(), done.returncode


def ends_well(words, directory):
    """Makes a command until it ends well: the servers learn of new OSDs at their Wakes."""
    for _ in range(100):
        wrote, status = command(words, directory)
        if status == 0:
            return
        time.sleep(0.1)
    sys.exit(f"{words} never ended well: {wrote!r}, {status}")


def main():
    failed = 0
    directory = f"127.0.0.1:{free_port()}"
    children = []
    with tempfile.TemporaryDirectory() as folder:
        try:
            common = ["--key", "00", *TIMES]
            children.append(started(["dir", "--listen", directory, "--store", f"{folder}/dir", *common]))
            addresses = {901: f"127.0.0.1:{free_port()}"}
            children.append(started(["mrc", "--listen", addresses[901], "--dir", directory, "--store", f"{folder}/mrc", *common]))
            for node in OSDS:
                addresses[node] = f"127.0.0.1:{free_port()}"
                words = ["osd", "--id", str(node), "--listen", addresses[node], "--dir", directory, "--store", f"{folder}/{node}"]
                children.append(started([*words, *common]))
            for node, address in addresses.items():
                ends_well(["register", str(node), "2" if node == 901 else "1", address], directory)
            ends_well(["mkdir", "/known"], directory)
            ends_well(["put", "/known/f", "--striped", "4", "--pattern", "1"], directory)
            asked = commands(addresses)
            for words, wrote, status in asked:
                got = command(words, directory)
                if got != (wrote, status):
                    print(f"{' '.join(words)}: {got[0]!r}, status {got[1]}; wanted {wrote!r}, status {status}")
                    failed = 1
        finally:
            for child in children:
                child.kill()
                child.wait()
    print(f"a session of {len(asked)} commands on the registry, a replicated and a striped file: {'failed' if failed else 'as it should be'}")
    return failed


sys.exit(main())
PYTHON
