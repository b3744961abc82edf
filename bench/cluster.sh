#!/usr/bin/env bash
# How fast a cluster on the loopback stores and reads files: three OSDs, the MRC and the DIR as processes of the built program.
#   bench/cluster.sh [PROGRAM]
# Prints the rate of `put` (of its standard input) and of `get` for files of 64 MiB with one and with three replicas, the time of one of
# 1,024 writes of 1 KiB with three, the time of a `put` of 1 KiB and of a `get` of it (a whole command each: two lists, a grant, the write
# or the read, a report), and beside them what a bare write and fdatasync of pieces of 128 KiB takes in the same folder, and what a plain
# program takes that sends the same datagrams and makes the same calls of the disk, and nothing else: for each write the primary sends an
# update to each other replica, each replica writes it and syncs it twice, and the client is answered once a majority has. Where `etcd` is
# installed, the same for three nodes of it in the same folder: values of 128 KiB and of 16 bytes, put and read one after the other over
# one connection to its JSON gateway. Each figure is the best of three.
set -eu
here=$(cd "$(dirname "$0")" && pwd)
program=${1:-$(bash "$here/../tests/build.sh")}
model=$(mktemp -d)
trap 'rm -rf "$model"' EXIT
cat >"$model/model.c" <<'MODEL'
/* model REPLICAS SIZE COUNT FOLDER: COUNT writes of SIZE bytes to REPLICAS replicas, each a process with a socket and a file. */
#include <arpa/inet.h>
#include <fcntl.h>
#include <signal.h>
#include <stdlib.h>
#include <string.h>
#include <stdio.h>
#include <sys/socket.h>
#include <sys/wait.h>
#include <unistd.h>

enum { PART = 32768, HEAD = 40, SHORT = 100, MORE = 200, MOST = 9 };
static int sockets[MOST + 1];
static struct sockaddr_in places[MOST + 1];
static char buffer[65536], bytes[1 << 18];

/* Sends a message of this many bytes in parts, each of which begins with the number of its write. */
static void post(int from, int to, int number, size_t size)
{
    memcpy(bytes, &number, sizeof number);
    for (size_t at = 0; at < size; at += PART) {
        size_t some = size - at < PART ? size - at : PART;
        if (sendto(sockets[from], bytes, some + HEAD, 0, (struct sockaddr *)&places[to], sizeof places[to]) < 0)
            exit(1);
    }
}

/* Receives until this many bytes of long messages have come, or this many short ones of this write. */
static void take(int at, int number, size_t *had, size_t size, int acks)
{
    while (acks > 0 || *had < size) {
        int of;
        ssize_t got = recv(sockets[at], buffer, sizeof buffer, 0) - HEAD;
        if (got < 0)
            exit(1);
        memcpy(&of, buffer, sizeof of);
        if (got == SHORT) {
            acks -= of == number;
        } else {
            memcpy(bytes + sizeof of, buffer + HEAD, (size_t)got);
            *had += (size_t)got;
        }
    }
}

/* Appends a record as a journal does: the piece and a sync, its gate and a sync. */
static void append(int file, off_t *end, size_t size)
{
    char gate = (char)0xa5;
    if (pwrite(file, bytes, size, *end + 1) != (ssize_t)size || fdatasync(file) || pwrite(file, &gate, 1, *end) != 1 || fdatasync(file))
        exit(1);
    *end += (off_t)size + 5;
}

static void serve(int node, int replicas, size_t size, const char *folder)
{
    char path[4096];
    off_t end = 12;
    size_t had = 0;
    snprintf(path, sizeof path, "%s/model-%d", folder, node);
    int file = open(path, O_RDWR | O_CREAT | O_TRUNC, 0600);
    if (file < 0)
        exit(1);
    for (int number = 1;; number++) {
        take(node, number, &had, size + MORE, 0);
        had -= size + MORE;
        if (node == 1)
            for (int peer = 2; peer <= replicas; peer++)
                post(1, peer, number, size + MORE);
        append(file, &end, size + SHORT);
        if (node == 1)
            /* with its own a majority has it */
            take(1, number, &had, 0, replicas / 2);
        post(node, node == 1 ? 0 : 1, number, SHORT);
    }
}

int main(int words, char **word)
{
    if (words != 5)
        return 2;
    int replicas = atoi(word[1]), count = atoi(word[3]), room = 4 << 20;
    size_t size = strtoul(word[2], 0, 10);
    pid_t children[MOST + 1];
    if (replicas < 1 || replicas > MOST || size > 131072)
        return 2;
    for (int node = 0; node <= replicas; node++) {
        socklen_t length = sizeof places[node];
        sockets[node] = socket(AF_INET, SOCK_DGRAM, 0);
        setsockopt(sockets[node], SOL_SOCKET, SO_RCVBUF, &room, sizeof room);
        places[node].sin_family = AF_INET;
        places[node].sin_addr.s_addr = htonl(INADDR_LOOPBACK);
        if (bind(sockets[node], (struct sockaddr *)&places[node], sizeof places[node]) ||
            getsockname(sockets[node], (struct sockaddr *)&places[node], &length))
            return 1;
    }
    for (int node = 1; node <= replicas; node++)
        if (!(children[node] = fork()))
            serve(node, replicas, size, word[4]);
    for (int number = 1; number <= count; number++) {
        size_t had = 0;
        post(0, 1, number, size + MORE);
        take(0, number, &had, 0, 1);
    }
    for (int node = 1; node <= replicas; node++) {
        kill(children[node], SIGKILL);
        waitpid(children[node], 0, 0);
    }
    return 0;
}
MODEL
gcc -O2 -o "$model/model" "$model/model.c"
python3 - "$program" "$model/model" <<'PYTHON'
import base64
import http.client
import json
import os
import shutil
import socket
import subprocess
import sys
import tempfile
import time

PROGRAM, MODEL = sys.argv[1:]
SIZE = 64 << 20
PIECE = 131072
TIMES = ["--lease", "2000", "--drift", "200"]


def free_ports(count):
    sockets = [socket.socket(socket.AF_INET, socket.SOCK_DGRAM) for _ in range(count)]
    for s in sockets:
        s.bind(("127.0.0.1", 0))
    ports = [s.getsockname()[1] for s in sockets]
    for s in sockets:
        s.close()
    return ports


def best(work):
    times = []
    for _ in range(3):
        began = time.monotonic()
        work()
        times.append(time.monotonic() - began)
    return min(times)


def bare(folder):
    """A write and an fdatasync for each piece, one after the other."""
    piece = bytes(PIECE)
    file = os.open(f"{folder}/bare", os.O_CREAT | os.O_WRONLY | os.O_TRUNC)
    for _ in range(SIZE // PIECE):
        os.write(file, piece)
        os.fdatasync(file)
    os.close(file)


def modelled(replicas, size, count, folder):
    """The seconds that a write takes in the plain program."""
    words = [MODEL, str(replicas), str(size), str(count), folder]
    return best(lambda: subprocess.run(words, check=True, timeout=120)) / count


def etcd(folder):
    """What a put and a get of a value take in three nodes of etcd, for each size of a value."""
    ports = free_ports(6)
    peers = ",".join(f"n{n}=http://127.0.0.1:{ports[n + 3]}" for n in range(3))
    children = []
    try:
        for n in range(3):
            own, peer = f"http://127.0.0.1:{ports[n]}", f"http://127.0.0.1:{ports[n + 3]}"
            words = ["--name", f"n{n}", "--data-dir", f"{folder}/etcd-{n}", "--listen-client-urls", own, "--advertise-client-urls", own,
                     "--listen-peer-urls", peer, "--initial-advertise-peer-urls", peer, "--initial-cluster", peers, "--log-level", "error"]
            children.append(subprocess.Popen(["etcd"] + words, stdout=subprocess.DEVNULL, stderr=subprocess.DEVNULL))

        def call(link, name, fields):
            link.request("POST", f"/v3/kv/{name}", json.dumps(fields))
            answer = link.getresponse()
            text = answer.read()
            if answer.status != 200:
                raise OSError(text)

        def each(link, name, fields, count):
            def work():
                for _ in range(count):
                    call(link, name, fields)
            return best(work) / count * 1e3

        key = base64.b64encode(b"key").decode()
        for tries in range(100):
            try:
                link = http.client.HTTPConnection("127.0.0.1", ports[0], timeout=5)
                call(link, "put", {"key": key, "value": key})
                break
            except (OSError, http.client.HTTPException):
                time.sleep(0.2)
        for size, count in ((PIECE, 100), (16, 300)):
            value = base64.b64encode(os.urandom(size)).decode()
            put = each(link, "put", {"key": key, "value": value}, count)
            get = each(link, "range", {"key": key}, count)
            print(f"etcd, 3 nodes, {size} bytes: put {put:.2f} ms, get {get:.2f} ms")
    finally:
        for child in children:
            child.kill()
            child.wait()


def main():
    with tempfile.TemporaryDirectory() as folder:
        nodes = [(900, ["dir"]), (901, ["mrc"])] + [(n, ["osd", "--id", str(n)]) for n in (1, 2, 3)]
        addresses = {n: f"127.0.0.1:{p}" for (n, _), p in zip(nodes, free_ports(len(nodes)))}
        dir_words = ["--dir", addresses[900]]
        children = []

        def client(words, source):
            with open(source, "rb") as stdin:
                done = subprocess.run([PROGRAM] + words + dir_words + TIMES, stdin=stdin, stdout=subprocess.DEVNULL)
            return done.returncode

        def must(words, source=os.devnull):
            for _ in range(60):
                if client(words, source) == 0:
                    return
                time.sleep(0.2)
            raise SystemExit(f"{words} never ended well")

        try:
            for node, role in nodes:
                words = role + ["--listen", addresses[node], "--store", f"{folder}/{node}", "--key", "00"] + TIMES
                words += dir_words if node != 900 else []
                child = subprocess.Popen([PROGRAM] + words, stdin=subprocess.DEVNULL, stdout=subprocess.PIPE)
                child.stdout.readline()
                children.append(child)
            for node, kind in [(901, 2), (1, 1), (2, 1), (3, 1)]:
                must(["register", str(node), str(kind), addresses[node]])
            must(["mkdir", "/v"])
            must(["put", "/v/first", "--pattern", "1", "--replicas", "3"])
            source = f"{folder}/source"
            with open(source, "wb") as file:
                file.write(os.urandom(SIZE))
            for replicas in (1, 3):
                path = f"/v/r{replicas}"
                put = ["put", path, "--replicas", str(replicas)]
                must(put)
                took = best(lambda: must(put, source))
                read = best(lambda: must(["get", path]))
                piece, plain = took / (SIZE // PIECE), modelled(replicas, PIECE, SIZE // PIECE, folder)
                print(f"{replicas} replicas: put {SIZE / took / 1e6:.0f} MB/s ({piece * 1e3:.2f} ms a piece, {piece / plain:.2f} times the plain "
                      f"program's {plain * 1e3:.2f} ms), get {SIZE / read / 1e6:.0f} MB/s")
            count = 1024
            words = ["put", "/v/pieces", "--pattern", str(count << 10), "--stripe", "1024", "--replicas", "3"]
            must(["put", "/v/pieces", "--pattern", "1", "--stripe", "1024", "--replicas", "3"])
            piece, plain = best(lambda: must(words)) / count, modelled(3, 1024, count, folder)
            print(f"3 replicas, writes of 1 KiB: {piece * 1e3:.2f} ms a write, {piece / plain:.2f} times the plain program's {plain * 1e3:.2f} ms")
            small = ["put", "/v/small", "--pattern", "1024", "--replicas", "3"]
            must(small)
            print(f"3 replicas, 1 KiB: put {best(lambda: must(small)) * 1e3:.1f} ms, get {best(lambda: must(['get', '/v/small'])) * 1e3:.1f} ms "
                  "(a command each)")
            if shutil.which("etcd"):
                etcd(folder)
            took = best(lambda: bare(folder))
            print(f"bare write and fdatasync: {SIZE / took / 1e6:.0f} MB/s ({took / (SIZE // PIECE) * 1e3:.2f} ms a piece)")
        finally:
            for child in children:
                child.kill()
                child.wait()


main()
PYTHON
