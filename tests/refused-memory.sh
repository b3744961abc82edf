#!/usr/bin/env bash
# Refuses the program each of its allocations in turn, one a run, and looks how the run ends: replays, audits and generated schedules of
# all roles, of a replicated file whose primary fails, and of striped files; and nodes over a store, which has to load afterwards. An OSD is
# also asked for three promises at once, which it puts together: whatever is refused, it sends a front of its three answers, and has
# a front of the three promises on its disk, with at least each one that it has answered.
#   tests/refused-memory.sh [--most N] [--workers N] [PROGRAM]
# A job with more than N allocations (2,000 where none is given) is refused the first half of N one by one, and of the others as many,
# evenly. Each run of a replay, an audit or a generated schedule ends with status 12 and a prefix of the whole output, after which '! memory'
# may stand, or with the whole output; a node may also tell that its link, its clock or its streams had no memory. Ends by itself, within
# minutes, and prints counts; the status is 1 where a run ended otherwise. It needs a C compiler: a library that is loaded before the C
# library's own counts and refuses.
set -u
here=$(cd "$(dirname "$0")" && pwd)
most=2000
workers=2
while :; do
    case "${1:-}" in
    --most) most=$2 ;;
    --workers) workers=$2 ;;
    *) break ;;
    esac
    shift 2
done
program=${1:-$(bash "$here/build.sh")} || exit 1
room=$(mktemp -d)
trap 'rm -rf "$room"' EXIT
cat >"$room/refuse.c" <<'C'
#define _GNU_SOURCE
#include <errno.h>
#include <fcntl.h>
#include <stdatomic.h>
#include <stdlib.h>
#include <string.h>
#include <sys/syscall.h>
#include <unistd.h>

extern void *__libc_malloc(size_t);
extern void *__libc_calloc(size_t, size_t);
extern void *__libc_realloc(void *, size_t);

static atomic_ulong calls;
static unsigned long refused;
static int is_counting;

__attribute__((constructor)) static void begin(void) {
    const char *number = getenv("REFUSE");
    refused = number ? strtoul(number, 0, 10) : 0;
    is_counting = 1;
}

__attribute__((destructor)) static void end(void) {
    const char *path = getenv("COUNT");
    int file = path ? open(path, O_WRONLY | O_CREAT | O_TRUNC, 0600) : -1;
    unsigned long count = atomic_load(&calls);
    char digits[24];
    int at = sizeof digits;
    do {
        digits[--at] = '0' + count % 10;
        count /= 10;
    } while (count);
    if (file >= 0 && write(file, digits + at, sizeof digits - at) < 0)
        abort();
}

/* A program may end without what the C library does at its end. */
void _exit(int status) {
    end();
    for (;;)
        syscall(SYS_exit_group, status);
}

static int is_refused(void) {
    if (!is_counting || atomic_fetch_add(&calls, 1) + 1 != refused)
        return 0;
    errno = ENOMEM;
    return 1;
}

void *malloc(size_t size) { return is_refused() ? 0 : __libc_malloc(size); }
void *calloc(size_t count, size_t size) { return is_refused() ? 0 : __libc_calloc(count, size); }
void *realloc(void *place, size_t size) { return is_refused() ? 0 : __libc_realloc(place, size); }
C
if ! "${CC:-cc}" -O1 -shared -fPIC -o "$room/refuse.so" "$room/refuse.c"; then
    echo "no C compiler builds the library that refuses" >&2
    exit 1
fi
python3 - "$program" "$here/.." "$room" "$most" "$workers" <<'PYTHON'
import collections
import concurrent.futures
import os
import shutil
import socket
import subprocess
import sys
import threading
import time

PROGRAM, TOP, ROOM, MOST, WORKERS = sys.argv[1], sys.argv[2], sys.argv[3], int(sys.argv[4]), int(sys.argv[5])
# A run takes milliseconds, and a node's a second; one that takes this many seconds hangs.
PATIENCE = 60
MEMORY = b"! memory\n"
# the byte of an open gate in a journal, and the kinds of two records
OPEN_GATE = 0xA5
BOOT, PROMISE = 1, 2
wrong = 0
lock = threading.Lock()


def refusing(refused, count=None):
    """The environment of a run of which one allocation is refused, or none. The number of them all is written to a file, if one is named."""
    env = {"LD_PRELOAD": os.path.join(ROOM, "refuse.so"), "REFUSE": str(refused)}
    return env | {"COUNT": count} if count else env


def run(words, data, refused, count=None, folder=None):
    """The status and the output of a run of which one allocation is refused, or none; None where it hangs."""
    env = refusing(refused, count)
    try:
        done = subprocess.run(
            [PROGRAM, *words], input=data, stdout=subprocess.PIPE, stderr=subprocess.DEVNULL, timeout=PATIENCE, env=env, cwd=folder
        )
    except subprocess.TimeoutExpired:
        return None
    return done.returncode, done.stdout


def counted(words, data, folder=None):
    """What a job does with all its memory, and how many allocations it makes."""
    path = os.path.join(ROOM, "count")
    whole = run(words, data, 0, path, folder)
    with open(path) as file:
        return whole, int(file.read())


def numbers(count):
    """The allocations that are refused."""
    if count <= MOST:
        return list(range(1, count + 1))
    first = MOST // 2
    others = MOST - first
    return list(range(1, first + 1)) + sorted({first + 1 + (count - first - 1) * i // max(1, others - 1) for i in range(others)})


def tell(name, refused, what):
    global wrong
    with lock:
        wrong += 1
        print(f"WRONG: {name}, allocation {refused}: {what}", flush=True)


def is_front(out, whole):
    return whole.startswith(out) or (out.endswith(MEMORY) and whole.startswith(out[: -len(MEMORY)]))


def judged(name, words, data, whole, refused):
    """How a run ends of which one allocation is refused."""
    came = run(words, data, refused)
    if came is None:
        return tell(name, refused, "it hangs")
    if came == whole:
        return "whole"
    status, out = came
    if status == 12 and is_front(out, whole[1]):
        return "12"
    return tell(name, refused, f"status {status}, {len(out)} bytes, the last of them {out[-60:]!r}")


def job(name, words, data):
    whole, count = counted(words, data)
    if count == 0:
        sys.exit("the program doesn't take its memory of the library that refuses it")
    refused = numbers(count)
    with concurrent.futures.ThreadPoolExecutor(WORKERS) as pool:
        ends = collections.Counter(pool.map(lambda n: judged(name, words, data, whole, n), refused))
    told(name, count, refused, ends)
    return whole


def told(name, count, refused, ends):
    ways = ", ".join(f"{end or 'wrong'}: {times}" for end, times in sorted(ends.items(), key=str))
    print(f"{name}: {count} allocations, {len(refused)} refused ({ways})", flush=True)


def payloads(path):
    """The payloads of the records that a journal has, in order: one without areas."""
    if not os.path.exists(path):
        return []
    with open(path, "rb") as file:
        journal = file.read()
    found, place = [], 12
    while place + 5 < len(journal) and journal[place] == OPEN_GATE:
        size = int.from_bytes(journal[place + 1:place + 5], "big")
        found.append(journal[place + 5:place + 5 + size])
        place += 5 + size
    return found


def last_boot(path):
    """The last boot that a journal has, or 0."""
    boots = [int.from_bytes(payload[1:9], "big") for payload in payloads(path) if payload[0] == BOOT]
    return boots[-1] if boots else 0


def node(name, words, store, allowed):
    """A node over a store, of which each allocation is refused in turn, and which starts over what that left: one boot more or none."""

    def fresh(number):
        folder = os.path.join(ROOM, f"{name}-{number}")
        os.makedirs(folder)
        if store:
            shutil.copy(store, os.path.join(folder, "s"))
        return folder

    def judge(number):
        folder = fresh(number)
        came = run(words, b"", number, None, folder)
        boot = last_boot(os.path.join(folder, "s"))
        again = run(words, b"", 0, None, folder)
        next_boot = last_boot(os.path.join(folder, "s"))
        shutil.rmtree(folder)
        if came is None or again is None:
            return tell(name, number, "it hangs")
        if came[0] not in allowed:
            return tell(name, number, f"status {came[0]}, {came[1]!r}")
        if again[0] != whole[0]:
            return tell(name, number, f"after status {came[0]} it starts again with {again[0]}, {again[1]!r}")
        if boot not in (first, first + 1) or next_boot != boot + 1:
            return tell(name, number, f"after status {came[0]} its boot is {boot}, and then {next_boot}; it was {first}")
        return str(came[0])

    first = last_boot(store) if store else 0
    folder = fresh(0)
    whole, count = counted(words, b"", folder)
    refused = numbers(count)
    with concurrent.futures.ThreadPoolExecutor(WORKERS) as pool:
        ends = collections.Counter(pool.map(judge, refused))
    told(name, count, refused, ends)
    return os.path.join(folder, "s")


def read(path):
    with open(os.path.join(TOP, path), "rb") as file:
        return file.read()


# ---- an OSD that is asked for three promises

# the bytes of a part before its payload, and those of a frame before the fields of its kind
PART, FRAME = 27, 14
STATUS = 7
FILES = [1, 2, 3]


def gather(number):
    """A part with a Gather of node 2 to node 1, of the file with this number, in the epoch (1, 2)."""
    frame = bytes([0, 0, 0, 50, 2, 6]) + (2).to_bytes(4, "big") + (1).to_bytes(4, "big")
    frame += bytes(16) + number.to_bytes(8, "big") + (1).to_bytes(8, "big") + (2).to_bytes(4, "big")
    head = bytes([1]) + (2).to_bytes(4, "big") + (1).to_bytes(8, "big") + number.to_bytes(8, "big") + bytes([0, 1])
    return head + len(frame).to_bytes(4, "big") + frame


def answered(datagrams):
    """The numbers of the files of the answers among these datagrams, in order."""
    files = []
    for datagram in datagrams:
        frame = datagram[PART:]
        if len(frame) > FRAME + 24 and frame[5] == STATUS:
            files.append(int.from_bytes(frame[FRAME + 16:FRAME + 24], "big"))
    return files


def promised(path):
    """The numbers of the files of the promises that a journal has, in order."""
    return [int.from_bytes(payload[17:25], "big") for payload in payloads(path) if payload[0] == PROMISE]


def asked(words, refused, folder, count=None):
    """The status of an OSD to which three Gathers come at once when it isn't silent any more, and the answers; None where it hangs."""
    with socket.socket(socket.AF_INET, socket.SOCK_DGRAM) as peer:
        peer.bind(("127.0.0.1", 0))
        peer.settimeout(0.02)
        began = time.monotonic()
        node = subprocess.Popen(
            [PROGRAM, *words, "--dir", f"127.0.0.1:{peer.getsockname()[1]}"],
            stdin=subprocess.DEVNULL, stdout=subprocess.DEVNULL, stderr=subprocess.DEVNULL, env=refusing(refused, count), cwd=folder,
        )
        there, first, asks, datagrams, has_ended = None, None, FILES, [], False
        while not has_ended:
            # what it has sent by its end is there then
            has_ended = node.poll() is not None
            try:
                while True:
                    datagram, there = peer.recvfrom(65536)
                    datagrams.append(datagram)
                    first = first or time.monotonic()
            except TimeoutError:
                pass
            # it asks for the OSDs from its first Wake on
            if there and asks and time.monotonic() > first + 0.3:
                for number in asks:
                    peer.sendto(gather(number), there)
                asks = []
            if time.monotonic() > began + PATIENCE:
                node.kill()
                node.wait()
                return None
        return node.returncode, answered(datagrams)


def asked_node(name, words, allowed):
    """An OSD that is asked, of which each allocation is refused in turn."""

    def judge(number):
        folder = os.path.join(ROOM, f"{name}-{number}")
        os.makedirs(folder)
        came = asked(words, number, folder)
        kept = promised(os.path.join(folder, "s"))
        shutil.rmtree(folder)
        if came is None:
            return tell(name, number, "it hangs")
        status, answers = came
        if status not in allowed:
            return tell(name, number, f"status {status}")
        if answers != FILES[: len(answers)] or kept != FILES[: len(kept)] or len(kept) < len(answers):
            return tell(name, number, f"answers {answers}, promises {kept}")
        return f"{status} with {len(answers)} answers"

    folder, path = os.path.join(ROOM, name), os.path.join(ROOM, f"{name}-count")
    os.makedirs(folder)
    whole = asked(words, 0, folder, path)
    if whole != (11, FILES) or promised(os.path.join(folder, "s")) != FILES:
        sys.exit(f"with all its memory {name} comes to {whole}")
    with open(path) as file:
        count = int(file.read())
    refused = numbers(count)
    with concurrent.futures.ThreadPoolExecutor(WORKERS) as pool:
        ends = collections.Counter(pool.map(judge, refused))
    told(name, count, refused, ends)


for path in [
    "examples/write-and-read",
    "examples/found-write",
    "examples/vanished-write",
    "examples/volumes",
    "tests/vectors/striped",
    "tests/vectors/striped-write-in-two-pieces",
]:
    schedule = read(path + ".schedule")
    whole = job(f"replay {path}", ["replay"], schedule)
    if whole[0] == 0:
        job(f"audit {path}", ["audit"], whole[1])
for number in [1, 2]:
    job(f"make {number} 16", ["make", str(number), "16"], b"")

# Short leases, so that turns pass soon. Memory that runs out within a link, clock, disk or stream is reported as its fault.
TIMES = ["--lease", "200", "--drift", "1", "--turns", "3"]
ALLOWED = {5, 6, 8, 9, 11, 12}
COMMON = ["--listen", "127.0.0.1:0", "--store", "s", "--key", "00"]
for name, words in [
    ("dir", ["dir", *COMMON]),
    ("mrc", ["mrc", "--dir", "127.0.0.1:9", *COMMON]),
    ("osd", ["osd", "--id", "1", "--dir", "127.0.0.1:9", *COMMON]),
]:
    store = node(name, [*words, *TIMES], None, ALLOWED)
    node(name + " again", [*words, *TIMES], store, ALLOWED)
# A Wake comes each 25 milliseconds, and the silence lasts 201: three of the turns are those of the Gathers.
LONGER = ["--lease", "200", "--drift", "1", "--turns", "25"]
asked_node("osd asked", ["osd", "--id", "1", *COMMON, *LONGER], ALLOWED)

print(f"{wrong} wrong")
sys.exit(1 if wrong else 0)
PYTHON
