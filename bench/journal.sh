#!/usr/bin/env bash
# How fast payloads are appended to a journal, and how fast and in how much memory a journal is loaded.
#   bench/journal.sh [PROGRAM [FOLDER]]
# Prints the appends a second of payloads of 50 bytes and of 128 KiB, in memory, in a file of a folder, and by a plain
# program that makes the same writes to a file: for each payload its piece and then its gate, each with an fdatasync
# after it. The runs in files take turns, since a disk's speed changes, and the best of six counts. Then it makes a
# journal of 256 MiB, and prints the megabytes (millions of bytes) a second at which it is loaded, by the clock and by
# the processor time of the process, the greatest resident memory, and that memory by the length of the journal. The
# best of five loads counts, since other work on the machine takes time from each. Then come the seconds in which a store is
# loaded from the records of 4,096 and of 16,384 updates of one file of 4,096 objects, and how much more the latter took. Last it
# makes a store of 250 MiB, and prints the seconds in which that is compacted beside those of a copy of the file that is synced, and
# the greatest resident memory: what compacting takes is what a run that loads and compacts takes beyond one that only loads, each the
# best of three.
set -eu
here=$(cd "$(dirname "$0")" && pwd)
program=${1:-$(bash "$here/../tests/build.sh" xt_bench)}
folder=$(mktemp -d "${2:-${TMPDIR:-/tmp}}/journal.XXXXXX")
trap 'rm -rf "$folder"' EXIT
cat >"$folder/plain.c" <<'PLAIN'
/* plain SIZE N PATH: appends a piece of SIZE bytes, its length and a gate N times, and opens each gate after it. */
#include <fcntl.h>
#include <stdlib.h>
#include <string.h>
#include <unistd.h>

int main(int count, char **words)
{
    if (count != 4)
        return 2;
    size_t size = strtoull(words[1], 0, 10), times = strtoull(words[2], 0, 10);
    unsigned char gate = 0xa5, *piece = malloc(size + 5);
    int file = open(words[3], O_RDWR);
    off_t end = 12;
    if (!piece || file < 0)
        return 1;
    memset(piece, 7, size + 5);
    for (size_t i = 0; i < times; i++) {
        if (pwrite(file, piece, size + 5, end + 1) != (ssize_t)(size + 5) || fdatasync(file))
            return 1;
        if (pwrite(file, &gate, 1, end) != 1 || fdatasync(file))
            return 1;
        end += size + 5;
    }
    return 0;
}
PLAIN
gcc -O2 -o "$folder/plain" "$folder/plain.c"
python3 - "$program" "$folder" <<'PYTHON'
import os
import subprocess
import sys
import time

program, folder = sys.argv[1:]
path = os.path.join(folder, "journal")


def make_empty():
    """Makes the file a journal with no record, and syncs it with its folder, so that no run pays for that."""
    with open(path, "wb") as file:
        file.write(b"XTFSJRNL" + bytes([0, 0, 0, 1, 0]))
        file.flush()
        os.fsync(file.fileno())
    place = os.open(folder, os.O_RDONLY)
    os.fsync(place)
    os.close(place)


def seconds(words):
    """The seconds of a run that finds an empty journal."""
    make_empty()
    begun = time.perf_counter()
    subprocess.run(words, check=True, stdout=subprocess.DEVNULL)
    return time.perf_counter() - begun


def run(word):
    """The seconds by the clock and of the processor, and the bytes of memory, that this work on the file takes."""
    begun = time.perf_counter()
    process = subprocess.Popen([program, word, path], stdout=subprocess.DEVNULL)
    _, status, usage = os.wait4(process.pid, 0)
    process.returncode = os.waitstatus_to_exitcode(status)
    if process.returncode != 0:
        sys.exit(f"{word}: it failed")
    seconds = time.perf_counter() - begun
    return seconds, usage.ru_utime + usage.ru_stime, usage.ru_maxrss * 1024


print(f"{'bytes':>7} {'in memory':>10} {'in a file':>10} {'plain':>10} {'file by plain':>14}   appends a second")
for size, inside, outside in ((50, 400_000, 1_000), (131_072, 2_000, 200)):
    memory = min(seconds([program, "append", str(size), str(inside)]) for _ in range(3))
    pairs = [
        (
            seconds([program, "append-file", str(size), str(outside), path]),
            seconds([os.path.join(folder, "plain"), str(size), str(outside), path]),
        )
        for _ in range(6)
    ]
    ours = min(pair[0] for pair in pairs)
    plain = min(pair[1] for pair in pairs)
    print(
        f"{size:>7} {inside / memory:>10.0f} {outside / ours:>10.0f} {outside / plain:>10.0f} {plain / ours:>14.2f}"
    )

# 2,047 payloads of 131,072 bytes
seconds([program, "append-file", "131072", "2047", path])
length = os.path.getsize(path)
runs = [run("load") for _ in range(5)]
clock, processor, _ = map(min, zip(*runs))
peak = max(run[2] for run in runs)
print(
    f"load of {length / 2**20:.0f} MiB: {length / clock / 1e6:.0f} MB/s by the clock, "
    f"{length / processor / 1e6:.0f} MB/s by processor time, "
    f"{peak / 2**20:.0f} MiB of memory, {peak / length:.2f} times the journal"
)


def start(updates):
    """The seconds in which a store is loaded from the records of this many updates, which are made in memory."""
    begun = time.perf_counter()
    subprocess.run([program, "start", str(updates)], check=True, stdout=subprocess.DEVNULL)
    return time.perf_counter() - begun


few, many = (min(start(updates) for _ in range(5)) for updates in (4_096, 16_384))
print(f"start from 4,096 updates: {few * 1e3:.1f} ms, from 16,384: {many * 1e3:.1f} ms, {many / few:.2f} times as long")


def make_store(updates):
    """Makes the file a store of this many updates of one file, each of a whole object of 128 KiB, and syncs it."""
    body = b"x" * 131_072
    with open(path, "wb") as file:
        file.write(b"XTFSJRNL" + (1).to_bytes(4, "big"))
        for count in range(1, updates + 1):
            number, size = count.to_bytes(8, "big"), (count * len(body)).to_bytes(8, "big")
            stamp = bytes(12) + number
            client = (10).to_bytes(4, "big") + number
            place = b"\xff" * 4 + (count - 1).to_bytes(4, "big")
            payload = b"\x03" + bytes(16) + (1).to_bytes(8, "big") + stamp + client + bytes(8) + size + place
            payload += len(body).to_bytes(4, "big") + body
            file.write(b"\xa5" + len(payload).to_bytes(4, "big") + payload)
        file.write(b"\x00")
        file.flush()
        os.fsync(file.fileno())


def copied():
    """The seconds in which the file is copied and the copy is synced."""
    copy = path + ".copy"
    begun = time.perf_counter()
    subprocess.run(["cp", path, copy], check=True)
    file = os.open(copy, os.O_RDONLY)
    os.fsync(file)
    os.close(file)
    seconds = time.perf_counter() - begun
    os.remove(copy)
    return seconds


def after_making(word):
    """What this work takes on a store that was made anew."""
    make_store(2_000)
    return run(word)


make_store(2_000)
length = os.path.getsize(path)
copy = min(copied() for _ in range(3))
loads = [after_making("records") for _ in range(3)]
whole = [after_making("compact") for _ in range(3)]
compaction = min(w[0] for w in whole) - min(l[0] for l in loads)
print(
    f"compaction of {length / 2**20:.0f} MiB: {compaction:.2f} s, {compaction / copy:.2f} times a synced copy of the file ({copy:.2f} s); "
    f"{max(w[2] for w in whole) / length:.2f} times its length of memory, to load it alone {max(l[2] for l in loads) / length:.2f}"
)
PYTHON
