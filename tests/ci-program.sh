#!/usr/bin/env bash
# How the built program ends, as tables: lines that are read and lines that are malformed, one at a time; other words; a source
# that fails, between two lines and inside one; a sink that fails at once, and later; and a schedule of too many lines.
set -u
here=$(cd "$(dirname "$0")" && pwd)
program=$(bash "$here/build.sh") || exit 1
exec python3 - "$program" <<'PYTHON'
import os
import subprocess
import sys

PROGRAM = sys.argv[1]

# Lines that a schedule may have after its first.
READ = """\
osd 47
osd 0
osd 4294967295
client 901 0
client 110 4611686018427387903
start 47 1099511627776
file 550486 rep 1024 47
file 999999 rep 131072 1
file 1 rep 1024 3 1 2
file 1 str 1024 1
file 1 str 131072 9 8 7 6 5 4 3 2 4294967295
file 0 rep 1024 9 8 7 6 5 4 3 2 4294967295
clock 1 0
clock 4294967295 4611686018427387903
tick 4294967295
wake 1
wake 4294967295
read 199 279279 0 131071 131072
read 1 18446744073709551615 4294967295 4294967295 1
write 159 550486 0 984 f42331
write 106 605457 2 0 94bc
truncate 10 1 0 0
truncate 10 18446744073709551615 18446744073709551615 4611686018427387903
again 10
again 4294967295
aim 10 1 2
aim 4294967295 18446744073709551615 4294967295
deliver 1
deliver 340282366920938463463374607431768211455
drop 3
settle 0
settle 100
stop 1
stop 4294967295
crash 1 1 00
crash 1 3 a5
crash 4294967295 4 ff
cut 1 0
cut 4294967295 340282366920938463463374607431768211455
mrc
dir
osd 901
client 900 0
start 901 0
wake 900
meta 1 1 1 stat /v
meta 10 4294967295 4294967295 mkdir v 000
meta 10 0 0 mkdir /v 777
meta 10 1 1 create /v/a 644 rep 1 1024
meta 10 1 1 create /v/a 644 str 9 131072
meta 10 1 1 rename / //
meta 10 1 1 unlink /v/a
meta 10 1 1 rmdir .
meta 10 1 1 list / -
meta 10 1 1 list /v --
meta 10 1 1 chmod /v/a 700
meta 10 1 1 grant /v/a read
meta 10 1 1 grant /v/a write
meta 10 1 1 grant /v/a truncate
meta 10 1 1 report 18446744073709551615
registry 10 set 4294967295 255 127.0.0.1:5 4611686018427387903
registry 10 get 0
registry 10 list 0 4294967295
registry 10 remove 1 0
""".splitlines() + [
    f"meta 10 1 1 rename {'a' * 65_535} {'b' * 65_535}",
    f"meta 10 1 1 list / {'b' * 65_535}",
    "meta 10 1 1 locate /v/a",
    "meta 10 1 1 change /v/a 1 2 3",
    f"registry 10 set 1 1 {'a' * 255} 0",
]

# Lines that it may have first.
READ_FIRST = ["osd 47", "times 1000 100", "times 1099511627775 549755813887"]

# Lines that no schedule may have after its first.
MALFORMED = """\
replay
osd
osd x
osd 03
osd +3
osd -3
osd  3
osd 3 4
OSD 3
osd 4294967296
client 9
client 9 4611686018427387904
start 9 00
file 1000000 rep 1024 1
file 1 rep 1000 1
file 1 rep 132096 1
file 1000000 str 1024 1
file 1 str 1000 1
file 1 str 132096 1
file 1 str 1024 1 2 1
file 1 str 1024
file 1 STR 1024 1
file 1 strip 1024 1
file 1 1024 1
file 1 rep 1024 1 2 1
file 1 rep 1024 1 02
file 1 rep 1024 1 x
file 1 rep 1024 1 4294967296
file 1 rep 1024 1 2 3 4 5 6 7 8 9 10
file 1 rep 1024
clock 1
clock 1 4611686018427387904
clock 1 0 0
wake
wake 1 1
wake 4294967296
tick 01
tick 4294967296
read 100 1 0 0 0
read 100 1 0 0 131073
read 1 18446744073709551616 0 0 1
write 10 1 0 0 6
write 10 1 0 0 AB
write 10 1 0 0 6g
truncate 10 1 0
truncate 10 1 18446744073709551616 0
truncate 10 1 0 4611686018427387904
again
again 01
again 10 1
again 4294967296
aim 10 1
aim 10 1 1 2
aim 10 1 4294967296
held 1 1 0
active 1 1 0 0 0
deliver 340282366920938463463374607431768211456
stop
stop 01
stop 1 1
stop 4294967296
crash 1 0 00
crash 1 5 00
crash 1 03 00
crash 1 260 00
crash 1 1
crash 1 1 a
crash 1 1 AB
crash 1 1 g0
crash 1 1 a5a5
crash 1 1 -
crash 4294967296 1 00
cut 1
cut 1 00
cut 1 340282366920938463463374607431768211456
cut 4294967296 0
down 1 0 idle
mrc 901
dir 900
MRC
meta 10 1 1
meta 10 1 1 stat
meta 10 1 1 stat /v /v
meta 10 1 1 lodge /v
meta 10 1 stat /v
meta 10 4294967296 1 stat /v
meta 10 1 01 stat /v
meta 10 1 1 mkdir /v
meta 10 1 1 mkdir /v 75
meta 10 1 1 mkdir /v 0755
meta 10 1 1 mkdir /v 758
meta 10 1 1 create /v/a 644 rep 0 1024
meta 10 1 1 create /v/a 644 rep 10 1024
meta 10 1 1 create /v/a 644 rep 1 1000
meta 10 1 1 create /v/a 644 strip 1 1024
meta 10 1 1 create /v/a 644 rep 1
meta 10 1 1 rename /v/a
meta 10 1 1 list /v
meta 10 1 1 chmod /v/a
meta 10 1 1 grant /v/a
meta 10 1 1 grant /v/a 2
meta 10 1 1 report
meta 10 1 1 report /v/a
meta 10 1 1 report 18446744073709551616
registry 10
registry 10 put 1
registry 10 set 1 1 a
registry 10 set 1 256 a 0
registry 10 set 1 1 a 4611686018427387904
registry 10 set 4294967296 1 a 0
registry 10 get
registry 10 get 1 1
registry 10 list 1
registry 10 list 256 0
registry 10 remove 1
registry 10 remove 1 4611686018427387904
registry 10 1 1 get 1
""".splitlines() + ["", " ", " osd 3", "osd 3 ", "osd 3\r", "write 100 1 0 0 ", "times 1000 100"] + [
    "mrc ",
    "meta 10 1 1 stat /v\u00e9",
    "meta 10 1 1 stat ",
    "meta 10 1 1 mkdir  /v 755",
    "meta 10 1 1 list /v ",
    f"meta 10 1 1 stat {'a' * 65_536}",
    f"registry 10 set 1 1 {'a' * 256} 0",
    "registry 10 set 1 1  0",
]

# Times that none may have.
MALFORMED_FIRST = ["times 1000 500", "times 1000 0", "times 1099511627776 100"]

failures = 0


def check(what, ended, code, output):
    """Sees that a run ended with this status, and wrote this."""
    global failures
    if (ended.returncode, ended.stdout) != (code, output):
        failures += 1
        print(f"{what}: ended with {ended.returncode} and wrote {ended.stdout!r}, and not with {code} and {output!r}")


def replay(schedule):
    return run(["replay"], input=schedule)


def run(words, **how):
    return subprocess.run([PROGRAM, *words], stdout=how.pop("stdout", subprocess.PIPE), timeout=120, **how)


def is_read(line, front):
    """A line that is read does what it says, or breaks a rule: it is never malformed."""
    global failures
    ended = replay(f"{front}{line}\n".encode())
    if ended.returncode not in (0, 4):
        failures += 1
        print(f"{line!r}: ended with {ended.returncode}")


for line in READ:
    is_read(line, "osd 46\n")
for line in READ_FIRST:
    is_read(line, "")
for line in MALFORMED:
    check(repr(line), replay(f"osd 46\n{line}\n".encode()), 3, b"! malformed 2\n")
for line in MALFORMED_FIRST:
    check(repr(line), replay(f"{line}\n".encode()), 3, b"! malformed 1\n")
check("no line feed", replay(b"osd 46\nosd 47"), 3, b"! malformed 2\n")
check("too many lines", replay(b"osd 1\n" * 1 + b"settle 0\n" * 65_536), 15, b"! limit lines 65536\n")

for words in ([], ["replays"], ["replay", "replay"], [b"\xff"], [b"replay", b"\xc3\x28"], ["make", "7", "4097"]):
    # the help that goes to standard error is no matter here
    check(f"the words {words}", run(words, stdin=subprocess.DEVNULL, stderr=subprocess.DEVNULL), 2, b"! usage\n")


def from_halting(front):
    """A replay whose source gives these bytes, and then fails."""
    reading, writing = os.pipe()
    os.set_blocking(reading, False)
    os.write(writing, front)
    ended = run(["replay"], stdin=reading)
    os.close(reading)
    os.close(writing)
    return ended


for front, output in (
    (b"", b"! source 1\n"),
    (b"client 10 0\n", b"up 10 1 0\n! source 1\n"),
    (b"client 10 0\nosd", b"up 10 1 0\n! source 1\n"),
    (b"client 10 0\nosd 1\n", b"up 10 1 0\n! source 1\n"),
):
    check(f"a source that fails after {front!r}", from_halting(front), 7, output)

with open("/dev/full", "wb") as full:
    check("a sink that is full", run(["replay"], input=b"client 10 0\n", stdout=full), 8, None)


def into_halting(schedule):
    """A replay whose sink takes what a pipe has room for, and then fails; and what is in it."""
    reading, writing = os.pipe()
    os.set_blocking(writing, False)
    ended = run(["replay"], input=schedule, stdout=writing)
    os.close(writing)
    with open(reading, "rb") as pipe:
        ended.stdout = pipe.read()
    return ended


many = b"".join(b"client %d 0\n" % number for number in range(40)) + b"tick 1\n" * 60_000
whole = replay(many).stdout
ended = into_halting(many)
check("a sink that is full later", ended, 8, whole[: len(ended.stdout)])
if not 0 < len(ended.stdout) < len(whole):
    failures += 1
    print(f"a sink that is full later: it took {len(ended.stdout)} bytes")

print("the program ends as it should" if not failures else f"{failures} other ends")
sys.exit(failures > 0)
PYTHON
