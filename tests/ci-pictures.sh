#!/usr/bin/env bash
# The built program makes the pictures of examples/ as they are. Its pictures of all traces of the vectors and examples are XML
# without scripts, in which each entry has a row and bars are where a second model, which is written here, says that nodes hold
# files. It draws one file alone, and refuses what it should.
set -u
here=$(cd "$(dirname "$0")" && pwd)
program=$(bash "$here/build.sh" trace_picture) || exit 1
exec python3 - "$program" "$here" <<'PYTHON'
import glob
import os
import subprocess
import sys
import xml.dom.minidom

PROGRAM, HERE = sys.argv[1:]
EXAMPLES = os.path.join(HERE, "..", "examples")
failures = 0


def fail(text):
    global failures
    failures += 1
    print(text)


def run(words, **how):
    return subprocess.run([PROGRAM, *words], capture_output=True, timeout=120, **how)


def check(what, ended, code, told, output=b""):
    if (ended.returncode, ended.stdout, ended.stderr) != (code, output, told):
        fail(f"{what}: ended with {ended.returncode}, wrote {ended.stdout[:80]!r} and told {ended.stderr!r}, "
             f"and not {code}, {output!r} and {told!r}")


def class_of(element):
    return element.getAttribute("class")


def numbers_in(picture):
    """The numbers of the entries that are drawn, in the order of the file, each with the middle of its row."""
    found = []
    for text in picture.getElementsByTagName("text"):
        if class_of(text) == "number left":
            number = int(text.firstChild.data.replace(",", ""))
            found.append((number, int(text.getAttribute("y")) - 4))
    return found


def bars_in(picture):
    """The bars of nodes that hold files: the left, upper and lower edge of each."""
    return sorted(
        tuple(int(panel.getAttribute(name)) for name in ("x", "y")) + (int(panel.getAttribute("y")) + int(panel.getAttribute("height")),)
        for panel in picture.getElementsByTagName("rect")
        if class_of(panel).startswith("held ") and int(panel.getAttribute("width")) == 14 and int(panel.getAttribute("height")) != 18
    )


def holdings(entries):
    """Where nodes hold files: the node, the file, the first entry after which it does, and the first after which it doesn't, or none."""
    drift = next((int(entry[2]) for entry in entries if entry[0] == "times"), 1000)
    pairs = sorted({(int(e[1]), int(e[2])) for e in entries if e[0] == "held"})
    spans = []
    for node, file in pairs:
        clock = end = begin = None
        for place, entry in enumerate(entries, 1):
            kind = entry[0]
            mine = kind != "tick" and len(entry) > 1 and entry[1] == str(node)
            if kind == "up" and mine:
                clock, end = int(entry[3]), None
            elif kind == "down" and mine:
                clock = None
            elif kind == "clock" and mine and clock is not None:
                clock = int(entry[2])
            elif kind == "tick" and clock is not None:
                clock += int(entry[1])
            elif kind == "held" and mine and entry[2] == str(file) and clock is not None:
                end = int(entry[3])
            holds = clock is not None and end is not None and clock + drift < end
            if holds and begin is None:
                begin = place
            if not holds and begin is not None:
                spans.append((node, file, begin, place))
                begin = None
        if begin is not None:
            spans.append((node, file, begin, None))
    return spans


def check_picture(name, entries, svg):
    """Sees that the picture of these entries is XML, without scripts, with a row for each and bars where they belong."""
    try:
        picture = xml.dom.minidom.parseString(svg)
    except Exception as error:
        fail(f"{name}: no XML: {error}")
        return
    tags = {element.tagName for element in picture.getElementsByTagName("*")}
    if not tags <= {"svg", "title", "style", "defs", "marker", "path", "rect", "line", "circle", "text"}:
        fail(f"{name}: has {tags}")
    if picture.documentElement.tagName != "svg" or not picture.getElementsByTagName("title"):
        fail(f"{name}: no picture with a title")
    numbers = numbers_in(picture)
    if [number for number, _ in numbers] != list(range(1, len(entries) + 1)):
        fail(f"{name}: not each entry has a row")
    middles = dict(numbers)
    if any(lower >= upper for (_, lower), (_, upper) in zip(numbers, numbers[1:])):
        fail(f"{name}: rows don't go down")
    bars = bars_in(picture)
    # The legend's bars are the only ones that are as high as this.
    wanted = sorted((middles[first] - 9, middles[last] if last else None) for _, _, first, last in holdings(entries))
    shown = sorted((top, bottom) for _, top, bottom in bars)
    lowest = max([middles[number] for number in middles], default=0)
    ends = [bottom if bottom <= lowest else None for _, bottom in shown]
    if [(top, end) for (top, _), end in zip(shown, ends)] != wanted:
        fail(f"{name}: bars at {shown}, and not at {wanted}")


# The pictures in the repository.
for name in ("found-write", "vanished-write", "write-and-read"):
    with open(os.path.join(EXAMPLES, name + ".trace"), "rb") as trace:
        ended = run([], stdin=trace)
    with open(os.path.join(EXAMPLES, name + ".svg"), "rb") as svg:
        check(f"the picture of {name}", ended, 0, b"", svg.read())

# Those of all traces.
traces = glob.glob(os.path.join(HERE, "vectors", "*.trace")) + glob.glob(os.path.join(EXAMPLES, "*.trace"))
for path in sorted(traces):
    with open(path) as file:
        lines = [line for line in file.read().splitlines() if not line.startswith("!")]
    ended = run([], input="".join(line + "\n" for line in lines).encode())
    if ended.returncode != 0 or ended.stderr:
        fail(f"{path}: ended with {ended.returncode}, told {ended.stderr!r}")
        continue
    check_picture(os.path.basename(path), [line.split() for line in lines], ended.stdout)

# One file alone.
TWO = """\
times 1000 100
up 10 1 0
up 11 1 0
up 1 1 0
up 2 1 0
file 1 rep 1024 1
file 2 rep 1024 2
tick 1100
begin 10 1 write 1 0 0 61
begin 11 1 read 2 0 0 1
held 1 1 2100
held 2 2 2100
active 2 2 0 0 0
answer 2 2 11 1 0 -
done 11 1 ok 0 -
down 1 1100 idle
down 2 1100 idle
"""
for words, shown in (
    (["--file", "2"], [1, 3, 5, 7, 8, 10, 12, 13, 14, 15, 17]),
    (["--file", "1"], [1, 2, 4, 6, 8, 9, 11, 16]),
    (["--file", "3"], [1, 8]),
    ([], list(range(1, 18))),
):
    ended = run(words, input=TWO.encode())
    picture = xml.dom.minidom.parseString(ended.stdout)
    if ended.returncode != 0 or [number for number, _ in numbers_in(picture)] != shown:
        fail(f"{words}: ended with {ended.returncode}, shows {numbers_in(picture)}")

# What is refused.
for lines, number in (
    ("up 1 1 0\nheld 1 1\n", 2),
    ("held 1 1 01\n", 1),
    ("up 1 1 0\ntimes 1000 100\n", 2),
    ("osd 1\n", 1),
    ("up 1 1 0\n\n", 2),
    ("up 1 1 0\ntick 5", 2),
    ("up 1 1 0\n! malformed 3\n", 2),
    ("<svg>\n", 1),
):
    check(repr(lines), run([], input=lines.encode()), 3, b"! malformed %d\n" % number)
check("an empty file's picture", run(["--file", "1"], input=b"osd\n"), 3, b"! malformed 1\n")
USAGE = b"! usage\nusage: trace_picture [--file N] <TRACE >PICTURE.svg\n"
for words in (["x"], ["--file"], ["--file", "01"], ["--file", "+1"], ["--file", "x"], ["--file", "1", "2"], ["1"],
              ["--file", "18446744073709551616"], ["--File", "1"], [""]):
    check(f"the words {words}", run(words, stdin=subprocess.DEVNULL), 2, USAGE)
if run(["--file", "18446744073709551615"], stdin=subprocess.DEVNULL).returncode != 0:
    fail("the greatest number isn't read")
check("too many entries", run([], input=b"tick 1\n" * 65_537), 15, b"! limit lines 65536\n")
check("too many nodes", run([], input=b"".join(b"up %d 1 0\n" % node for node in range(65))), 15, b"! limit nodes 64\n")
check("too long a line", run([], input=b"x" * 300_001), 15, b"! limit line 300000\n")
if run([], input=b"".join(b"up %d 1 0\n" % node for node in range(64))).returncode != 0:
    fail("64 nodes aren't drawn")
if run([], input=b"tick 1\n" * 65_536).returncode != 0:
    fail("65,536 entries aren't drawn")
with open("/dev/full", "wb") as full:
    ended = subprocess.run([PROGRAM], input=b"tick 1\n", stdout=full, stderr=subprocess.PIPE, timeout=120)
    if (ended.returncode, ended.stderr) != (8, b"! sink 1\n"):
        fail(f"a sink that is full: {ended.returncode}, {ended.stderr!r}")
reading, writing = os.pipe()
os.set_blocking(reading, False)
check("a source that fails", run([], stdin=reading), 7, b"! source 1\n")
os.close(reading)
os.close(writing)

print("the pictures are as they should be" if not failures else f"{failures} faults in pictures")
sys.exit(failures > 0)
PYTHON
