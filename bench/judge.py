"""A plain judge of traces, to set beside `xtfs audit`: it asks the same questions of each entry, in one process and one thread, and makes
no more of them than the rules say.

    python3 bench/judge.py <TRACE

Prints `safe`, or `! broken CLAUSE ENTRY` for the entry by which the trace is broken first and the least clause there: 5 two nodes hold a
file, 6 a node acts that doesn't hold it, 8 there are two orders of writes, 9 a write is in the order twice or was never issued, 11 an answer shows
another content, 12 a call ends well that wasn't answered so, or before it began. It reads good traces alone: lines aren't tested.
"""

import sys

CLAUSES = (5, 6, 8, 9, 11, 12)


def raw(word):
    """The bytes that a word spells in hex; a dash spells none."""
    return b"" if word == "-" else bytes.fromhex(word)


class Content:
    """What a file has after its writes, in pages, of which one that was never written has zeros: a file may be long."""

    PAGE = 4096

    def __init__(self):
        self.size, self.pages = 0, {}

    def parts(self, start, count):
        """The pages of a range: their numbers, where the part of the range begins in them, and how long it is."""
        while count > 0:
            page, at = divmod(start, self.PAGE)
            length = min(count, self.PAGE - at)
            yield page, at, length
            start, count = start + length, count - length

    def write(self, place, data):
        self.size = max(self.size, place + len(data))
        for page, at, length in self.parts(place, len(data)):
            self.pages.setdefault(page, bytearray(self.PAGE))[at : at + length] = data[:length]
            data = data[length:]

    def truncate(self, size):
        edge, at = divmod(size, self.PAGE)
        self.size = size
        self.pages = {page: data for page, data in self.pages.items() if page <= edge}
        if edge in self.pages:
            self.pages[edge][at:] = bytes(self.PAGE - at)

    def range(self, start, count):
        nothing = bytes(self.PAGE)
        parts = self.parts(start, max(0, min(count, self.size - start)))
        return b"".join(bytes(self.pages.get(page, nothing)[at : at + length]) for page, at, length in parts)


class File:
    """What is kept of the entries so far for one file, and the clauses that hold."""

    def __init__(self, number, stripe, drift):
        self.number, self.stripe, self.drift = number, stripe, drift
        self.nodes = {}  # node: [clock, end of the lease held last]
        self.order, self.content = [], Content()
        self.begun, self.answered, self.ended = {}, set(), set()
        self.holds = dict.fromkeys(CLAUSES, True)

    def is_held_by(self, node):
        stands = self.nodes.get(node)
        return stands is not None and stands[1] is not None and stands[0] + self.drift < stands[1]

    def operation(self, call):
        """The call's words, where it is one on this file."""
        here = call is not None and call[0] in ("read", "write", "truncate") and call[1] == str(self.number)
        return call if here else None

    def acts(self, entry):
        """A step of the file's primary."""
        if not self.is_held_by(int(entry[1])):
            self.holds[6] = False
        if entry[0] in ("active", "commit"):
            self.claims(int(entry[3]), (entry[4], entry[5]))
        elif entry[0] == "answer":
            self.answers((entry[3], entry[4]), int(entry[5]), raw(entry[6]))

    def claims(self, count, write):
        """The order has this many writes, and this is the last."""
        if count == len(self.order) + 1:
            call = self.operation(self.begun.get(write))
            if call is None or call[0] == "read" or write in self.order:
                self.holds[9] = False
            self.order.append(write)
            if call is not None and call[0] == "write":
                self.content.write(int(call[2]) * self.stripe + int(call[3]), raw(call[4]))
            elif call is not None and call[0] == "truncate":
                self.content.truncate(int(call[2]))
        if len(self.order) != count or (count > 0 and self.order[-1] != write):
            self.holds[8] = False

    def answers(self, asked, count, data):
        """A call is answered well."""
        call = self.operation(self.begun.get(asked))
        if call is None:
            self.holds[11] = False
            return
        if call[0] == "read":
            place = int(call[2]) * self.stripe + int(call[3])
            good = count == len(self.order) and data == self.content.range(place, int(call[4]))
        else:
            good = 1 <= count <= len(self.order) and self.order[count - 1] == asked and data == b""
        if not good:
            self.holds[11] = False
        self.answered.add((asked, count, data))

    def take(self, entry):
        """One entry more."""
        name = entry[0]
        if name == "up":
            self.nodes[int(entry[1])] = [int(entry[3]), None]
        elif name == "down":
            self.nodes.pop(int(entry[1]), None)
        elif name == "tick":
            for stands in self.nodes.values():
                stands[0] += int(entry[1])
        elif name == "clock":
            if int(entry[1]) in self.nodes:
                self.nodes[int(entry[1])][0] = int(entry[2])
        elif name == "held" and int(entry[2]) == self.number:
            if int(entry[1]) in self.nodes:
                self.nodes[int(entry[1])][1] = int(entry[3])
        elif name in ("active", "issue", "commit", "answer") and int(entry[2]) == self.number:
            self.acts(entry)
        elif name == "begin":
            asked = (entry[1], entry[2])
            if asked not in self.begun:
                if self.operation(entry[3:]) is not None and asked in self.ended:
                    self.holds[12] = False
                self.begun[asked] = entry[3:]
        elif name == "done" and entry[3] == "ok" and len(entry) == 6:
            asked = (entry[1], entry[2])
            is_here = self.operation(self.begun.get(asked)) is not None
            if is_here and (asked, int(entry[4]), raw(entry[5])) not in self.answered:
                self.holds[12] = False
            self.ended.add(asked)
        if name in ("held", "clock") and sum(map(self.is_held_by, self.nodes)) > 1:
            self.holds[5] = False

    def broken(self):
        """The least clause that doesn't hold."""
        return next((clause for clause in CLAUSES if not self.holds[clause]), None)


def judge(entries, number, stripe, drift):
    """Where the file is broken first: an entry, counted from 1, and a clause."""
    file, is_told = File(number, stripe, drift), False
    for place, entry in enumerate(entries, 1):
        file.take(entry)
        is_told = is_told or (entry[0] == "file" and int(entry[1]) == number)
        if is_told and file.broken() is not None:
            return place, file.broken()
    return None


def audit(lines):
    """What is put of a trace."""
    entries = [line.split() for line in lines]
    drift = next((int(entry[2]) for entry in entries if entry[0] == "times"), 1000)
    places = {}
    for entry in entries:
        if entry[0] == "file":
            places.setdefault(int(entry[1]), (entry[2], int(entry[3])))
    found = [judge(entries, number, stripe, drift) for number, (kind, stripe) in places.items() if kind == "rep"]
    found = [broken for broken in found if broken is not None]
    if not found:
        return "safe"
    entry, clause = min(found)
    return f"! broken {clause} {entry}"


if __name__ == "__main__":
    print(audit(sys.stdin.read().splitlines()))
