#!/usr/bin/env python3
"""How many named definitions and lemmas have a clause for each kind of a type: what a further kind costs. Fewer is better.

    tests/clauses-by-kind.py [TYPE..]

The types are those below if none is given. A clause is counted if the kind's constructor is left of '=': a catch-all isn't one."""

import collections
import os
import re
import sys

TYPES = ["Record", "Payload", "Mark", "Entry", "MetaReq", "MetaAnswer", "RegistryReq", "Reply", "Line", "Call", "Outcome", "Status"]


def files(top):
    """The texts of all definitions and proofs; what a check keeps in out/ is a copy of them."""
    for folder, inside, names in os.walk(top):
        inside[:] = sorted(name for name in inside if name != "out")
        for name in sorted(names):
            if name.endswith(".antt"):
                path = os.path.join(folder, name)
                with open(path, encoding="utf-8") as text:
                    yield path, text.read().split("\n")


def clauses(texts, kind_of):
    """For each kind the (file, name) pairs with a clause of it."""
    found = collections.defaultdict(set)
    for path, lines in texts:
        aliases = {m[1] for line in lines if (m := re.search(rf"\.{kind_of}\.TheVariants as (\w+)", line))}
        if not aliases:
            continue
        pattern = re.compile(r"(?<![\w.])(?:%s)\.(\w+)" % "|".join(aliases))
        for line in lines:
            if " = " in line:
                left = line.split(" = ")[0]
            elif line.rstrip().endswith(" ="):
                left = line.rstrip()[:-2]
            else:
                continue
            if name := re.match(r"\s*(\S+) ", left):
                for kind in pattern.findall(left):
                    found[kind].add((path, name[1]))
    return found


def main():
    top = os.path.join(os.path.dirname(os.path.abspath(__file__)), "..", "crates")
    texts = list(files(top))
    for name in sys.argv[1:] or TYPES:
        kinds = {kind: len(places) for kind, places in clauses(texts, name).items()}
        if not kinds:
            sys.exit(f"there is no type {name} with clauses by kind")
        counts = ", ".join(f"{kind} {count}" for kind, count in sorted(kinds.items(), key=lambda row: row[1]))
        print(f"{name}: {sum(kinds.values()) / len(kinds):.0f} on average: {counts}")


main()
