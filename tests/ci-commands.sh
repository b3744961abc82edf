#!/usr/bin/env bash
# The tables of `docs/commands.md` and the program agree: which commands there are, the positionals of each in their order, the options that it
# needs and those that it may have (by `xtfs help` and `xtfs help COMMAND`), what each value is (by what standard error says of a wrong one),
# and the values of options that aren't given (by the constants in the code that read the words, and for `check` by its output). Ends by itself, in
# some seconds.
set -u
here=$(cd "$(dirname "$0")" && pwd)
program=$(bash "$here/build.sh") || exit 1
exec timeout 120 python3 - "$program" "$here/.." <<'PYTHON'
import os
import re
import subprocess
import sys
import tempfile

PROGRAM, TOP = sys.argv[1:]
NODES = ["dir", "mrc", "osd"]
NO_CLIENTS = ["replay", "audit", "make", "check", "scrub", "sweep", "cluster", *NODES]
ADDRESSES = {"addr", "dir", "listen"}
PATHS = {"path", "from", "to", "store", "mrc-store"}
# A value that each argument takes, for a command line that is wrong in one other word alone.
GOOD = {
    "number": "7", "size": "5", "node": "3", "kind": "1", "addr": "127.0.0.1:9", "path": "/v/f", "from": "/v/f", "to": "/v/g", "mode": "644",
    "listen": "127.0.0.1:0", "dir": "127.0.0.1:9", "store": "s", "mrc-store": "t", "key": "00", "id": "3", "osds": "1", "port": "7400",
}
failures = []


def run(words):
    """A run in a folder of its own, with an empty file `s`."""
    env = {name: value for name, value in os.environ.items() if not name.startswith("XTFS_")}
    with tempfile.TemporaryDirectory() as folder:
        with open(os.path.join(folder, "s"), "wb"):
            pass
        return subprocess.run([PROGRAM, *words], stdin=subprocess.DEVNULL, capture_output=True, text=True, timeout=30, cwd=folder, env=env)


def told(words):
    """What the program says on standard error."""
    return run(words).stderr


def expect(what, page, program):
    if page != program:
        failures.append(f"{what}: the page has {page}, the program {program}")


def section(text, heading):
    """The first words of the lines under a heading of a help text."""
    found = re.search(rf"^{heading}:\n((?:  .*\n?|\n(?=  ))*)", text, re.M)
    return [line.split()[0] for line in found[1].splitlines() if re.match(r" {2,6}\S", line)] if found else []


def program_commands():
    return [name for name in section(told(["help"]), "Commands") if name != "help"]


class Command:
    """A command as the program's help has it."""

    def __init__(self, name):
        self.name = name
        text = told(["help", name])
        self.help = text
        usage = re.search(r"^Usage: (.*)$", text, re.M)[1].split()
        self.needed = {word[2:] for word in usage if word.startswith("--")}
        # The value of a needed option has its name, and is no positional.
        self.positionals = [word[1:-1] for word in usage if re.fullmatch(r"<[a-z]+>", word) and word[1:-1] not in self.needed]
        self.options = {word[2:].rstrip(",") for word in section(text, "Options") if word.startswith("--")} - {"help", "version"}

    def words(self, wrong, value):
        """A command line in which the argument `wrong` has this value, and all others are good."""
        words = [self.name] + [value if name == wrong else GOOD[name] for name in self.positionals]
        for option in sorted(self.needed | ({wrong} & self.options)):
            words += [f"--{option}", value if option == wrong else GOOD[option]]
        return words


def rows(page, first):
    """The cells of the table whose first heading this is."""
    lines = iter(page.splitlines())
    for line in lines:
        if line.startswith(f"| {first} |"):
            break
    next(lines)
    for line in lines:
        if not line.startswith("|"):
            return
        yield [cell.strip() for cell in re.split(r"(?<!\\)\|", line)[1:-1]]


def page_commands(page):
    """Of each command its positionals and the options that it needs."""
    commands = {}
    for cells in rows(page, "command"):
        for call in re.findall(r"`([^`]+)`", cells[0]):
            name, *words = call.split()
            options = [word[2:] for word in words if word.startswith("--")]
            places = [place for place, word in enumerate(words) if word.startswith("--")]
            positionals = [word for place, word in enumerate(words) if not word.startswith("--") and place - 1 not in places]
            commands[name] = ([word.lower() for word in positionals], set(options))
    return commands


def page_values(page, clients):
    """Of each command and argument what its value is, and what goes for it if it isn't given."""
    values = {}
    for names, of, value, absent in rows(page, "name"):
        whose = []
        for word in of.replace("`", "").split(", "):
            whose += {"nodes": NODES, "clients": clients}.get(word, [word])
        for name in re.findall(r"`([^`]+)`", names):
            for command in whose:
                if (command, name.lstrip("-").lower()) in values:
                    failures.append(f"the page has {name} of {command} twice")
                values[command, name.lstrip("-").lower()] = (name.startswith("--"), value, absent)
    return values


def said_of(command, name):
    """What the program says that a value of this argument is."""
    wrong = "a" * 65 if name in ADDRESSES else "a" * 65_536 if name in PATHS else "?"
    found = re.search(rf"isn't a value of '{name}': that is (.*)$", told(command.words(name, wrong)), re.M)
    return found[1] if found else "never refused"


def constant(path, pattern):
    with open(os.path.join(TOP, "crates", path)) as file:
        return re.search(pattern, file.read())[1].replace("_", "")


def defaults():
    """What the code has for options that aren't given."""
    usual = "asked_jobs/src/asking.rt"
    reading = "command_words/src/reading.rt"
    return {
        "lease": constant("xt_base/src/times.rt", r"DEFAULT_LEASE: u64 = ([0-9_]+);"),
        "drift": constant("xt_base/src/times.rt", r"DEFAULT_DRIFT: u64 = ([0-9_]+);"),
        **{name: constant(usual, rf"\b{name}: ([0-9_]+),") for name in ("turns", "limit", "user", "group", "tries")},
        "id": constant(usual, r"\bid: NodeId\(([0-9]+)\)"),
        "replicas": constant(reading, r"\(None, None\) => Some\(Layout::Replicated\(([0-9]+)\)\)"),
        "stripe": constant(reading, r'"stripe", [0-9_]+, [0-9_]+, ([0-9_]+)\)'),
    }


def main():
    with open(os.path.join(TOP, "docs", "commands.md")) as file:
        page = file.read()
    absent = defaults()
    names = program_commands()
    on_page = page_commands(page)
    expect("the commands", sorted(on_page), sorted(names))
    clients = [name for name in names if name not in NO_CLIENTS]
    values = page_values(page, clients)
    checked = 0
    for name in names:
        command = Command(name)
        positionals, needed = on_page.get(name, ([], set()))
        needed = needed | ({"dir"} if name in clients else set())
        expect(f"the positionals of {name}", positionals, command.positionals)
        expect(f"what {name} needs", sorted(needed), sorted(command.needed))
        options = {argument for (of, argument), row in values.items() if of == name and row[0]}
        expect(f"the options of {name}", sorted(options), sorted(command.options))
        for argument in [*command.positionals, *sorted(command.options)]:
            if (name, argument) not in values:
                failures.append(f"the page doesn't say what {argument} of {name} is")
                continue
            is_option, value, without = values[name, argument]
            checked += 1
            if value.startswith("none: "):
                expect(f"whether {argument} of {name} has a value", False, f"--{argument} <" in command.help)
                continue
            expect(f"{argument} of {name}", value, said_of(command, argument))
            if argument in command.needed:
                expect(f"{argument} of {name}, if it isn't given,", without, "it is needed")
            elif without.isdigit():
                expect(f"{argument} of {name}, if it isn't given,", without, absent.get(argument))
            elif is_option:
                expect(f"{argument} of {name}, which has a value if it isn't given,", False, argument in absent)
    limit = re.search(r"^limit (\d+)$", run(["check", "--store", "s"]).stdout, re.M)
    expect("the limit of check", values["check", "limit"][2], limit[1] if limit else None)
    print("\n".join(failures + [f"{len(names)} commands, {checked} values: {len(failures)} differ from docs/commands.md"]))
    return 1 if failures or not checked else 0


sys.exit(main())
PYTHON
