"""The schedules that the scripts beside it replay: reads and writes of 16 bytes on four files, with objects of 4,096 bytes.

    python3 bench/schedules.py REPLICAS LINES CLIENTS

Prints the schedule of LINES lines and CLIENTS clients. REPLICAS is 1 (of two OSDs) or 3.
"""

import sys


def operation(client, file, step):
    """A call of the client: every third one is a read."""
    place = f"{file} {step * 5 % 4} {step * 131 % 4000}"
    if step % 3 == 0:
        return f"read {client} {place} 16"
    return f"write {client} {place} {step:032x}"


def one_replica(length, clients):
    """In turn each client calls, each request is delivered, and then each reply."""
    lines = ["times 1000 100", "osd 1", "osd 2"]
    lines += [f"client {10 + number} 0" for number in range(clients)]
    lines += ["start 1 0", "start 2 0"]
    lines += [f"file {number} rep 4096 {1 + number % 2}" for number in range(1, 5)]
    lines.append("tick 1100")  # the silence of the OSDs is over
    step = 0
    sent = 0
    while len(lines) + 3 * clients <= length:
        for number in range(clients):
            lines.append(operation(10 + number, 1 + step * 7 % 4, step))
            step += 1
        lines += [f"deliver {sent + 1 + number}" for number in range(2 * clients)]
        sent += 2 * clients
    return lines + ["tick 1"] * (length - len(lines))


def settled(calls, messages):
    """The calls, and lines that deliver this many messages, as many as there are lines in all; the last takes what is left."""
    return calls + ["settle 1"] * (messages - len(calls) - 1) + ["settle 1000"]


def three_replicas(length, clients):
    """In turn each client calls on its file, and what is sent is delivered. Each 1,000 lines the leases lapse, and each
    client reads from the next OSD, which becomes the primary."""
    lines = ["times 1000 100", "osd 1", "osd 2", "osd 3"]
    lines += [f"client {10 + number} 0" for number in range(clients)]
    lines += ["start 1 0", "start 2 0", "start 3 0"]
    lines += [f"file {number} rep 4096 1 2 3" for number in range(1, 5)]
    files = [1 + number % 4 for number in range(clients)]
    step = 0
    failovers = 0
    while True:
        if len(lines) >= 1000 * failovers:
            primary = 1 + failovers % 3
            failovers += 1
            turn = ["tick 1100"]
            turn += [f"aim {10 + number} {file} {primary}" for number, file in enumerate(files)]
            reads = [f"read {10 + number} {file} 0 0 16" for number, file in enumerate(files)]
            # of each file a round of a lease and the start of a primary are 16 messages
            turn += settled(reads, 2 * clients + 16 * len(set(files)))
        else:
            calls = [operation(10 + number, file, step + number) for number, file in enumerate(files)]
            # a read is an ask and an answer; a write is also sent to two replicas, and acknowledged
            messages = sum(2 if call.startswith("read") else 6 for call in calls)
            turn = settled(calls, messages)
            step += clients
        if len(lines) + len(turn) > length:
            return lines + ["tick 1"] * (length - len(lines))
        lines += turn


def many_files(length, files):
    """One client calls on this many files in turn, and each request and reply is delivered."""
    lines = ["times 1000 100", "osd 1", "client 10 0", "start 1 0"]
    lines += [f"file {1 + number} rep 4096 1" for number in range(files)]
    lines.append("tick 1100")
    step = 0
    while len(lines) + 3 <= length:
        lines += [operation(10, 1 + step % files, step), f"deliver {2 * step + 1}", f"deliver {2 * step + 2}"]
        step += 1
    return lines + ["tick 1"] * (length - len(lines))


def text_of(lines):
    """The text of lines."""
    return "".join(line + "\n" for line in lines)


def schedule(replicas, length, clients):
    """The text of a schedule."""
    return text_of({1: one_replica, 3: three_replicas}[replicas](length, clients))


if __name__ == "__main__":
    sys.stdout.write(schedule(*map(int, sys.argv[1:])))
