#!/usr/bin/env bash
# How long the directory service takes to answer by the number of a node, and how that grows with the nodes that are registered.
#   bench/registry.sh [PROGRAM]
# Registers 10,000 and 100,000 nodes, and asks for one after the other of them, in no order. Prints the microseconds a request: the
# best of five runs, by the processor time of the process, less the best of five runs that only register. Last comes how much longer a
# request takes with ten times the nodes: it is 10 where rows are looked through one by one.
set -eu
here=$(cd "$(dirname "$0")" && pwd)
program=${1:-$(bash "$here/../tests/build.sh" xt_bench)}
exec python3 - "$program" <<'PYTHON'
import resource
import subprocess
import sys

program = sys.argv[1]
GETS = 400_000


def seconds(nodes, gets):
    """The processor seconds of a run that registers this many nodes and asks this often."""
    before = resource.getrusage(resource.RUSAGE_CHILDREN)
    subprocess.run([program, "registry", str(nodes), str(gets)], check=True, stdout=subprocess.DEVNULL)
    after = resource.getrusage(resource.RUSAGE_CHILDREN)
    return after.ru_utime + after.ru_stime - before.ru_utime - before.ru_stime


def best(nodes, gets):
    return min(seconds(nodes, gets) for _ in range(5))


few, many = ((best(nodes, GETS) - best(nodes, 0)) / GETS for nodes in (10_000, 100_000))
print(f"of 10,000 nodes: {few * 1e6:.2f} us a request, of 100,000: {many * 1e6:.2f} us, {many / few:.2f} times as long")
PYTHON
