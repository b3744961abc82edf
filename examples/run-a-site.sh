#!/usr/bin/env bash
# An administrator's first day with a site, on this machine: its nodes are started and registered, a file is stored, the disk of an OSD is
# lost and another OSD takes its place, a node is started on another's store, and all nodes are stopped and started. Each command is
# printed before it is run, and so is what it writes; `docs/operations.md` has the same steps. Some fifteen seconds. All nodes end with
# this script, and their stores go.
#   examples/run-a-site.sh [PORT]
# PORT is the first of seven that are used, 7500 where none is given. The status is 0 if no command ended otherwise than it should.
set -u
here=$(cd "$(dirname "$0")" && pwd)
program=$(bash "$here/../tests/build.sh") || exit 1
port=${1:-7500}
folder=$(mktemp -d)
declare -A nodes
trap 'kill -9 "${nodes[@]}" 2>/dev/null; rm -rf "$folder"' EXIT
cd "$folder" || exit 1
failed=0

# An address of this site: that of its first port, or of one further on.
at() {
    echo "127.0.0.1:$((port + $1))"
}

# What all commands of the site share.
export XTFS_DIR XTFS_KEY=5ec7e7 XTFS_LEASE=2000 XTFS_DRIFT=200
XTFS_DIR=$(at 0)
echo "$ export XTFS_DIR=$XTFS_DIR XTFS_KEY=$XTFS_KEY XTFS_LEASE=$XTFS_LEASE XTFS_DRIFT=$XTFS_DRIFT"

# Starts the node of this number with these words. It has said that it is ready when this returns.
start() {
    local node=$1
    shift
    echo "$ xtfs $* &"
    mkfifo said
    "$program" "$@" </dev/null >said &
    nodes[$node]=$!
    disown
    head -n 1 said
    rm said
}

# The node of this number is killed, as at a failure of its machine.
lose() {
    kill -9 "${nodes[$1]}"
    while kill -0 "${nodes[$1]}" 2>/dev/null; do sleep 0.1; done
    unset "nodes[$1]"
}

# A command that should end with this status. What it says on standard error is printed after what it writes.
ends_with() {
    local status=$1
    shift
    echo "$ xtfs $*"
    "$program" "$@" </dev/null 2>errors
    local ended=$?
    cat errors
    [ "$ended" -eq 0 ] || echo "(status $ended)"
    [ "$ended" -eq "$status" ] || failed=1
}

start 900 dir --listen "$(at 0)" --store dir
start 901 mrc --listen "$(at 1)" --store mrc
for osd in 1 2 3; do
    start $osd osd --id $osd --listen "$(at $((1 + osd)))" --store "osd-$osd"
done
ends_with 0 register 901 2 "$(at 1)"
for osd in 1 2 3; do
    ends_with 0 register $osd 1 "$(at $((1 + osd)))"
done
ends_with 0 nodes
sleep 1 # the metadata server asks for the OSDs at each of its Wakes
ends_with 0 mkdir /docs
ends_with 0 put /docs/first --replicas 3 --pattern 100000

echo '# the disk of OSD 3 is lost'
lose 3
rm osd-3 osd-3.node
ends_with 0 replicas /docs/first
ends_with 0 get /docs/first --at 99998 --len 2 --hex
ends_with 0 unregister 3
start 4 osd --id 4 --listen "$(at 5)" --store osd-4
ends_with 0 register 4 1 "$(at 5)"
ends_with 0 nodes
sleep 1
ends_with 0 put /docs/second --replicas 3 --pattern 3
ends_with 0 replicas /docs/second
ends_with 0 ls /docs

echo "# a node on another's store"
ends_with 13 osd --id 5 --listen "$(at 6)" --store osd-4

echo '# all nodes are stopped, and started again'
for node in 1 2 4 901 900; do lose $node; done
start 900 dir --listen "$(at 0)" --store dir
start 901 mrc --listen "$(at 1)" --store mrc
for osd in 1 2 4; do
    start $osd osd --id $osd --listen "$(at $((1 + osd)))" --store "osd-$osd"
done
ends_with 0 get /docs/first --at 99998 --len 2 --hex
ends_with 0 get /docs/second --hex
exit $failed
