#!/usr/bin/env bash
# A cluster of three OSDs on this machine stores a file on all three, and reads it back. The status is 0 where what was read is right.
#   examples/first-file.sh [--unproved] [PORT]
# PORT is the first of five that are used, 7400 where none is given.
#
# Where the proved program is built (`tests/build.sh` builds it), each node is a process of it, each command is printed before it is run,
# and one OSD is killed before the file is read again: some five seconds. Else, or where that is asked for, the kit runs the same sources
# with no proof: `xtfs cluster` starts the nodes and carries out the client commands of its input, in some three minutes, most of them for
# compiling. One line on standard error says which of the two it is. All nodes end with this script, and their stores go.
set -u
here=$(cd "$(dirname "$0")" && pwd)
proved=yes
if [ "${1:-}" = --unproved ]; then
    proved=no
    shift
fi
port=${1:-7400}
if ! [[ $port =~ ^[0-9]{1,5}$ ]]; then
    echo "first-file.sh: PORT is a number: $port" >&2
    exit 2
fi

if [ "$proved" = no ] || ! xtfs=$(bash "$here/../tests/built.sh"); then
    command -v rt >/dev/null || {
        echo "first-file.sh: the kit's command rt isn't on the PATH (README.md says where the kit comes from)" >&2
        exit 1
    }
    echo "first-file.sh: with no proof, in some three minutes (tests/build.sh builds the proved program)" >&2
    lines=('mkdir /docs' 'put /docs/first --replicas 3 --pattern 300000' 'get /docs/first --at 131071 --len 3 --hex')
    words=(cluster --osds 3 --port "$port" --store site- --key 5ec7e7 --lease 4000 --drift 400)
    said=$(mktemp)
    trap 'rm -f "$said"' EXIT
    echo "xtfs ${words[*]}, with the lines"
    printf '    %s\n' "${lines[@]}"
    cd "$here/../crates/xtfs" || exit 1
    wrote=$(printf '%s\n' "${lines[@]}" | rt try --seconds 120 -- "${words[@]}" 2>"$said")
    printf '%s\n' "$wrote"
    # Each line wrote what it wrote, and ended with 0; the bytes are those of the pattern.
    [ "$wrote" = $'= 0\n300000\n= 0\n313233\n= 0' ] && exit
    cat "$said" >&2
    exit 1
fi
echo "first-file.sh: by the proved program" >&2
folder=$(mktemp -d)
nodes=()
trap 'kill -9 "${nodes[@]}" 2>/dev/null; rm -rf "$folder"' EXIT

# A node is started with a word of its role and options of its own, and has said that it is ready when this returns.
start() {
    local place=$1 store=$2
    shift 2
    mkfifo "$folder/said"
    echo "xtfs $* --listen 127.0.0.1:$((port + place)) --store $store --key 5ec7e7 --lease 2000 --drift 200 &"
    "$xtfs" "$@" --listen "127.0.0.1:$((port + place))" --store "$folder/$store" --key 5ec7e7 --lease 2000 --drift 200 \
        >"$folder/said" </dev/null &
    nodes[place]=$!
    disown
    head -n 1 "$folder/said"
    rm "$folder/said"
}

# A client command, tried again until it ends well: the OSDs are silent for a lease at first.
client() {
    echo "xtfs $* --dir 127.0.0.1:$port --lease 2000 --drift 200"
    local tries=0
    until "$xtfs" "$@" --dir "127.0.0.1:$port" --lease 2000 --drift 200 <"$folder/given" >"$folder/wrote"; do
        tries=$((tries + 1))
        if [ "$tries" -gt 10 ]; then
            cat "$folder/wrote"
            exit 1
        fi
        sleep 1
    done
    cat "$folder/wrote"
}

: >"$folder/given"
start 0 dir dir
start 1 mrc mrc --dir "127.0.0.1:$port"
for osd in 1 2 3; do
    start $((osd + 1)) "osd-$osd" osd --id "$osd" --dir "127.0.0.1:$port"
done
client register 901 2 "127.0.0.1:$((port + 1))"
for osd in 1 2 3; do
    client register "$osd" 1 "127.0.0.1:$((port + osd + 1))"
done
client mkdir /docs
echo 'What is acknowledged is kept by a majority.' >"$folder/given"
client put /docs/first --replicas 3
: >"$folder/given"
client get /docs/first
cp "$folder/wrote" "$folder/before"
echo "kill -9 OSD 1"
kill -9 "${nodes[2]}"
client get /docs/first
cmp "$folder/wrote" "$folder/before"
