#!/usr/bin/env bash
# Durable pushes a second, and how long a store takes to open.
#
#     bench/store/run.sh PROGRAM [FOLDER [ROUNDS]]
#
# PROGRAM is hg_pushd. The stores lie on the disk of FOLDER (build/store if it is not told). In one run, in which they
# take turns of a second, and of which the middle of ROUNDS (9) is told:
#
# - pushes of 2 KiB and of 256 KiB by 1, 8 and 64 connections to `hg_pushd host`, and by as many threads at one server
#   and one ledger in one process, where the program of bench/store/threads is at build/store_threads, beside as many
#   threads of a C program that make the same writes and syncs and share them in the same way, the same with a digest
#   of each push, a lock that is held over write and sync, and SQLite;
# - batches of 1, 8 and 64 records by `Log::append` alone, beside a C program that makes the same writes and syncs,
#   where the program of bench/store/program is at build/store_speed;
# - what one thread of C writes of 256 KiB each, with one sync for all, which is what the disk takes;
# - how many writes and syncs a push makes, of the threads in one process and of those in C, where strace is there;
# - seconds to open a store of a million small pushes, until `host` says where it listens, by `report`, and by `log`: of
#   all, and of the last without an index and by it; beside SHA-1 of its file; and of 10,000 beside a replay of them.
set -eu
top=$(cd "$(dirname "$0")/../.." && pwd)
program=$(cd "$(dirname "$1")" && pwd)/$(basename "$1")
folder=${2:-$top/build/store}
rounds=${3:-9}
mkdir -p "$folder"
cd "$folder"
here=$top/bench/store
cc -O2 -pthread -o plain "$here/plain.c" -lsqlite3 -lcrypto
cc -O2 -pthread -o push "$here/push.c"

# Starts `host` over a store, and waits until it says where it listens.
start_host() {
    port=
    "$program" host --store "$1" --listen 127.0.0.1:0 --connections 100 2> listening &
    server=$!
    while [ -z "$port" ] && kill -0 "$server"; do
        sleep 0.01
        port=$(sed -n 's|.*http://127.0.0.1:\([0-9]*\)/.*|\1|p' listening)
    done
}

stop_host() {
    kill "$server"
    wait "$server" 2> wait || true
}

hosted() {
    rm -rf speed.host
    start_host speed.host
    ./push "$port" "$1" "$2"
    stop_host
    rm -rf speed.host
}

# Before each way stand the words that it is run by, if there are any.
plain() {
    rm -f speed.plain speed.sqlite*
    "${@:4}" ./plain "$1" "$2" "$3"
    rm -f speed.plain speed.sqlite*
}

threads() {
    rm -rf speed.threads
    "${@:3}" "$top/build/store_threads" "$1" "$2"
    rm -rf speed.threads
}

for _ in $(seq "$rounds"); do
    for size in 2048 262144; do
        for number in 1 8 64; do
            hosted "$size" "$number"
            plain group "$size" "$number"
            if [ -x "$top/build/store_threads" ]; then
                threads "$size" "$number"
            fi
            for way in digest lock sqlite; do
                plain "$way" "$size" "$number"
            done
            if [ -x "$top/build/store_speed" ]; then
                rm -rf speed
                "$top/build/store_speed" "$size" "$number"
                rm -rf speed
                plain batch "$size" "$number"
            fi
        done
    done
    plain batch 262144 1024
done > told
"$here/middle.py" told

# The calls of the system for a push, by a run that is not timed.
calls() {
    local name=$1
    shift
    "$@" strace -f -c --seccomp-bpf -e trace=pwrite64,fdatasync,futex -o calls > counted
    awk -v name="$name" '
        FNR == NR { size = $2; number = $3; pushes = $5; next }
        { count[$NF] = $4 }
        END { printf "%d bytes, %d: %s, for a push %.2f writes, %.3f syncs, %.1f futex calls\n", size, number, name,
              count["pwrite64"] / pushes, count["fdatasync"] / pushes, count["futex"] / pushes }' counted calls
}

if command -v strace > /dev/null && [ -x "$top/build/store_threads" ]; then
    for size in 2048 262144; do
        for number in 1 8 64; do
            calls threads threads "$size" "$number"
            calls group plain group "$size" "$number"
        done
    done
fi

seconds() {
    start=$(date +%s.%N)
    "$@" > printed
    echo "$(date +%s.%N) $start" | awk '{ printf "%.2f", $1 - $2 }'
}

# How long each way of opening a store takes.
opened() {
    local start
    start=$(date +%s.%N)
    start_host many/store
    echo "$1 pushes: host listens after $(echo "$(date +%s.%N) $start" | awk '{ printf "%.2f", $1 - $2 }') s," \
        "report takes $(seconds "$program" report --store many/store) s," \
        "log $(seconds "$program" log --store many/store) s," \
        "from place $2 without an index $(seconds "$program" log --store many/store --from "$2") s," \
        "by it $(seconds "$program" log --store many/store --from "$2") s," \
        "sha1sum $(seconds sha1sum many/store/pushes) s"
    stop_host
}

"$here/many.py" many 1000000
opened 1,000,000 999000
rm -rf many
"$here/many.py" many 10000 10000
opened 10,000 9900
ulimit -n 15000
echo "10,000 pushes: replay takes $(seconds "$program" replay many/bundles/*) s"
rm -rf many
