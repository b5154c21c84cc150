#!/usr/bin/env bash
# Pushes a second of the threads of build/store_threads, beside those of plain.c that share in the same way, on files in
# memory with a sync that sleeps: what the two make of a disk that nobody else uses.
#
#     bench/store/slow.sh [ROUNDS]
#
# The middle of ROUNDS (5) is told, for syncs of 0.15 and of 2 milliseconds, 2 KiB and 8 and 64 threads.
set -eu
top=$(cd "$(dirname "$0")/../.." && pwd)
here=$top/bench/store
work=$(mktemp -d -p /dev/shm)
trap 'rm -rf "$work"' EXIT
cd "$work"
cc -O2 -pthread -o plain "$here/plain.c" -lsqlite3 -lcrypto
cc -O2 -shared -fPIC -o slow.so "$here/slow.c"
for slow in 150000 2000000; do
    for _ in $(seq "${1:-5}"); do
        for number in 8 64; do
            SLOW=$slow LD_PRELOAD=./slow.so ./plain group 2048 "$number"
            SLOW=$slow LD_PRELOAD=./slow.so "$top/build/store_threads" 2048 "$number"
            rm -rf speed.threads
        done
    done > told
    echo "a sync of $slow ns:"
    "$here/middle.py" told
done
