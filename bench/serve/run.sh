#!/bin/sh
# Pushes a second through the server by 1, 2, 4 and 8 threads, beside a book in a lock and one thread at a book
# alone, how long the lock is held for an answer, and how many futex calls a push makes at 8 threads.
set -eu
. "$(dirname "$0")/../scratch.sh"
scratch_program serve serve_speed 'anyhow hg_types hg_parts hg_push hg_queue hg_repo hg_serve crossbeam_queue atomic_table'
if ! "$rt" run > "$scratch/told" 2>&1; then
    grep -v -e ': proved' -e 'modules loaded' "$scratch/told" | tail -40
    exit 1
fi
grep ' threads: ' "$scratch/told"
mkdir -p "$top/build"
cp out/serve_speed "$top/build/serve_speed"
echo "The program is at build/serve_speed."
if command -v strace > /dev/null; then
    strace -f -c --seccomp-bpf -e trace=futex -o "$scratch/calls" out/serve_speed 8 > /dev/null
    awk '$NF == "futex" { calls = $4 }
        END { printf "8 threads: %.4f futex calls a push (wanted: under 0.1000)\n", calls / 800000 }' "$scratch/calls"
else
    echo "strace is missing: the futex calls of a push were not counted."
fi
