#!/bin/sh
# Items a second through the server's queue, beside two queues of plain Rust: name, capacity, putters, items a second.
set -eu
. "$(dirname "$0")/../scratch.sh"
rustc --edition 2024 -O -o "$scratch/plain" "$top/bench/queue/plain.rs"
scratch_program queue queue_speed 'anyhow hg_types hg_queue crossbeam_queue atomic_table'
if ! "$rt" run > "$scratch/told" 2>&1; then
    tail -20 "$scratch/told"
    exit 1
fi
grep '^PartQueue' "$scratch/told"
"$scratch/plain"
