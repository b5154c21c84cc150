#!/bin/sh
# Nanoseconds a step and a push of a book with 1, 64 and 1,024 open pushes of 2, 12 and 100 small parts each, taken round-robin, beside
# plain vectors.
set -eu
. "$(dirname "$0")/../scratch.sh"
rustc --edition 2024 -O -o "$scratch/plain" "$top/bench/book/plain.rs"
scratch_program book book_speed 'anyhow hg_types hg_parts hg_repo hg_push'
if ! "$rt" run > "$scratch/told" 2>&1; then
    grep -v -e ': proved' -e 'modules loaded' "$scratch/told" | tail -40
    exit 1
fi
grep -e ' ns a step' -e ' ns a push' "$scratch/told"
"$scratch/plain"
