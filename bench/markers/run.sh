#!/bin/sh
# Speeds of reading and merging markers, and of base-85 beside Python's `base64` on the same bytes in the same
# run.
set -eu
. "$(dirname "$0")/../scratch.sh"
scratch_program markers marker_speed 'anyhow hg_types hg_obs'
scratch_run ' a second\|MB/s'
python3 - <<'PYTHON'
import base64, time
data = bytes(i % 251 for i in range(1 << 22))
def least(call, given):
    best = None
    for _ in range(5):
        start = time.perf_counter()
        call(given)
        taken = time.perf_counter() - start
        best = taken if best is None or taken < best else best
    return best
text = base64.b85encode(data)
print(f"Python, base-85 written: {len(data) / least(base64.b85encode, data) / 1e6:.0f} MB/s of bytes")
print(f"Python, base-85 read: {len(data) / least(base64.b85decode, text) / 1e6:.0f} MB/s of bytes")
PYTHON
