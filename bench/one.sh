#!/usr/bin/env bash
# How fast `hg_pushd one` reads a bundle with one `output` part of 64 MiB, beside `cat` and `sha1sum` on the
# same file, and how much memory it takes at most: with the payload as one chunk, in chunks of 32 KiB, and in
# chunks of 16 bytes. Beside it a C program that reads by 4,096 bytes and keeps them, since most of the time
# goes into the pages that the payload is kept in. Both run as the Makefile has it, where the C library asks
# the system for huge pages, and once more where it does not. All in one run, in which the commands take
# turns; of each the best of eleven counts.
set -eu
cd "$(dirname "$0")/.."
work=$(mktemp -d)
trap 'rm -rf "$work"' EXIT

# a bundle with so many bytes of payload in chunks of so many bytes
write_bundle() {
    python3 - "$@" <<'PY'
import sys

path, size, chunk = sys.argv[1], int(sys.argv[2]), int(sys.argv[3])
header = bytes([6]) + b"output" + bytes(4) + bytes(2)
one = chunk.to_bytes(4, "big") + (bytes(range(256)) * (chunk // 256 + 1))[:chunk]
with open(path, "wb") as out:
    out.write(b"HG20" + bytes(4) + len(header).to_bytes(4, "big") + header)
    for _ in range(size // chunk):
        out.write(one)
    out.write(bytes(4) + bytes(4))
PY
}

cc -O2 -o "$work/keep" bench/keep.c

# MB/s and the peak of each command on that bundle; a process of its own, since a child's peak is no less than
# its parent's
measure() {
    python3 - "$@" <<'PY'
import os, subprocess, sys, time

bundle, size, keep = sys.argv[1], int(sys.argv[2]), sys.argv[3]
small = {name: value for name, value in os.environ.items() if name != "GLIBC_TUNABLES"}
huge = dict(small, GLIBC_TUNABLES="glibc.malloc.hugetlb=1")
program = ["build/hg_pushd", "one"]
commands = (
    ("cat", ["cat"], small),
    ("sha1sum", ["sha1sum"], small),
    ("C, kept", [keep], huge),
    ("hg_pushd one", program, huge),
    ("C, small pages", [keep], small),
    ("one, small pages", program, small),
)


def run(command, environment):
    with open(bundle, "rb") as source, open(os.devnull, "wb") as sink:
        start = time.perf_counter()
        child = subprocess.Popen(command, stdin=source, stdout=sink, env=environment)
        _, status, usage = os.wait4(child.pid, 0)
        took = time.perf_counter() - start
    if status != 0:
        sys.exit(f"{command[0]}: status {status}")
    return took, usage.ru_maxrss * 1024


figures = {label: [] for label, _, _ in commands}
for _ in range(11):
    for label, command, environment in commands:
        figures[label].append(run(command, environment))
for label, runs in figures.items():
    least = min(took for took, _ in runs)
    peak = max(most for _, most in runs)
    rate = f"{size / least / 1e6:7.0f} MB/s of payload"
    print(f"  {label:16} {rate}   peak {peak / size:5.2f} times the payload")
PY
}

size=$((64 * 1024 * 1024))
for chunk in $size 32768 16; do
    write_bundle "$work/bundle" $size $chunk
    echo "chunks of $chunk bytes: a bundle of $(stat -c %s "$work/bundle") bytes"
    measure "$work/bundle" $size "$work/keep"
done
