"""A large store read in little memory: reading.py PROGRAM [FOLDER [ROUNDS]]

Makes a store of 2 GiB in FOLDER (build/store), of 32 pushes that each carry 64 MiB of zeros in a part that the server
passes over, so that the file is sparse. `log`, `log --canonical` and `report` read it, in turns with `sha1sum` of its
file, under an address space of 400 MiB. Of each the middle of ROUNDS (3) is told, with its peak of resident memory.
`cut` ends it before its last push once, and `upgrade` writes the same store of version 1 anew: these need 4 GiB of
disk.
"""
import hashlib
import os
import resource
import statistics
import struct
import subprocess
import sys
import time

sys.dont_write_bytecode = True
TOP = os.path.dirname(os.path.dirname(os.path.dirname(os.path.abspath(__file__))))
sys.path.append(f"{TOP}/tests")
from bundles import header, number

PUSHES = 32
SIZE = 64 << 20
LIMIT = 400 << 20
LIMITS = (65536, 67108864, 268435456, 10000, 16777216, 1024, 2147483647)


def write_store(path, version=2):
    """Writes the store, with a hole for each payload."""
    head = struct.pack(">8sBB7I", b"HGPUSHES", version, 0, *LIMITS) + (b"the name of this" if version == 2 else b"")
    front = b"HG20" + number(0) + header(b"other", 0, ()) + number(SIZE)
    back = number(0) + number(0)
    inner = hashlib.sha1(front)
    for _ in range(SIZE >> 20):
        inner.update(bytes(1 << 20))
    inner.update(back)
    length = struct.pack(">I", len(front) + SIZE + len(back))
    digest = hashlib.sha1(head).digest()
    with open(path, "wb") as file:
        file.write(head)
        for place in range(PUSHES):
            label = length + struct.pack(">QB", place, 3) + b"ann" if version == 2 else length
            digest = hashlib.sha1(digest + (label if version == 2 else b"") + inner.digest()).digest()
            file.write((b"\xff" if version == 2 else b"\1") + label + digest + front)
            file.seek(SIZE, os.SEEK_CUR)
            file.write(back)
        file.write(b"\0")


def run(words):
    """Seconds, resident MiB at most, and the status of a command."""
    began = time.monotonic()
    child = subprocess.Popen(words, stdout=subprocess.DEVNULL,
                             preexec_fn=lambda: resource.setrlimit(resource.RLIMIT_AS, (LIMIT, LIMIT)))
    _, status, used = os.wait4(child.pid, 0)
    child.returncode = os.waitstatus_to_exitcode(status)
    return time.monotonic() - began, used.ru_maxrss / 1024, child.returncode


def main():
    program = os.path.abspath(sys.argv[1])
    folder = sys.argv[2] if len(sys.argv) > 2 else f"{TOP}/build/store"
    rounds = int(sys.argv[3]) if len(sys.argv) > 3 else 3
    store = f"{folder}/reading"
    os.makedirs(store, exist_ok=True)
    path = f"{store}/pushes"
    write_store(path)
    ways = {"sha1sum": ["sha1sum", path], "log": [program, "log", "--store", store],
            "log --canonical": [program, "log", "--store", store, "--canonical"],
            "report": [program, "report", "--store", store]}
    told = {name: [] for name in ways}
    for _ in range(rounds):
        for name, words in ways.items():
            told[name].append(run(words))
    print(f"{os.path.getsize(path)} bytes")
    for name, runs in told.items():
        seconds, peak = statistics.median(it[0] for it in runs), max(it[1] for it in runs)
        print(f"{name}: {seconds:.2f} s, {peak:.0f} MiB, status {runs[-1][2]}")
    for name, version, words in (("cut", 2, ["--at", str(PUSHES - 1)]), ("upgrade", 1, [])):
        write_store(path, version)
        seconds, peak, status = run([program, name, "--store", store, *words])
        print(f"{name}: {seconds:.2f} s, {peak:.0f} MiB, status {status}")
        for it in os.listdir(store):
            os.remove(f"{store}/{it}")
    return 0


if __name__ == "__main__":
    sys.exit(main())
