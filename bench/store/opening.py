"""The least memory that large stores are opened in, and the time: opening.py PROGRAM [FOLDER [ROUNDS [WAY..]]]

Makes stores in FOLDER (build/store), sparse where bytes are zeros: nine pushes of 240 MiB, each of four parts of up to
64 MiB that the server passes over; nine of seven parts of 34 MiB; 4,096 pushes of 64 KiB to 1 MiB; 2,048 pushes of a
changeset and a file of 1 MiB, and the same changesets with files of one byte, which is what the run of those takes. For
each command, or those of WAY, it tells the least address space in steps of 16 MiB under which the command works, the
middle of ROUNDS (3) of its time with no bound and of its processor's, both beside those of `sha1sum` of the file, and
its peak of resident memory. `host` is timed up to where it listens. `cut` ends the store before its last
push. Beside them, what bench/store/plain.c takes to append and sync as many bytes, in batches of 16 records of 1 MiB.
"""
import hashlib
import os
import resource
import shutil
import signal
import statistics
import struct
import subprocess
import sys
import time

sys.dont_write_bytecode = True
TOP = os.path.dirname(os.path.dirname(os.path.dirname(os.path.abspath(__file__))))
sys.path.append(f"{TOP}/tests")
from bundles import NULL, header, node_of, number

MIB = 1 << 20
LIMITS = (65536, 67108864, 268435456, 10000, 16777216, 1024, 2147483647)
WAYS = {"host": [], "report": [], "log": [], "log --canonical": ["--canonical"], "cut": []}
CHUNK = 16 * MIB
ZEROS = memoryview(bytes(MIB))


def parts_of(sizes):
    """The pieces of a bundle of parts with such payloads: bytes, or how many zeros."""
    pieces = [b"HG20" + number(0)]
    for place, size in enumerate(sizes):
        pieces.append(header(b"other", place, ()))
        while size:
            some = min(size, CHUNK)
            pieces += [number(some), some]
            size -= some
        pieces.append(number(0))
    return pieces + [number(0)]


def entry(node, parent, link, size):
    """An entry of a changegroup whose text has so many bytes, up to that text."""
    return number(size + 116) + node + parent + NULL + NULL + link + number(0) * 2 + number(size)


def changesets(count, size):
    """The pieces of so many bundles of a changeset each, on the one before, with a file of so many zeros."""
    node = NULL
    for place in range(count):
        text = b"0" * 40 + b"\ntest\n0 0\n\nchangeset %d" % place
        before, node = node, node_of(text, node)
        manifest = b"f\0" + b"0" * 40 + b"\n"
        group = [entry(node, before, node, len(text)) + text + number(0)
                 + entry(node_of(manifest), NULL, node, len(manifest)) + manifest + number(0)
                 + number(5) + b"f" + entry(node_of(b""), NULL, node, size), size, number(0) * 2]
        total = sum(it if isinstance(it, int) else len(it) for it in group)
        yield [b"HG20" + number(0) + header(b"CHANGEGROUP", 0, [(True, b"version", b"02")]) + number(total), *group,
               number(0) * 2]


STORES = {"nine of 240 MiB": lambda: [parts_of([64 * MIB - 64] * 3 + [48 * MIB])] * 9,
          "nine of 7 times 34 MiB": lambda: [parts_of([34 * MIB] * 7)] * 9,
          "4096 of 64 KiB to 1 MiB": lambda: [parts_of([MIB >> place % 5]) for place in range(4096)],
          "2048 of a changeset and a file of 1 MiB": lambda: changesets(2048, MIB),
          "2048 of a changeset and a file of 1 byte": lambda: changesets(2048, 1)}


def inner_digest(pieces):
    """Its length and its SHA-1."""
    digest, length = hashlib.sha1(), 0
    for piece in pieces:
        if isinstance(piece, int):
            for at in range(0, piece, MIB):
                digest.update(ZEROS[:min(MIB, piece - at)])
            length += piece
        else:
            digest.update(piece)
            length += len(piece)
    return length, digest.digest()


def write_store(path, pushes):
    """Writes a store, with a hole for each payload. Gives how many pushes it has."""
    head = struct.pack(">8sBB7I", b"HGPUSHES", 2, 0, *LIMITS) + b"the name of this"
    known, digest, place = {}, hashlib.sha1(head).digest(), -1
    with open(path, "wb") as file:
        file.write(head)
        for place, pieces in enumerate(pushes):
            if tuple(pieces) not in known:
                known[tuple(pieces)] = inner_digest(pieces)
            length, inner = known[tuple(pieces)]
            label = struct.pack(">IQB", length, place, 3) + b"ann"
            digest = hashlib.sha1(digest + label + inner).digest()
            file.write(b"\xff" + label + digest)
            for piece in pieces:
                if isinstance(piece, int):
                    file.seek(piece, os.SEEK_CUR)
                else:
                    file.write(piece)
        file.write(b"\0")
    return place + 1


def run(words, limit=None):
    """Seconds, those of a processor, resident MiB at most, and whether a command did its work. `host` did once it
    listens."""
    def bound():
        if limit:
            resource.setrlimit(resource.RLIMIT_AS, (limit, limit))
    serves = "host" in words
    began = time.monotonic()
    child = subprocess.Popen(words, stdout=subprocess.DEVNULL, stderr=subprocess.PIPE if serves else subprocess.DEVNULL,
                             preexec_fn=bound)
    done = serves and any(b"listening" in line for line in child.stderr)
    took = time.monotonic() - began
    if serves:
        os.kill(child.pid, signal.SIGKILL)
    _, status, used = os.wait4(child.pid, 0)
    child.returncode = os.waitstatus_to_exitcode(status)
    took = took if serves else time.monotonic() - began
    return took, used.ru_utime + used.ru_stime, used.ru_maxrss / 1024, done or child.returncode == 0


def command(program, way, store, count):
    words = [program, way.split()[0], "--store", store, *WAYS[way]]
    if way == "host":
        words += ["--listen", "127.0.0.1:0"]
    return words + ["--at", str(count - 1)] if way == "cut" else words


def prepare(way, path):
    """A cut is made of a copy, of which the holes stay holes."""
    if way != "cut":
        return os.path.dirname(path)
    folder = os.path.dirname(path) + "-cut"
    shutil.rmtree(folder, ignore_errors=True)
    os.makedirs(folder)
    subprocess.run(["cp", "--sparse=always", path, f"{folder}/pushes"], check=True)
    return folder


def least(program, way, path, count):
    """The least address space in MiB, in steps of 16, under which a command works; None above 2 GiB."""
    low, high = 0, 128
    while high - low > 1:
        middle = (low + high) // 2
        worked = run(command(program, way, prepare(way, path), count), middle * 16 * MIB)[3]
        low, high = (low, middle) if worked else (middle, high)
    return high * 16 if high < 128 else None


def appending(folder, size):
    """Seconds in which the C program appends and syncs so many bytes."""
    plain = f"{folder}/plain"
    subprocess.run(["cc", "-O2", "-pthread", "-o", plain, f"{TOP}/bench/store/plain.c", "-lsqlite3", "-lcrypto"],
                   check=True)
    told = subprocess.run([plain, "batch", str(MIB), "16"], cwd=folder, capture_output=True, check=True).stdout
    os.remove(f"{folder}/speed.plain")
    return size / (float(told.split()[-1]) * MIB)


def main():
    program = os.path.abspath(sys.argv[1])
    folder = os.path.abspath(sys.argv[2] if len(sys.argv) > 2 else f"{TOP}/build/store")
    rounds = int(sys.argv[3]) if len(sys.argv) > 3 else 3
    for name, pushes in STORES.items():
        store = f"{folder}/opening"
        shutil.rmtree(store, ignore_errors=True)
        os.makedirs(store)
        path = f"{store}/pushes"
        count, size = write_store(path, pushes()), os.path.getsize(path)
        sums = [run(["sha1sum", path]) for _ in range(rounds)]
        sums, own = (statistics.median(it[at] for it in sums) for at in (0, 1))
        plain = statistics.median(appending(folder, size) for _ in range(rounds))
        print(f"{name}: {size} bytes, sha1sum {sums:.2f} s, of a processor {own:.2f} s, appended and synced in C"
              f" {plain:.2f} s", flush=True)
        for way in sys.argv[4:] or WAYS:
            runs = [run(command(program, way, prepare(way, path), count)) for _ in range(rounds)]
            took, spent = (statistics.median(it[at] for it in runs) for at in (0, 1))
            room = least(program, way, path, count)
            print(f"  {way}: {took:.2f} s, {took / sums:.2f} times sha1sum, of a processor {spent:.2f} s,"
                  f" {spent / own:.2f} times, {max(it[2] for it in runs):.0f} MiB resident, at least {room} MiB of"
                  f" address space{'' if all(it[3] for it in runs) else ', and fails'}", flush=True)
        shutil.rmtree(store)
        shutil.rmtree(f"{store}-cut", ignore_errors=True)
    return 0


if __name__ == "__main__":
    sys.exit(main())
