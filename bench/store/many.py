#!/usr/bin/env python3
"""Makes a store of small pushes, and some of them as bundles.

    bench/store/many.py FOLDER COUNT [BUNDLES]

FOLDER/store/pushes gets COUNT records, each a push of one marker on a node of its own (68 bytes), after the head of a
server that does not publish. FOLDER/bundles gets the first BUNDLES of them, each in a file."""
import hashlib
import os
import struct
import sys

LIMITS = 1 << 16, 1 << 26, 1 << 28, 10000, 1 << 24, 1024, (1 << 31) - 1
HEAD = struct.pack(">8sBB7I16s", b"HGPUSHES", 2, 0, *LIMITS, b"the name of this")
BEFORE = b"HG20\0\0\0\0\0\0\0\x11\x0aOBSMARKERS\0\0\0\0\0\0\0\0\0\x1b" + bytes(7)


def bundle(number):
    """A push of one marker without successors."""
    return BEFORE + hashlib.sha1(b"%d" % number).digest() + bytes(8)


def write_store(path, pushes):
    """The file of a store with these pushes, as `host` writes it: each at no time, and by nobody."""
    digest = hashlib.sha1(HEAD).digest()
    with open(path, "wb") as out:
        out.write(HEAD)
        for one in pushes:
            stamp = struct.pack(">IQB", len(one), 0, 0)
            digest = hashlib.sha1(digest + stamp + hashlib.sha1(one).digest()).digest()
            out.write(b"\xff" + stamp + digest + one)
        out.write(b"\0")


def main(folder, count, bundles=0):
    os.makedirs(f"{folder}/store", exist_ok=True)
    os.makedirs(f"{folder}/bundles", exist_ok=True)
    write_store(f"{folder}/store/pushes", map(bundle, range(count)))
    for number in range(min(count, bundles)):
        with open(f"{folder}/bundles/{number:010d}", "wb") as file:
            file.write(bundle(number))


if __name__ == "__main__":
    main(sys.argv[1], *map(int, sys.argv[2:]))
