"""Repositories for the benchmark of pushes over HTTP: make.py FOLDER CHANGESETS HEADS.

Writes into the folder `bundle`, one push of a line of changesets, of which the last has as many children as
there are to be heads, and `heads`, the ids of these, one a line. Texts are in the form that Mercurial writes.
"""

import hashlib
import os
import sys

NULL = bytes(20)


def number(value):
    return value.to_bytes(4, "big")


def entry_of(parent, place):
    """A changeset on that one; returns its id and its chunk in a changegroup of version 02."""
    text = b"0" * 40 + b"\ntest\n0 0\n\nchangeset %d" % place
    node = hashlib.sha1(NULL + parent + text).digest()
    delta = number(0) + number(0) + number(len(text)) + text
    chunk = node + parent + NULL + NULL + node + delta
    return node, number(len(chunk) + 4) + chunk


def part(kind, place, params, pieces):
    header = bytes([len(kind)]) + kind + number(place) + bytes([len(params), 0])
    header += b"".join(bytes([len(key), len(value)]) for key, value in params)
    header += b"".join(key + value for key, value in params)
    return number(len(header)) + header + b"".join(number(len(it)) + it for it in pieces) + number(0)


def main(folder, changesets, heads):
    os.makedirs(folder, exist_ok=True)
    node = trunk = NULL
    entries, tips = [], []
    for place in range(changesets):
        parent = node if place <= changesets - heads else trunk
        tip, entry = entry_of(parent, place)
        entries.append(entry)
        if place < changesets - heads:
            node = trunk = tip
        else:
            tips.append(tip)
    group = b"".join(entries) + number(0) * 3
    pieces = [group[at:at + (1 << 20)] for at in range(0, len(group), 1 << 20)]
    whole = b"HG20" + number(0) + part(b"REPLYCAPS", 0, [], [])
    whole += part(b"CHANGEGROUP", 1, [(b"version", b"02")], pieces) + number(0)
    with open(f"{folder}/bundle", "wb") as out:
        out.write(whole)
    with open(f"{folder}/heads", "w", encoding="ascii") as out:
        out.writelines(f"{tip.hex()}\n" for tip in tips)


if __name__ == "__main__":
    main(sys.argv[1], int(sys.argv[2]), int(sys.argv[3]))
