"""Bundles for the benchmark of pushes: make.py FOLDER.

Each changeset has a text of 140 bytes, as Mercurial writes it, with a description that makes it another one.
A bundle has a `replycaps` part, a `check:heads` part where it says so, and a changegroup of version 02.

    line.hg20           one push: a line of 20,000 changesets
    single/00001 ..     19,900 pushes of one changeset, each on the one before, with `check:heads`
    heads/00000 ..      a push of 3,000 heads, and pushes of one changeset on one of them, unchecked
    drafts/00000 ..     a push of a line of 200,000 changesets, and pushes of one changeset each behind it
    blocks/001 ..       200 pushes of 1,000 changesets each, on one line
"""

import hashlib
import os
import sys

NULL = bytes(20)


def number(value):
    return value.to_bytes(4, "big")


def part(kind, place, params, payload):
    header = bytes([len(kind)]) + kind + number(place) + bytes([len(params), 0])
    header += b"".join(bytes([len(key), len(value)]) for key, value in params)
    header += b"".join(key + value for key, value in params)
    chunk = number(len(payload)) + payload if payload else b""
    return number(len(header)) + header + chunk + number(0)


def bundle(parts):
    return b"HG20" + number(0) + b"".join(parts) + number(0)


def text_of(place):
    head = b"0" * 40 + b"\ntest\n0 0\n\n"
    return head + (b"changeset %d " % place).ljust(140 - len(head), b".")


def id_of(p1, text):
    return hashlib.sha1(min(p1, NULL) + max(p1, NULL) + text).digest()


class Line:
    """Changesets one behind the other, with full texts as deltas against their parents."""

    def __init__(self, node=NULL, text=b"", place=0):
        self.node, self.text, self.place = node, text, place

    def entry(self):
        text = text_of(self.place)
        node = id_of(self.node, text)
        delta = number(0) + number(len(self.text)) + number(len(text)) + text
        chunk = node + self.node + NULL + self.node + node + delta
        self.node, self.text, self.place = node, text, self.place + 1
        return number(len(chunk) + 4) + chunk

    def entries(self, count):
        return b"".join(self.entry() for _ in range(count))


def push(entries, heads=None):
    parts = [part(b"REPLYCAPS", 0, [], b"")]
    if heads is not None:
        parts.append(part(b"CHECK:HEADS", 1, [], b"".join(heads)))
    group = entries + number(0) * 3
    parts.append(part(b"CHANGEGROUP", 2, [(b"version", b"02")], group))
    return bundle(parts)


def write(folder, name, data):
    os.makedirs(folder, exist_ok=True)
    with open(os.path.join(folder, name), "wb") as out:
        out.write(data)


def singles(folder, line, checked):
    for place in range(1, 19901):
        heads = [line.node] if checked else None
        write(folder, "%05d" % place, push(line.entry(), heads))


def main(folder):
    write(folder, "line.hg20", push(Line().entries(20000), [NULL]))
    singles(os.path.join(folder, "single"), Line(), True)

    roots = [Line(place=1000000 + root) for root in range(3000)]
    write(os.path.join(folder, "heads"), "00000", push(b"".join(root.entry() for root in roots)))
    singles(os.path.join(folder, "heads"), Line(roots[0].node, roots[0].text), False)

    draft = Line()
    write(os.path.join(folder, "drafts"), "00000", push(draft.entries(200000)))
    singles(os.path.join(folder, "drafts"), draft, True)

    blocks = Line()
    for block in range(1, 201):
        write(os.path.join(folder, "blocks"), "%03d" % block, push(blocks.entries(1000)))


if __name__ == "__main__":
    main(sys.argv[1])
