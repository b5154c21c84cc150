#!/usr/bin/env python3
"""Prints bundles for a person to read: examples/show.py [FILE..], or one from standard input.

A line for each part: its number, its type and its parameters; and below it what its payload holds, for the
types that a push brings. Bytes that are no bundle end it with a line that says so.
"""
import sys
import textwrap

PHASES = ("public", "draft", "secret")


class Bytes:
    """Bytes that are read from their front."""

    def __init__(self, data):
        self.data, self.at = data, 0

    def take(self, count):
        if count < 0 or self.at + count > len(self.data):
            raise ValueError(f"the bytes end early, at {self.at}")
        self.at += count
        return self.data[self.at - count:self.at]

    def number(self):
        return int.from_bytes(self.take(4), "big", signed=True)

    def is_empty(self):
        return self.at == len(self.data)


def text_of(data):
    return data.decode("utf-8", "backslashreplace")


def changeset(text):
    """A changeset's description, user, branch and files: manifest, user and date have a line each."""
    head, _, description = text.partition(b"\n\n")
    lines = head.split(b"\n")
    extra = lines[2].split(b" ", 2)[2:] if len(lines) > 2 else []
    branch = [it[7:] for it in b"".join(extra).split(b"\0") if it.startswith(b"branch:")]
    first = description.split(b"\n")[0]
    files = "" if len(lines) < 4 else f", {len(lines) - 3} file{'s' * (len(lines) > 4)}"
    on = f" on branch {text_of(branch[0])}" if branch else ""
    return f"{text_of(first)!r} by {text_of(lines[1]) if len(lines) > 1 else '?'}{on}{files}"


def changesets(payload, version):
    """The ids of a changegroup's changesets, with what their texts tell where the delta is a whole text."""
    data = Bytes(payload)
    head = 100 if version == b"02" else 80
    while True:
        size = data.number()
        if size <= 4:
            return
        entry = data.take(size - 4)
        delta = Bytes(entry[head:])
        told = ""
        if not delta.is_empty() and delta.number() == 0 and delta.number() == 0:
            told = f"  {changeset(delta.take(delta.number()))}"
        yield f"changeset {entry[:20].hex()[:12]}{told}"


def names(payload):
    """The entries of a payload of bookmarks: a node, a size and a name."""
    data = Bytes(payload)
    while not data.is_empty():
        node, size = data.take(20), int.from_bytes(data.take(2), "big")
        on = node.hex()[:12] if node != b"\xff" * 20 else "nothing"
        yield f"{text_of(data.take(size))} on {on}"


def lines_of(kind, params, payload):
    """What a payload holds, a line each."""
    kind = kind.lower()
    if kind == b"changegroup":
        return changesets(payload, params.get(b"version", b"01"))
    if kind in (b"check:heads", b"check:updated-heads"):
        return (f"head {payload[at:at + 20].hex()[:12]}" for at in range(0, len(payload), 20))
    if kind in (b"phase-heads", b"check:phases"):
        entries = (payload[at:at + 24] for at in range(0, len(payload), 24))
        return (f"{it[4:].hex()[:12]} {PHASES[it[3]] if it[3] < 3 else it[3]}" for it in entries)
    if kind in (b"bookmarks", b"check:bookmarks"):
        return names(payload)
    if kind == b"replycaps":
        return textwrap.wrap("; ".join(text_of(line) for line in payload.split(b"\n")), 90)
    if kind == b"output":
        return (text_of(line) for line in payload.split(b"\n"))
    return [f"{len(payload)} bytes"] if payload else []


def part(header, payload):
    """Prints a part: the type, its number, its parameters, its payload."""
    data = Bytes(header)
    kind, place = data.take(data.take(1)[0]), data.number()
    counts = data.take(2)
    sizes = [tuple(data.take(2)) for _ in range(sum(counts))]
    params = {data.take(key): data.take(value) for key, value in sizes}
    told = " ".join(f"{text_of(key)}={text_of(value)!r}" for key, value in params.items())
    print(f"  {place}  {text_of(kind):<18} {told}".rstrip())
    for line in lines_of(kind, params, payload):
        print(f"       {line}")


def payload_of(data):
    """The payload of a part: its chunks, joined. A part that interrupts it is printed where it stands."""
    payload = b""
    while True:
        size = data.number()
        if size == 0:
            return payload
        if size == -1:
            header = data.take(data.number())
            part(header, payload_of(data))
        else:
            payload += data.take(size)


def show(whole):
    """Prints the bundles, one behind the other."""
    data = Bytes(whole)
    while not data.is_empty():
        if data.take(4) != b"HG20":
            raise ValueError("no bundle begins here")
        start = data.at - 4
        params = text_of(data.take(data.number()))
        print(f"HG20 {params}".rstrip())
        while True:
            size = data.number()
            if size == 0:
                break
            header = data.take(size)
            part(header, payload_of(data))
        print(f"  end, after {data.at - start} bytes")


def main(files):
    for file in files or ["-"]:
        try:
            if file == "-":
                show(sys.stdin.buffer.read())
            else:
                with open(file, "rb") as it:
                    show(it.read())
        except (ValueError, IndexError) as error:
            print(f"  no bundle: {error}")
            return 1
    return 0


if __name__ == "__main__":
    sys.exit(main(sys.argv[1:]))
