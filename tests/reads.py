#!/usr/bin/env python3
"""What reads cost where a repository has many changesets, heads or branches: reads.py PROGRAM [SHAPE..]

For each shape of a repository a `host` of its own on the loopback. A figure is the processor time of the whole server for
one request, the least of three; after a marker it is that of the request that follows a push of one marker. Wanted: at
most 2 ms, and 60 ns for each byte of the answer. A row that takes twice that fails the script: beside other work all
takes longer.
"""
import http.client
import os
import re
import subprocess
import sys
import tempfile
import time

sys.path.insert(0, os.path.dirname(os.path.realpath(__file__)))
from bundles import CAPS, NULL, bundle, node_of, number  # noqa: E402

# at most so many changesets in one push
PIECE = 50_000
ASKED = {"branchmap": ("/?cmd=branchmap",), "lookup": ("/?cmd=lookup", "key=0123"), "page": ("/",),
         "metrics": ("/metrics",)}
# the branch map after a push of a marker, and after that of all changesets
ANEW = "branchmap after a marker"
FIRST = "first branchmap"


class Changesets:
    """Changesets in the order of their numbers, as a changegroup of version 02 has them."""

    def __init__(self):
        self.nodes, self.chunks, self.marks = [], [], []
        # the changesets that are pruned in turn
        self.pruned = (-1, -3, -5)

    def add(self, branch, *parents):
        text = b"0" * 40 + b"\ntest\n0 0" + (b" branch:" + branch if branch else b"") + b"\n\n%d" % len(self.nodes)
        first, second = [self.nodes[it] for it in parents] + [NULL] * (2 - len(parents))
        node = node_of(text, first, second)
        body = node + first + second + NULL + node + number(0) + number(0) + number(len(text)) + text
        self.nodes.append(node)
        self.chunks.append(number(len(body) + 4) + body)
        return len(self.nodes) - 1

    def pushes(self):
        for at in range(0, len(self.chunks), PIECE):
            payload = b"".join(self.chunks[at:at + PIECE]) + bytes(12)
            yield bundle(CAPS, (b"CHANGEGROUP", ((b"version", b"02"),), payload))
        if self.marks:
            yield bundle(CAPS, (b"BOOKMARKS", (), b"".join(self.marks)))

    def bookmark(self, name, place):
        self.marks.append(self.nodes[place] + len(name).to_bytes(2, "big") + name)


def marker(node):
    """The push of one marker, which says that a changeset is pruned."""
    return bundle(CAPS, (b"OBSMARKERS", (), bytes(1) + bytes(6) + node))


class Host:
    def __init__(self, program, folder):
        self.process = subprocess.Popen([program, "host", "--store", f"{folder}/store", "--listen", "127.0.0.1:0"],
                                        stderr=subprocess.PIPE, stdin=subprocess.DEVNULL)
        said = self.process.stderr.readline().decode()
        self.line = http.client.HTTPConnection("127.0.0.1", int(re.search(r"127\.0\.0\.1:(\d+)/", said)[1]), timeout=600)

    def spent(self):
        """The processor seconds of the server so far."""
        return time.clock_gettime(~self.process.pid << 3 | 2)

    def push(self, body):
        self.line.request("POST", "/?cmd=unbundle", body, {"content-type": "application/mercurial-0.1",
                                                         "x-hgarg-1": "heads=666f726365"})
        told = self.line.getresponse().read()
        if not told.startswith(b"HG20") or b"error:" in told.lower():
            sys.exit(f"a push was not done: {told[:300]!r}")

    def ask(self, target, about=None):
        """The processor seconds of one request, and the bytes of its answer."""
        fields = {} if about is None else {"x-hgarg-1": about}
        before = self.spent()
        self.line.request("GET", target, headers=fields)
        size = len(self.line.getresponse().read())
        return self.spent() - before, size

    def end(self):
        self.process.kill()
        self.process.wait()
        self.process.stderr.close()


def lone(count):
    """Branches of two heads each."""
    made = Changesets()
    for place in range(count):
        made.add(b"b%d" % place)
        made.add(b"b%d" % place)
    return made


def merged(count):
    """Branches of two heads each, of which each has a child in another branch."""
    made = Changesets()
    for place in range(count):
        for _ in range(2):
            made.add(b"", made.add(b"b%d" % place))
    return made


def twice(count):
    """A line in which branches come in turn, twice. Each marker is on its last changeset."""
    made, last = Changesets(), ()
    for place in 2 * [*range(count)]:
        last = (made.add(b"b%d" % place, *last),)
    made.pruned = (-1, -2, -3)
    return made


def line(count):
    """A line of changesets."""
    made, last = Changesets(), ()
    for _ in range(count):
        last = (made.add(b"", *last),)
    return made


def fan(count):
    """One changeset with many children."""
    made = Changesets()
    root = made.add(b"")
    for _ in range(count):
        made.add(b"", root)
    return made


def under(count):
    """150 heads, and a line of changesets after them."""
    made, last = Changesets(), ()
    for _ in range(150):
        made.add(b"")
    for _ in range(count - 150):
        last = (made.add(b"", *last),)
    return made


def marked(count):
    """One changeset with many children, and as many bookmarks on them."""
    made = fan(count)
    for place in range(count):
        made.bookmark(b"at%d" % place, place)
    return made


# the shapes whose reads have to cost as wanted, and how large each is
SHAPES = {"lone": (lone, 150_000), "line": (line, 200_000), "fan": (fan, 200_000), "under": (under, 200_000),
          "marked": (marked, 200_000), "merged": (merged, 50_000), "twice": (twice, 20_000)}


def longest(size):
    """How many processor seconds a request may take whose answer has so many bytes."""
    return 2e-3 + 60e-9 * size


def measure(program, make, count):
    """How many changesets there are, and of each request the processor seconds and the bytes of its answer."""
    made = make(count)
    with tempfile.TemporaryDirectory() as folder:
        host = Host(program, folder)
        try:
            for push in made.pushes():
                host.push(push)
            first = host.ask("/?cmd=branchmap")
            rows = {what: min(host.ask(*target) for _ in range(3)) for what, target in ASKED.items()}
            told = []
            for place in made.pruned:
                host.push(marker(made.nodes[place]))
                told.append(host.ask("/?cmd=branchmap"))
            return len(made.nodes), rows | {ANEW: min(told), FIRST: first}
        finally:
            host.end()


def main(words):
    program, failed = os.path.abspath(words[0]), 0
    for name in words[1:] or SHAPES:
        changesets, rows = measure(program, *SHAPES[name])
        for what, (spent, size) in rows.items():
            bound = longest(size)
            fine = spent <= bound or what == FIRST
            failed += spent > 2 * bound and what != FIRST
            print(f"{name}, {changesets:,} changesets: {what}, {size:,} bytes: {1000 * spent:.2f} ms of"
                  f" {1000 * bound:.2f}{'' if fine else ': NOT AS WANTED'}", flush=True)
    sys.exit(1 if failed else 0)


if __name__ == "__main__":
    main(sys.argv[1:])
