#!/usr/bin/env python3
"""Seven pushes that Mercurial refuses and a push server may have answered as done.

    python3 mirror/refused.py [PROGRAM]

The push server reads changesets, and of manifests and files only their frames. So a client that makes its own
bundles may push what no repository of Mercurial takes. Each of the seven comes after two plain pushes, and a
plain one after it. The mirror has to stop at its place with a reason, and to hold the two as if it were not
there. It needs the command `hg`.

With PROGRAM, the built hg_pushd, the four are pushed to its command `host`, which answers each as done. While it
holds the store, `cut` refuses. Then it is killed, `log --from` and `cut` take the push and what came after it out
of the store, and the mirror goes on with what is pushed again. Without it the store is written by this script.
"""

import hashlib
import os
import struct
import subprocess
import sys
import tempfile
import urllib.request

import stores
from stores import Place, Results, store, write

NULL = bytes(20)


def node_of(text, first=NULL, second=NULL):
    return hashlib.sha1(min(first, second) + max(first, second) + text).digest()


def chunk(data):
    return struct.pack(">I", len(data) + 4) + data


def revision(node, parent, link, text):
    """An entry of a changegroup 02: its whole text as one hunk upon nothing."""
    return chunk(node + parent + NULL + NULL + link + struct.pack(">III", 0, 0, len(text)) + text)


END = struct.pack(">I", 0)


def part(kind, payload, mandatory=()):
    """A part of a bundle, its payload as one chunk."""
    header = bytes([len(kind)]) + kind + struct.pack(">IBB", 0, len(mandatory), 0)
    for name, value in mandatory:
        header += bytes([len(name), len(value)])
    header += b"".join(name + value for name, value in mandatory)
    return struct.pack(">I", len(header)) + header + struct.pack(">I", len(payload)) + payload + END


class Push:
    """One changeset with one file; each field may be said otherwise."""

    def __init__(self, number, parent=None):
        self.parent = parent.node if parent else NULL
        self.parent_manifest = parent.manifest_node if parent else NULL
        self.name = b"file%d" % number
        self.file_text = b"text %d\n" % number
        self.file_node = node_of(self.file_text)
        lines = (parent.manifest if parent else b"") + self.name + b"\0" + self.file_node.hex().encode() + b"\n"
        self.manifest = lines
        self.manifest_node = node_of(self.manifest, self.parent_manifest)
        self.link = None
        self.has_manifest = self.has_file = True
        self.date, self.text = b"%d 0" % number, None
        self.number = number

    @property
    def changeset(self):
        if self.text is not None:
            return self.text
        return b"\n".join([self.manifest_node.hex().encode(), b"someone", self.date, self.name, b"",
                           b"push %d" % self.number])

    @property
    def node(self):
        return node_of(self.changeset, self.parent)

    def bundle(self):
        link = self.link or self.node
        group = revision(self.node, self.parent, self.node, self.changeset) + END
        if self.has_manifest:
            group += revision(self.manifest_node, self.parent_manifest, link, self.manifest)
        group += END
        if self.has_file:
            group += chunk(self.name) + revision(self.file_node, NULL, link, self.file_text) + END
        group += END
        return (b"HG20" + END + part(b"REPLYCAPS", b"HG20\nchangegroup=01,02\nphases=heads")
                + part(b"CHANGEGROUP", group, [(b"version", b"02")]) + END)


def no_form(push):
    push.text = b"no form"


def no_colon(push):
    push.date = b"5 0 extra"


def no_manifest(push):
    push.has_manifest = False


def wrong_manifest(push):
    push.manifest_node = b"m" * 20


def wrong_file(push):
    push.file_text += b"and more"


def unknown_link(push):
    push.link = b"l" * 20


def no_file(push):
    push.has_file = False


REFUSED = [
    ("a text of no form", no_form),
    ("an extra without a colon", no_colon),
    ("the manifest is missing", no_manifest),
    ("a manifest of another hash", wrong_manifest),
    ("a file of another hash", wrong_file),
    ("a link to an unknown changeset", unknown_link),
    ("a listed file is missing", no_file),
]


def plain(count):
    pushes = [Push(1)]
    while len(pushes) < count:
        pushes.append(Push(len(pushes) + 1, pushes[-1]))
    return pushes


class Written:
    """A store that this script writes."""

    def __init__(self, place, name):
        self.place, self.name, self.bundles = place, name, []

    def take(self, results, what, bundles):
        self.bundles += bundles
        write(f"{self.place.folder}/{self.name}", store(self.bundles))

    def cut(self, results, what, at):
        self.bundles = self.bundles[:at]


class Pushed:
    """A store of the built program, to whose command `host` pushes are sent."""

    def __init__(self, program, place, name):
        self.program, self.place, self.name, self.bundles = program, place, name, []
        self.file = f"{place.folder}/{name}/pushes"

    def run(self, *words):
        """The status of the program, its output, and its lines on standard error."""
        done = subprocess.run([self.program, *words], cwd=self.place.folder, stdin=subprocess.DEVNULL,
                              capture_output=True, timeout=60, check=False)
        return done.returncode, done.stdout, done.stderr.decode()

    def take(self, results, what, bundles):
        """Has `host` take pushes, tries a cut while it holds the store, and kills it."""
        host = subprocess.Popen([self.program, "host", "--store", self.name, "--listen", "127.0.0.1:0"],
                                cwd=self.place.folder, stdin=subprocess.DEVNULL, stderr=subprocess.PIPE)
        try:
            address = host.stderr.readline().decode().partition(" on ")[2].partition(",")[0]
            for bundle in bundles:
                reply = self.push(address, bundle)
                results.see(f"{what}: answered as done", reply[:4] == b"HG20" and b"error" not in reply.lower(),
                            reply)
            self.bundles += bundles
            before = read(self.file)
            status, _, said = self.run("cut", "--store", self.name, "--at", "0")
            results.see(f"{what}: no cut of a store that is held", status == 3 and "another process holds" in said,
                        said)
            results.see(f"{what}: the held store", read(self.file) == before and not self.kept(0))
        finally:
            host.kill()
            host.communicate()

    def push(self, address, bundle):
        asked = urllib.request.Request(f"{address}?cmd=unbundle&heads=666f726365", bundle,
                                       {"content-type": "application/mercurial-0.1"})
        with urllib.request.urlopen(asked, timeout=60) as answer:
            return answer.read()

    def kept(self, at):
        """What a cut kept; nothing where there is no such file."""
        name = f"{self.file}.cut-{at}"
        return read(name) if os.path.exists(name) else b""

    def cut(self, results, what, at):
        """Takes the pushes from a place on out of the store."""
        whole, lost = read(self.file), b"".join(self.bundles[at:])
        status, _, said = self.run("cut", "--store", self.name, "--at", str(len(self.bundles)))
        results.see(f"{what}: no cut where there is no push", status == 3 and read(self.file) == whole, said)
        status, told, said = self.run("log", "--store", self.name, "--from", str(at))
        results.see(f"{what}: the log from there on", status == 0 and told == lost, said)
        status, _, said = self.run("cut", "--store", self.name, "--at", str(at))
        results.see(f"{what}: the cut", status == 0, said)
        results.see(f"{what}: what is cut is kept", self.kept(at) == lost)
        self.bundles = self.bundles[:at]
        status, told, said = self.run("log", "--store", self.name)
        results.see(f"{what}: the pushes before it", status == 0 and told == b"".join(self.bundles), said)
        results.see(f"{what}: their records", whole.startswith(read(self.file).rstrip(b"\0")))

    def changesets(self):
        """The changesets of the report, in its order, and how many pushes it has."""
        lines = self.run("report", "--store", self.name)[1].decode().splitlines()
        return ([line.split()[2] for line in lines if line.startswith("C ")],
                sum(line.startswith("J ") for line in lines))


def read(path):
    with open(path, "rb") as file:
        return file.read()


def try_refused(results, place, kept, number, what, spoil):
    first, second, behind = plain(3)
    before = [first.bundle(), second.bundle()]
    bad = Push(7, second)
    spoil(bad)
    kept.take(results, what, [*before, bad.bundle(), behind.bundle()])
    name = place.repository(f"mirror{number}")
    for turn in ("", ", again"):
        status, said = place.mirror(name, kept.name)
        results.see(f"{what}{turn}: told", status == 255 and "refuses push 2: " in said and "at place 2" in said, said)
        results.see(f"{what}{turn}: no traceback", "Traceback" not in said, said)
        results.see(f"{what}{turn}: two pushes", place.count(name) == 2)
    results.same(f"{what}: state", place.state(name), place.state("wanted"))
    print(f"{what}: {said.partition('push 2: ')[2].partition(chr(10))[0]}", flush=True)
    status, said = place.run("verify", "-R", name)
    results.see(f"{what}: verify", status == 0, said)
    kept.cut(results, what, 2)
    kept.take(results, what, [behind.bundle()])
    status, said = place.mirror(name, kept.name)
    results.see(f"{what}: goes on where it was cut out", status == 0 and place.count(name) == 3, said)
    results.same(f"{what}: state in the end", place.state(name), place.state("whole"))
    if isinstance(kept, Pushed):
        mirrored = place.hg("log", "-R", name, "-r", "all()", "-T", "{node}\n").split()
        results.see(f"{what}: the report", kept.changesets() == (mirrored, 3))


def main(words):
    stores.skip_without_hg("refused.py")
    program = os.path.abspath(words[0]) if words else None
    stores.PROGRAM = program or stores.PROGRAM
    results = Results("refused.py")
    with tempfile.TemporaryDirectory() as folder:
        place = Place(folder)
        for name, count in (("wanted", 2), ("whole", 3)):
            write(f"{folder}/{name}.store", store([push.bundle() for push in plain(count)]))
            place.mirror(place.repository(name), f"{name}.store")
        for number, (what, spoil) in enumerate(REFUSED):
            name = f"store{number}"
            kept = Pushed(program, place, name) if program else Written(place, name)
            try_refused(results, place, kept, number, what, spoil)
    results.end(f"{len(REFUSED)} pushes that Mercurial refuses" + (", cut out by the program" if program else ""))


if __name__ == "__main__":
    main(sys.argv[1:])
