#!/usr/bin/env python3
"""The branch map of random repositories, beside Mercurial's: branches.py PROGRAM [COUNT [SEED]]

Each repository has changesets of a few branches, with merges, some of them obsolete. They come in pushes to `host` and
to `hg serve`, byte for byte the same, and after each push both are asked for their branch maps. That of `host` has to
be that of the definition, and each of its answers is of a view that was brought up. Most of what comes is not plain:
merges of branches, markers of what was there before and of what comes, changesets on obsolete ones, and obsolete ones
that a push makes public. Mercurial's has to be the same in every other repository, where nothing that is obsolete has
descendants that are not. In the others it has to have that of the definition over what is not obsolete: Mercurial takes
no obsolete changeset for a head of its branch, though it shows it. It may have more changesets that are not obsolete:
where those of a branch between two of it are obsolete, it may not see that the first is an ancestor of the other.
"""
import glob
import http.client
import os
import random
import re
import shutil
import signal
import subprocess
import sys
import tempfile
import time
import urllib.parse

sys.path.insert(0, os.path.dirname(os.path.realpath(__file__)))
from bundles import CAPS, NULL, bundle, node_of, number  # noqa: E402

PROGRAM = os.path.abspath(sys.argv[1])
COUNT = int(sys.argv[2]) if len(sys.argv) > 2 else 12
SEED = int(sys.argv[3]) if len(sys.argv) > 3 else 1
SETTINGS = ("[web]\nallow-push = *\npush_ssl = no\n[phases]\npublish = no\n"
            "[experimental]\nevolution = all\n[server]\nvalidate = no\n")
NAMES = (b"", b"a", b"b b", b"c", b"\xc3\xbc", b"%")


class Server:
    def __init__(self, port):
        self.line = http.client.HTTPConnection("127.0.0.1", port, timeout=60)

    def ask(self, method, target, body=None, fields=()):
        self.line.request(method, target, body, dict(fields))
        return self.line.getresponse().read()

    def push(self, body):
        return self.ask("POST", "/?cmd=unbundle", body, {"content-type": "application/mercurial-0.1",
                                                        "x-hgarg-1": "heads=666f726365"})

    def branches(self):
        return branches_in(self.ask("GET", "/?cmd=branchmap"))


def branches_in(text):
    """Each branch with the set of its heads."""
    lines = [line.split(b" ") for line in text.split(b"\n") if line]
    return {urllib.parse.unquote_to_bytes(name): set(heads) for name, *heads in lines}


class Host(Server):
    def __init__(self, folder):
        words = [PROGRAM, "host", "--store", f"{folder}/store", "--listen", "127.0.0.1:0"]
        self.process = subprocess.Popen(words, stderr=subprocess.PIPE, stdin=subprocess.DEVNULL)
        said = self.process.stderr.readline().decode()
        super().__init__(int(re.search(r"127\.0\.0\.1:(\d+)/", said)[1]))

    def end(self):
        self.process.kill()
        self.process.wait()
        self.process.stderr.close()


class Mercurial(Server):
    def __init__(self, folder):
        self.folder = folder
        with open(f"{folder}/hgrc", "w", encoding="utf-8") as file:
            file.write(SETTINGS)
        self.environment = {"PATH": os.environ["PATH"], "HGRCPATH": f"{folder}/hgrc", "HGPLAIN": "1",
                            "LC_ALL": "C.UTF-8", "HOME": folder}
        self.hg("init", f"{folder}/repo")
        with open(f"{folder}/said", "w+", encoding="utf-8") as said:
            self.hg("-R", f"{folder}/repo", "serve", "-a", "127.0.0.1", "-p", "0", "-d", "--pid-file", f"{folder}/pid",
                    "-E", f"{folder}/errors", "-A", os.devnull, stdout=said, stderr=said)
            said.seek(0)
            port = int(re.search(r"127\.0\.0\.1:(\d+)", said.read())[1])
        with open(f"{folder}/pid", encoding="ascii") as file:
            self.pid = int(file.read())
        super().__init__(port)

    def hg(self, *words, **more):
        return subprocess.run(["hg", *words], env=self.environment, check=True, **more)

    def branches(self):
        for path in glob.glob(f"{self.folder}/repo/.hg/cache/*branch*"):
            os.remove(path)
        told = self.hg("-R", f"{self.folder}/repo", "serve", "--stdio", input=b"branchmap\n", capture_output=True).stdout
        return branches_in(told.partition(b"\n")[2])

    def end(self):
        os.kill(self.pid, signal.SIGTERM)
        while os.path.exists(f"/proc/{self.pid}"):
            time.sleep(0.01)


class Made:
    """A random repository, and the pushes that bring it."""

    def __init__(self, dice, has_orphans):
        self.dice, self.has_orphans = dice, has_orphans
        self.nodes, self.names, self.parents = [], [], []
        self.marked, self.public = set(), set()
        self.branches = dice.sample(NAMES, dice.randrange(2, len(NAMES)))

    def changeset(self):
        dice, count = self.dice, len(self.nodes)
        parents = [] if not count or dice.random() < 0.1 else [self.near()]
        if parents and dice.random() < 0.35:
            other = self.near()
            parents += [other] if other != parents[0] else []
        stays = parents and dice.random() < 0.5
        name = self.names[parents[0]] if stays else dice.choice(self.branches)
        text = b"0" * 40 + b"\ntest\n0 0" + (b" branch:" + name if name else b"") + b"\n\n%d" % count
        first, second = [self.nodes[it] for it in parents] + [NULL] * (2 - len(parents))
        node = node_of(text, first, second)
        self.nodes.append(node)
        self.names.append(name)
        self.parents.append(parents)
        body = node + first + second + NULL + node + number(0) + number(0) + number(len(text)) + text
        return number(len(body) + 4) + body

    def near(self):
        """One of those so far, and more often a late one."""
        those = range(len(self.nodes)) if self.has_orphans else sorted(self.kept()) or [0]
        return those[len(those) - 1 - int(len(those) * self.dice.random() ** 2)]

    def push(self):
        """Changesets, then markers of some of all, and then perhaps one that becomes public."""
        dice, parts = self.dice, [CAPS]
        if count := dice.choice((0, 1, 1, 2, 5, 12)) if self.nodes else 3:
            chunks = b"".join(self.changeset() for _ in range(count))
            parts.append((b"CHANGEGROUP", ((b"version", b"02"),), chunks + bytes(12)))
        if pruned := self.pruned():
            parts.append((b"OBSMARKERS", (), bytes(1) + b"".join(bytes(6) + node for node in pruned)))
        return bundle(*parts)

    def publish(self):
        """The fields of a push that makes one of them public."""
        place = self.dice.randrange(len(self.nodes))
        self.public |= self.above(place)
        fields = {"namespace": "phases", "key": self.nodes[place].hex(), "old": "1", "new": "0"}
        return {"x-hgarg-1": urllib.parse.urlencode(fields)}

    def above(self, place):
        """It and its ancestors."""
        found, left = set(), [place]
        while left:
            if (at := left.pop()) not in found:
                found.add(at)
                left += self.parents[at]
        return found

    def kept(self):
        """Those that are not obsolete."""
        return {it for it, node in enumerate(self.nodes) if node not in self.marked or it in self.public}

    def shown(self):
        """Those that are not hidden."""
        return set().union(*(self.above(it) for it in self.kept()))

    def heads(self, those):
        """The branches of those with their heads among them, by their definition."""
        heads, above = {}, {it: self.above(it) for it in those}
        for it in those:
            if not any(it in above[other] and self.names[other] == self.names[it] for other in those if other != it):
                heads.setdefault(self.names[it] or b"default", set()).add(self.nodes[it].hex().encode())
        return heads

    def are_mercurials(self, branches):
        """Whether these are the heads over what is not obsolete, and perhaps more that are not."""
        kept = self.kept()
        wanted = self.heads(kept)
        known = {(self.names[it] or b"default", self.nodes[it].hex().encode()) for it in kept}
        return branches.keys() == wanted.keys() and all(
            wanted[name] <= heads and all((name, head) in known for head in heads) for name, heads in branches.items())

    def pruned(self):
        """Some that a marker is to make obsolete. Where no orphan is to be, none of them has descendants that are not."""
        rate, found = self.dice.choice((0, 0.05, 0.3)), []
        for it in reversed(range(len(self.nodes))):
            is_tip = all(it not in self.above(other) for other in self.kept() if other != it)
            if self.nodes[it] not in self.marked and self.dice.random() < rate and (is_tip or self.has_orphans):
                self.marked.add(self.nodes[it])
                found.append(self.nodes[it])
        return found


def compare(seed):
    made = Made(random.Random(seed), seed % 2 == 1)
    asked = 0
    with tempfile.TemporaryDirectory() as folder:
        servers = []
        try:
            servers = [Host(folder), Mercurial(folder)]
            for _ in range(14):
                push = made.push()
                for server in servers:
                    if len(push) > 60 and b"reply:" not in (told := server.push(push)).lower():
                        sys.exit(f"{seed}: a push to {type(server).__name__} was not done: {told[:500]!r}")
                if made.dice.random() < 0.15:
                    fields = made.publish()
                    for server in servers:
                        server.ask("POST", "/?cmd=pushkey", b"", {"content-type": "application/mercurial-0.1", **fields})
                ours, theirs = (server.branches() for server in servers)
                asked += 1
                wanted = made.heads(made.shown())
                if ours != wanted or not (made.are_mercurials(theirs) if made.has_orphans else theirs == wanted):
                    sys.exit(f"{seed}: after {asked} pushes the branch map is {ours}, Mercurial's {theirs}, "
                             f"and the definition's {wanted}")
        finally:
            for server in servers:
                server.end()
    return asked, len(made.nodes), len(made.marked)


def main():
    if not shutil.which("hg"):
        print("hg is missing: nothing was compared.")
        return
    asked, nodes, marked = (sum(of) for of in zip(*(compare(seed) for seed in range(SEED, SEED + COUNT))))
    print(f"{asked} branch maps of {COUNT} random repositories are Mercurial's: {nodes} changesets, {marked} obsolete")


if __name__ == "__main__":
    main()
