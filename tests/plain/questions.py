"""Random questions about a repository: one request for each text, written in the ways in which a request may be."""
import random
from urllib.parse import quote_from_bytes

from bundles import NULL
from choices import NAMES
from texts import spelt

NAMESPACES = (b"phases", b"bookmarks", b"namespaces", b"obsolete", b"", b"other")


class Asker:
    """Chooses what to ask."""

    def __init__(self, seed):
        self.random = random.Random(seed)
        self.choose = self.random.choice

    def one_in(self, count):
        return self.random.randrange(count) == 0

    def id(self, repo):
        """Digits of an id that is here, or perhaps not."""
        here = list(repo.revs) or [NULL]
        digits = self.choose((self.choose(here), self.choose(here), NULL, self.random.randbytes(20))).hex().encode()
        return digits.upper() if self.one_in(4) else digits

    def nodes(self, repo):
        ids = [self.id(repo) if not self.one_in(9) else self.choose((b"", b"x" * 40, self.id(repo)[:39], b"\xff"))
               for _ in range(self.choose((0, 1, 3, 8)))]
        return b" ".join(ids)

    def key(self, repo):
        """Something to look up."""
        digits, names = self.id(repo), list(repo.bookmarks) + list(NAMES)
        begun = digits[:self.random.randrange(41)]
        return self.choose((b"tip", b".", b"null", b"", digits, digits[:1], digits[:2], begun, digits + b"0",
                            self.choose(names), self.choose(names), b"a\nb", b"0" * 12))

    def cmds(self, repo):
        """Commands of a batch: those that stand in one, mostly."""
        items = []
        for _ in range(self.choose((1, 2, 4))):
            name, words = self.choose(((b"heads", {}), (b"known", {b"nodes": self.nodes(repo)}), (b"branchmap", {}),
                                       (b"listkeys", {b"namespace": self.choose(NAMESPACES)}),
                                       (b"lookup", {b"key": self.key(repo)})))
            pairs = b",".join(spelt(key) + b"=" + spelt(value) for key, value in words.items())
            items.append(name + b" " + pairs)
        if self.one_in(12):
            items.append(self.choose((b"", b"capabilities ", b"frob ", b"batch cmds=heads ")))
        return b";".join(items)

    def quoted(self, data):
        """In a form: some bytes as they are, the others with `%`; a space in both of its ways."""
        made = quote_from_bytes(data, "").encode()
        made = made.replace(b"%20", b"+") if self.one_in(2) else made
        return made if made and not self.one_in(6) else b"".join(b"%%%02x" % it for it in data)

    def spread(self, words):
        """The words in the query or in fields of the head; now and then one that a later one replaces, or what looks
        like an escape."""
        pieces = [self.quoted(key) + b"=" + self.quoted(value) for key, value in words.items()]
        if pieces and self.one_in(4):
            pieces = [self.quoted(self.choose(list(words))) + b"=replaced", *pieces]
        if pieces and self.one_in(8):
            pieces[-1] += self.choose((b"%zz", b"%4", b"%", b"=", b"+"))
        if self.one_in(2):
            return b"".join(b"&" + it for it in pieces), []
        joined = b"&".join(pieces)
        size = self.random.randrange(400) + len(joined) // 40 + 1
        return b"", [joined[at:at + size] for at in range(0, len(joined), size)]

    def questions(self, repo):
        """Of each text one, as the command, the rest of the query, and the fields."""
        asked = [(b"capabilities", {}), (b"heads", {}), (b"known", {b"nodes": self.nodes(repo)}), (b"branchmap", {}),
                 (b"listkeys", {b"namespace": b"phases"}), (b"listkeys", {b"namespace": b"bookmarks"}),
                 (b"listkeys", {b"namespace": self.choose(NAMESPACES)}), (b"lookup", {b"key": self.key(repo)}),
                 (b"lookup", {b"key": self.key(repo)}), (b"batch", {b"cmds": self.cmds(repo)})]
        return [(command, *self.spread(words)) for command, words in asked]
