"""Random pushes to a repository as it is."""
import contextlib
import random

from bundles import NULL, node_of, number
from keys import base85_encode
from parts import Refused, handle
from pushes import Part, Push, as_read, interruption, payload_of
from repository import heads, phase_of, text_of

NONE = NULL.hex()
KINDS = ("changegroup", "phase-heads", "obsmarkers", "pushkey", "bookmarks", "check:heads", "check:phases",
         "check:bookmarks", "replycaps", "output", "frob", "error:abort")
OFTEN = (14, 3, 6, 6, 4, 3, 2, 2, 1, 1, 1, 1)
# those that come as advisory parts too
ADVISORY = ("phase-heads", "obsmarkers", "bookmarks", "pushkey", "frob", "error:abort")
BRANCHES = (b"default", b"default", b"stable", b"stable", b"", b"a b", b"x:y", "\u00fc".encode(), b"\xff\xfe",
            b"long" * 500, b"nul\\0in", b"back\\\\slash", b"back\\\\nslash", b"line\\nfeed", b"re\\rturn", b"odd\\q",
            b"end\\", b"branch:b", b"~t/._-", b"%41+&=;,")
NAMES = (b"x", b"x", b"y", b"a b", b"", b"a@b", b"a@", b"a@b@", b"@", b"tip", b"null", b".", b"\xff\0", b"tab\there",
         b"lf\nname", b"cr\rname", "\u00fc;,:=&%41".encode(), b"n" * 255, b"1", b"b", b"f" * 40)
# The last ones of these are refused.
METAS = (b"", b"user:a", b"user:a\0", b"user:a\0date:0 0", b"\0\0", b":"), (b"user\0", b"user:a\0x")
TARGETS = (b"0", b"1", b"2", b"2"), (b"3", b"", b"01")
# the rest of a changegroup behind its changesets
TAILS = ((bytes(12), bytes(12), bytes(4) + number(10) + b"a tree" + bytes(8),
          bytes(8) + number(9) + b"a.txt" + number(5) + b"d" + bytes(8)),
         (bytes(11), bytes(13), bytes(8), bytes(4) + number(3) + bytes(8), number(-1),
          number(50) + bytes(46) + bytes(12), b""))
STREAM = ((b"foo=bar", b"compression=UN", b"Compression=%55N", b"a%20b b=%zz", b"%61="),
          (b"Foo", b"compression=GZ", b"a  b", b"1x", b"=v", b"compression", b" "))
UNKNOWN = [(True, b"x", b"")]
INSIDE = ((interruption("output"), number(-1) + number(0), interruption("frob"), interruption("output", UNKNOWN),
           interruption("error:abort", UNKNOWN)),
          (interruption("FROB"), interruption("error:abort"), interruption("OUTPUT", UNKNOWN),
           interruption("Error:Abort", [(True, b"message", b"m")]), interruption("output", nested=number(-1)),
           number(-2), number(-1) + number(-5), number(-1) + number(300_000), number(2_147_483_647),
           number(-1) + number(3) + b"ab?", number(300_000) + b"x"))


class Maker:
    """Chooses what to push. Only an odd push has something wrong with it, beside races."""

    def __init__(self, seed):
        self.random, self.repo, self.is_odd = random.Random(seed), None, False
        self.choose = self.random.choice

    def one_in(self, count):
        return self.random.randrange(count) == 0

    def odd(self, count=3):
        return self.is_odd and self.one_in(count)

    def of(self, both, count=3):
        """One of those that are accepted, or now and then of the others."""
        return self.choose(both[self.odd(count)])

    def fresh(self):
        return self.random.randbytes(20).hex()

    def known(self):
        """A changeset that is here, half of the times a head; now and then null."""
        if not self.repo.rows or self.one_in(15):
            return NONE
        return self.choose(heads(self.repo) if self.one_in(2) else list(self.repo.revs)).hex()

    def any(self):
        return self.fresh() if self.odd() else self.known()

    def digits(self, node):
        return (node.upper() if self.one_in(4) else node).encode()

    def name(self):
        """Of a bookmark, half of the times one that is here."""
        here = list(self.repo.bookmarks)
        return self.choose(here if here and self.one_in(2) else NAMES)

    def text(self):
        """Of a changeset: mostly as a client writes it, with a branch or none."""
        extras = [b"branch:" + self.choose(BRANCHES) for _ in range(self.choose((0, 1, 1, 1, 1, 2)))]
        extras += self.choose(([], [], [], [b"close:1"], [b"a:b"], [b""]))
        self.random.shuffle(extras)
        extra, tree, time = b"\0".join(extras), self.random.randrange(1 << 40), self.random.randrange(99)
        text = b"%040d\nAnn <a@e>\n%d 0%s\nfile\n\nchange" % (tree, time, b" " + extra if extras else b"")
        return text if not self.one_in(12) else self.choose(
            (b"", text[:60], text.replace(b"\nf", b"f"), text.replace(b" 0", b"")))

    def hunks(self, base, text):
        """What makes one text of another: all of it, or what lies between an equal beginning and end."""
        same, behind, most = 0, 0, min(len(base), len(text)) * self.one_in(2)
        while same < most and base[same] == text[same]:
            same += 1
        while behind < most - same and base[-1 - behind] == text[-1 - behind]:
            behind += 1
        hunks = [(0, 0, b"")] * self.one_in(5) + [(same, len(base) - behind, text[same:len(text) - behind])]
        if self.odd(12):
            hunks.append(self.choose(((same, same, b"x"), (len(base), len(base) + 1, b""), (2, 1, b""))))
        return [] if base == text and self.one_in(2) else hunks

    def changesets(self, version):
        """New changesets and some that are known; each may be the parent or the base of the next ones."""
        here, items, last = {}, [], None

        def some():
            return self.choose(list(here)) if here and self.one_in(2) else self.any()
        for _ in range(self.choose((0, 1, 1, 2, 2, 3))):
            first, second, text = some(), some() if self.one_in(4) else NONE, self.text()
            if self.repo.rows and self.one_in(8):
                row = self.choose(self.repo.rows)
                first, second, text = row[1].hex(), row[2].hex(), row[3]
            base = some() if self.one_in(3) else first
            base = base if version == "02" else last or first
            is_here = bytes.fromhex(base) in self.repo.revs
            hunks = self.hunks(text_of(self.repo, bytes.fromhex(base)) if is_here else here.get(base, b""), text)
            last = node_of(text, bytes.fromhex(first), bytes.fromhex(second)).hex()
            here[last] = text
            items.append(("changeset", version, "ab" + last[2:] if self.odd(6) else last, first, second, base, hunks))
        return [*items, self.of(TAILS, 6)]

    def in_changegroup(self):
        version = self.choose(("01", "02", "02"))
        params = [] if version == "01" and self.one_in(2) else [(True, b"version", version.encode())]
        params += [(False, b"nbchanges", b"x")] * self.one_in(3)
        params += [(True, b"targetphase", self.of(TARGETS))] * self.one_in(4)
        if self.odd(8):
            params = [(True, b"version", self.choose((b"03", b"1", b"")))]
        return params, self.changesets(version)

    def in_phase_heads(self):
        items = [("phase", 3 if self.odd(8) else self.choose((0, 1, 2)), self.any())
                 for _ in range(self.choose((0, 1, 1, 3)))]
        return [], items + [b"rest"] * self.odd(10)

    def in_check_phases(self):
        items = []
        for _ in range(self.choose((0, 1, 2, 5))):
            node = self.known()
            level = self.choose((0, 1, 2, 3)) if self.odd(4) else phase_of(self.repo, bytes.fromhex(node))
            items.append(("phase", level, self.fresh() if self.odd() else node))
        return [], items + [b"rest"] * self.odd(10)

    def markers(self, most):
        """Markers of what is here and what is not; now and then one twice."""
        items = []
        for _ in range(self.random.randrange(most) + 1):
            successors = [self.choose((self.known(), self.fresh())) for _ in range(self.choose((0, 1, 1, 2, 3)))]
            successors = [it for it in successors if it != NONE] + [NONE] * self.odd(20)
            predecessor = self.fresh() if self.one_in(6) else self.known()
            items.append(("marker", successors, self.random.randrange(256), predecessor, self.of(METAS, 12)))
        return items + items[:1] * self.one_in(4)

    def in_obsmarkers(self):
        again = [it for it in self.repo.markers if self.one_in(9)]
        return [], [b"\1" if self.odd(10) else b"\0", *self.markers(4), *again] + [b"r"] * self.odd(10)

    def key_call(self):
        """The four values of a pushkey."""
        kind = self.choose(("phases", "phases", "bookmarks", "bookmarks", "obsolete"))
        if self.odd(8):
            return b"other", b"x", b"", b""
        return kind.encode(), *getattr(self, f"{kind}_call")()

    def phases_call(self):
        node = self.known()
        key = self.digits(node)
        if self.odd():
            key = self.choose((b"", b"x" * 40, self.fresh().encode()))
        old = self.choose((phase_of(self.repo, bytes.fromhex(node)), 1, 2))
        return key, b"%d" % old, self.choose((b"0", b"0", b"1", b"2", b"3", b""))

    def bookmarks_call(self):
        name = self.name()[:255]
        present = self.repo.bookmarks.get(name)
        old = present.hex().encode() if present is not None else b""
        if self.one_in(5):
            old = self.choose((b"", old.upper(), self.digits(self.known())))
        new = b"" if self.one_in(4) else self.digits(self.any())
        return name, old, b"not an id" if self.odd(10) else new

    def obsolete_call(self):
        digits = base85_encode(payload_of([b"\0", *self.markers(3)]))[:255]
        if self.odd():
            digits = self.choose((digits[:-3], digits[:250] + b"~~~~~", b",", b"0"))
        return self.choose((b"dump0", b"dump0", b"dump", b"dum")), b"x" if self.one_in(12) else b"", digits

    def in_pushkey(self):
        words = zip((b"namespace", b"key", b"old", b"new"), self.key_call())
        return [(not self.one_in(5), *it) for it in words][self.odd(10):], []

    def bookmark_items(self, node_for):
        names = [self.name() for _ in range(self.choose((0, 1, 1, 2, 4)))]
        return [("bookmark", node_for(it), it) for it in names] + [self.choose((b"rest", b"r" * 22))] * self.odd(10)

    def in_bookmarks(self):
        return [], self.bookmark_items(lambda name: "ff" * 20 if self.one_in(4) else self.any())

    def in_check_bookmarks(self):
        def right(name):
            node = self.repo.bookmarks.get(name)
            return self.any() if self.odd() else "ff" * 20 if node is None else node.hex()
        return [], self.bookmark_items(right)

    def in_check_heads(self):
        nodes = [it.hex() for it in heads(self.repo)]
        self.random.shuffle(nodes)
        return [], [("node", it) for it in nodes[self.odd(4):]] + [b"rest"] * self.odd(10)

    def part(self, kind, place):
        made = getattr(self, "in_" + kind.replace(":", "_").replace("-", "_"), None)
        params, items = made() if made else ([], [b"HG20\n"] * self.one_in(2))
        if kind == "error:abort" and not self.odd():
            kind = "output"
        may_end_it = kind in ("frob", "error:abort", "pushkey")
        if self.odd(2) if may_end_it else kind not in ADVISORY or self.one_in(3):
            kind = self.choose((kind.upper(), kind.upper(), kind[0].upper() + kind[1:]))
        params += [(self.odd(2), b"unknown", self.random.randbytes(3))] * self.one_in(12)
        params += [(True, b"n" * 200, b""), (True, b"m" * 200, b"")] * self.odd(20)
        return Part(kind, self.random.randrange(1 << 32) if self.one_in(9) else place, params, items)

    def edits(self):
        """What is odd about the bytes."""
        edits = {}
        if self.one_in(3):
            edits["stream"] = self.of(STREAM, 2)
        if self.one_in(2):
            edits["chunks"] = self.random.randrange(9) + 1
        if self.one_in(2):
            edits["inside"] = (self.random.randrange(2), self.of(INSIDE, 2))
        if self.one_in(3):
            edits["behind"] = b"more"
        if self.odd(5):
            edits["cut"] = self.random.randrange(40)
        if self.odd(4):
            edits["turn"] = (self.random.randrange(self.choose((4, 20, 5000))), self.random.randrange(256))
        return edits

    def push(self, repo):
        """The next push to a repository. A part may speak of what those before it bring."""
        self.repo, self.is_odd, parts = repo.copy(), self.one_in(4), []
        kinds = [] if self.one_in(10) else ["replycaps"]
        kinds += ["check:heads"] if self.one_in(2) else []
        kinds += self.random.choices(KINDS, OFTEN, k=self.choose((0, 1, 1, 2, 3, 4)))
        for place, kind in enumerate(kinds):
            parts.append(self.part(kind, place))
            with contextlib.suppress(Refused):
                handle(self.repo, as_read(parts[-1]), place)
        return Push(parts, self.edits() if self.one_in(2 if self.is_odd else 8) else {})

    def seed(self, repo):
        """What a server begins with: changesets of all phases."""
        self.repo, self.is_odd, parts = repo.copy(), False, []
        for place in range(3):
            params = [(True, b"version", b"02"), (True, b"targetphase", self.of(TARGETS))]
            parts.append(Part("CHANGEGROUP", place, params[:self.choose((1, 2, 2))], self.changesets("02")))
            handle(self.repo, as_read(parts[-1]), place, True)
        return Push(parts, {})
