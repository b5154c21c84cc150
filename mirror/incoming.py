# incoming.py - what a push brings, laid over a repository and checked, without writing
#
# Copyright the authors of Deqtorap
#
# This software may be used and distributed according to the terms of the
# GNU General Public License version 2 or any later version.

"""What a push brings, laid over a repository and checked, without writing.

The push server reads changesets, and of manifests and files only their frames. Mercurial looks at more of them,
and not at all: it takes some that it cannot read later. Here each revision that a push brings is checked before
anything is written: its hash, parents, base and delta; that it is linked to the changeset of this push that
brings it; that the files of a changeset and its manifest agree; that Mercurial can read the text of each changeset
and marker, and can keep each path and bookmark.

`Incoming(repo, bundle)` does all of that for a canonical bundle, or raises `Refused` with a reason of one line.
"""

import collections
import concurrent.futures
import functools
import hashlib
import os
import re
import struct

from mercurial import bookmarks, changelog, error, manifest, mdiff, obsolete, pathutil, scmutil, util
from mercurial.utils import storageutil

import canonical

NULL = bytes(20)
NO_BOOKMARK = b"\xff" * 20
HUNK = struct.Struct(">III")
# what stands before the delta of a revision, by the version of the changegroup
ENTRY = {b"01": struct.Struct("20s20s20s20s"), b"02": struct.Struct("20s20s20s20s20s")}

# how many bytes of texts are kept at hand
KEPT = 1 << 26
# the texts that are hashed beside what is read on: from how many bytes on, and how many of them may wait
LARGE, AHEAD = 1 << 16, 16
POOL = concurrent.futures.ThreadPoolExecutor(4)
# how far a manifest is followed from delta to delta before two of them are compared whole
FAR = 64

DATE = re.compile(rb"-?[0-9]{1,10}(?:\.[0-9]+)? -?[0-9]{1,5}(?: |$)")
DIGITS = re.compile(rb"[0-9a-f]{40}")
LINE = re.compile(rb"([^\0\n]+)\0([0-9a-f]{40})([lx]?)\n")
# the most bytes of a name and of what a link leads to; and of a path in a clone, whose own has some before it
NAME_MAX, LINK_MAX, PATH_MAX = 255, 4095, 3840


class Refused(Exception):
    """Why a push is refused, in one line."""


def shown(data):
    """Bytes from a client, to be shown in a line."""
    text = data.decode("utf-8", "backslashreplace")
    return "".join(it if it.isprintable() else it.encode("unicode_escape").decode() for it in text)[:200]


def need(is_good, reason, *words):
    """Refuses the push where that is not so; the words stand in the places {} of the reason."""
    if not is_good:
        raise Refused(reason.format(*(shown(it) if isinstance(it, bytes) else it for it in words)))


def sha1(data):
    return hashlib.sha1(data).digest()


def hash_of(text, p1, p2):
    found = hashlib.sha1(min(p1, p2) + max(p1, p2))
    found.update(text)
    return found.digest()


# ---- Deltas and texts

def hunks_of(delta, size):
    """The hunks of a delta on a text of that size: start, end, content."""
    found, place, last = [], 0, 0
    while place < len(delta):
        need(len(delta) - place >= HUNK.size, "a delta is cut off")
        start, end, length = HUNK.unpack_from(delta, place)
        place += HUNK.size
        need(last <= start <= end <= size, "a delta does not fit its base")
        need(length <= len(delta) - place, "a delta is cut off")
        found.append((start, end, delta[place:place + length]))
        place, last = place + length, end
    return found


def patched(base, delta):
    """The hunks of a delta on its base, and the text that they make of it."""
    hunks = hunks_of(delta, len(base))
    return hunks, mdiff.patches(base, [delta]) if hunks else base


class Texts:
    """Texts at hand, the latest ones; and how many bytes were built in all, of which there may be a most."""

    def __init__(self, most):
        self.found, self.size, self.built, self.most = collections.OrderedDict(), 0, 0, most

    def get(self, key):
        text = self.found.get(key)
        if text is not None:
            self.found.move_to_end(key)
        return text

    def put(self, key, text):
        self.built += len(text)
        need(self.most is None or self.built <= self.most, "the texts of the push are too large together")
        if key not in self.found:
            self.size += len(text)
        self.found[key] = text
        while self.size > KEPT and len(self.found) > 1:
            self.size -= len(self.found.popitem(last=False)[1])


class Hashes:
    """Checks the hashes of texts, of large ones while others are read."""

    def __init__(self):
        self.waiting = collections.deque()

    def check(self, what, text, p1, p2, node):
        if len(text) < LARGE:
            need(hash_of(text, p1, p2) == node, "{} {} has another hash", what, node.hex())
            return
        self.waiting.append((what, POOL.submit(hash_of, text, p1, p2), node))
        self.settle(AHEAD)

    def settle(self, left=0):
        """Waits until no more than so many are left."""
        while len(self.waiting) > left:
            what, found, node = self.waiting.popleft()
            need(found.result() == node, "{} {} has another hash", what, node.hex())


class Log:
    """A log of revisions, with those of the push laid over it."""

    def __init__(self, name, revlog, texts, hashes):
        self.name, self.revlog, self.texts, self.hashes = name, revlog, texts, hashes
        # by the node of a new revision: the node of its base, and its delta
        self.new = {}

    def has_before(self, node):
        """Whether the repository has the revision."""
        return self.revlog.index.has_node(node)

    def has(self, node):
        return node in self.new or self.has_before(node)

    def text(self, node):
        """The text of a revision, from the nearest base that is at hand."""
        chain, text = [], self.texts.get((self.name, node))
        while text is None and node in self.new:
            chain.append(node)
            node = self.new[node][0]
            text = self.texts.get((self.name, node))
        if text is None:
            text = bytes(self.revlog.rawdata(node)) if node != NULL else b""
            self.texts.put((self.name, node), text)
        for node in reversed(chain):
            text = patched(text, self.new[node][1])[1]
            self.texts.put((self.name, node), text)
        return text

    def add(self, entry):
        """Lays a revision over the log: its text, that of its base, and the hunks between; None if it is known. What is
        known is checked too: of a file Mercurial looks at its parents, base and text again."""
        node, p1, p2, base, _link, delta = entry
        for parent in (p1, p2):
            need(self.has(parent), "{} {} has an unknown parent", self.name, node.hex())
        need(self.has(base), "{} {} has an unknown base", self.name, node.hex())
        before = self.text(base)
        hunks, text = patched(before, delta)
        self.hashes.check(self.name, text, p1, p2, node)
        if self.has(node):
            return None
        self.new[node] = base, delta
        self.texts.put((self.name, node), text)
        return text, before, hunks


# ---- Changegroups

class Chunks:
    """The chunks of a changegroup, from left to right."""

    def __init__(self, payload, version):
        need(version in ENTRY, "a changegroup is of version {}", version)
        self.data, self.place, self.version = payload, 0, version

    def next(self):
        """The next chunk; None for an empty one."""
        need(len(self.data) - self.place >= 4, "a changegroup is cut off")
        size = struct.unpack_from(">i", self.data, self.place)[0]
        need(size == 0 or size > 4, "a chunk of a changegroup has a bad length")
        start = self.place + 4
        self.place += max(size, 4)
        need(self.place <= len(self.data), "a changegroup is cut off")
        return self.data[start:self.place] if size else None

    def entries(self):
        """The revisions of a group: node, parents, base, the changeset that brings it, delta."""
        form, before = ENTRY[self.version], None
        while (chunk := self.next()) is not None:
            need(len(chunk) >= form.size, "a chunk of a changegroup is too short")
            node, p1, p2, *rest = form.unpack_from(chunk)
            base = rest[0] if self.version == b"02" else p1 if before is None else before
            before = node
            yield node, p1, p2, base, rest[-1], chunk[form.size:]


# ---- Changesets

class Changeset:
    """A changeset of the push, as its text tells it."""

    def __init__(self, log, node, p1, p2, text):
        self.node, self.p1, self.p2, self.size = node, p1, p2, len(text)
        self.name = f"the changeset {node.hex()}"
        try:
            self.read(log, text)
        except Refused:
            raise
        except Exception as fault:
            raise Refused(f"Mercurial cannot read {self.name}: {type(fault).__name__}") from fault
        # what differs from the first parent, and from both parents, by path
        self.changed, self.introduced = {}, {}

    def read(self, log, text):
        """Reads the text as Mercurial does, and stricter where it would only fail later."""
        digits, user, date, rest = text.split(b"\n", 3)
        block, gap, description = rest.partition(b"\n\n") if rest[:1] != b"\n" else (b"", b"\n", rest[1:])
        need(DIGITS.fullmatch(digits), "{} does not name its manifest in 40 digits", self.name)
        need(user.strip() and is_utf8(user), "{} has no user, or one that is not UTF-8", self.name)
        need(gap and is_utf8(description), "{} has no description, or one that is not UTF-8", self.name)
        need(DATE.match(date), "{} has no date with a zone", self.name)
        read = changelog.changelogrevision(log, text, None, False)
        self.manifest, (self.time, self.zone), self.extra = read.manifest, read.date, read.extra
        self.user, self.description = user.decode(), description.decode()
        need(is_date(self.time, self.zone), "{} has a date or a zone that cannot be", self.name)
        self.branch, self.closes = self.branch_of(date), b"close" in self.extra
        self.files = block.split(b"\n") if block else []
        for path in self.files:
            check_path(path)
        need(read.files == self.files == sorted(set(self.files)), "{} lists files twice, or not in order", self.name)

    def branch_of(self, date):
        branch = self.extra[b"branch"]
        need(branch == plain_branch(date), "the branch of {} is read in two ways", self.name)
        check_name(branch, f"the branch of {self.name}")
        return branch.decode()


def is_utf8(data):
    try:
        data.decode("utf-8")
    except UnicodeDecodeError:
        return False
    return True


def is_date(time, zone):
    """Whether Mercurial would write such a date."""
    return -0x80000000 <= time <= 0x7FFFFFFF and -50400 <= zone <= 43200


ESCAPES = {b"\\\\": b"\\", b"\\n": b"\n", b"\\r": b"\r", b"\\0": b"\0"}


def plain_branch(date):
    """The branch as the push server reads it: with four escapes, and the last piece counts."""
    branch = b"default"
    for piece in date.split(b" ", 2)[2:3]:
        for it in piece.split(b"\0"):
            it = re.sub(rb"\\[\\nr0]", lambda found: ESCAPES[found[0]], it)
            if it.startswith(b"branch:"):
                branch = it[len(b"branch:"):]
    return branch


def check_name(name, what):
    """A name of a branch or bookmark that Mercurial gives, and keeps in its files."""
    need(name and is_utf8(name), "{} is no name in UTF-8", what)
    need(not re.search(rb"[\0-\x1f\x7f]", name), "{} has control characters: {}", what, name)
    try:
        scmutil.checknewlabel(None, name, b"")
    except error.InputError as fault:
        raise Refused(f"{what} is no name of Mercurial's: {shown(fault.message)}") from fault


# ---- Paths

AUDITOR = pathutil.pathauditor(b"/", realfs=False)


@functools.lru_cache(maxsize=1 << 16)
def check_path(path):
    """A path that Mercurial tracks, and that can be written in a clone."""
    parts = path.split(b"/")
    need(b"" not in parts and b"." not in parts and b"\0" not in path, "the path {} is no path of a file", path)
    need(len(path) <= PATH_MAX and max(map(len, parts)) <= NAME_MAX, "the path {} is too long", path)
    try:
        scmutil.checkfilename(path)
        AUDITOR(path)
    except (error.InputError, error.Abort) as fault:
        raise Refused(f"Mercurial does not track the path {shown(path)}: {shown(fault.message)}") from fault


# ---- Manifests

def lines_of(text):
    """The lines of a manifest, or of a part of it: path, and node and flag."""
    found, place = [], 0
    while place < len(text):
        line = LINE.match(text, place)
        need(line, "a manifest has a line that is none")
        found.append((line[1], (bytes.fromhex(line[2].decode()), line[3])))
        place = line.end()
    return found


def place_of(text, path):
    """Where the first line of a manifest begins whose path is not before that one."""
    low, high = 0, len(text)
    while low < high:
        start = text.rfind(b"\n", low, (low + high) // 2) + 1 or low
        if text[start:text.index(b"\0", start)] < path:
            low = text.index(b"\n", start) + 1
        else:
            high = start
    return low


def has_path(text, path):
    return text.startswith(path + b"\0", place_of(text, path))


def regions_of(before, hunks):
    """The whole lines around hunks: where they begin and end in the text before, and what is there now."""
    found = []
    first = last = end = None
    pieces = []
    for start, stop, content in hunks:
        if first is not None and start >= end:
            found.append((first, end, b"".join([*pieces, before[last:end]])))
            first = None
        if first is None:
            first = before.rfind(b"\n", 0, start) + 1
            pieces, last = [], first
        pieces += [before[last:start], content]
        last = end = stop
        now_ends = next((it[-1:] for it in reversed(pieces) if it), b"\n")
        if before[stop - 1:stop] not in (b"\n", b"") or now_ends != b"\n":
            end = before.find(b"\n", stop) + 1 or len(before)
    if first is not None:
        found.append((first, end, b"".join([*pieces, before[last:end]])))
    return found


class Manifests(Log):
    """The manifests, and by the node of a new one what differs from its base: path, before, now."""

    def __init__(self, revlog, texts, hashes):
        super().__init__("the manifest", revlog, texts, hashes)
        self.changed = {}

    def add(self, entry):
        added = super().add(entry)
        if added is not None:
            self.changed[entry[0]] = self.differences(*added)
        return added

    def differences(self, text, before, hunks):
        """What differs between two texts by their hunks; the lines in the place of hunks are checked."""
        changed, shift = {}, 0
        for start, end, now in regions_of(before, hunks):
            lines = lines_of(now)
            self.check_order(text, start + shift, len(now), lines)
            shift += len(now) - (end - start)
            old, new = dict(lines_of(before[start:end])), dict(lines)
            for path in old.keys() | new.keys():
                was = changed.get(path, (None, None))[0] or old.get(path)
                now_is = new.get(path) or changed.get(path, (None, None))[1]
                changed[path] = was, now_is
        changed = {path: it for path, it in changed.items() if it[0] != it[1]}
        self.check_paths(text, [path for path, it in changed.items() if it[0] is None], bool(before))
        return changed

    @staticmethod
    def check_order(text, start, size, lines):
        """The paths of these lines ascend, also from the line before them and to the one behind."""
        paths = [path for path, _ in lines]
        if start:
            line = text.rfind(b"\n", 0, start - 1) + 1
            paths.insert(0, text[line:text.index(b"\0", line)])
        if start + size < len(text):
            paths.append(text[start + size:text.index(b"\0", start + size)])
        need(all(a < b for a, b in zip(paths, paths[1:])), "the paths of a manifest are not in order")

    @staticmethod
    def check_paths(text, paths, has_more):
        """New paths of a manifest: none is also a folder of another."""
        folders = set()
        for path in paths:
            check_path(path)
            folder = path
            while (cut := folder.rfind(b"/")) >= 0 and (folder := folder[:cut]) not in folders:
                folders.add(folder)
        for folder in folders:
            need(not has_path(text, folder), "the path {} is a file and a folder", folder)
        for path in paths if has_more else ():
            inner = path + b"/"
            need(not text.startswith(inner, place_of(text, inner)), "the path {} is a file and a folder", path)

    def between(self, one, other):
        """What differs between two manifests, by path: before, now."""
        if other in self.new and self.new[other][0] == one:
            return self.changed[other]
        back, there = self.chain(one), self.chain(other)
        meeting = next((node for node in there if node in back), None)
        if meeting is None:
            return self.compared(one, other)
        changed = joined(inverted(self.from_base(back, meeting)), self.from_base(there, meeting))
        return {path: it for path, it in changed.items() if it[0] != it[1]}

    def chain(self, node):
        """A manifest, its base, the base of that one, .."""
        found = [node]
        while node in self.changed and len(found) < FAR:
            node = self.new[node][0]
            found.append(node)
        return found

    def from_base(self, chain, base):
        """What differs from one of the bases of a manifest to it."""
        changed = {}
        for node in chain[:chain.index(base)]:
            changed = joined(self.changed[node], changed)
        return changed

    def compared(self, one, other):
        """Compares two manifests whole."""
        before, now = (manifest.manifestdict(20, self.text(node)) for node in (one, other))
        return {path: tuple(None if it[0] is None else it for it in both) for path, both in before.diff(now).items()}


def joined(first, second):
    """What differs after two steps."""
    return {path: (first.get(path, second.get(path))[0], second.get(path, first.get(path))[1])
            for path in first.keys() | second.keys()}


def inverted(changed):
    return {path: (now, before) for path, (before, now) in changed.items()}


# ---- Files

class File:
    """A revision of a file in the push."""

    def __init__(self, log, path, node, size):
        self.log, self.path, self.node, self.size = log, path, node, size
        self.name = os.fsdecode(path)

    def text(self):
        """What the file holds, without what Mercurial keeps before it."""
        return storageutil.filtermetadata(self.log.text(self.node))


# ---- Markers

def read_markers(data):
    """The markers that Mercurial reads there, and that it can write and read again."""
    need(data[:1] == b"\0", "markers are not of version 0")
    try:
        found = list(obsolete._fm0readmarkers(data, 1, len(data)))
        again = [*map(obsolete._fm1encodeonemarker, found)]
        kept = [next(iter(obsolete._fm1readmarkers(b"\1" + it, 1, 1 + len(it)))) for it in again]
    except Exception as fault:
        raise Refused(f"Mercurial cannot keep a marker: {type(fault).__name__}") from fault
    for marker, it in zip(found, kept):
        before, after, flags, _meta, date, _parents = marker
        need(flags in (0, obsolete.bumpedfix), "a marker has flags that are not known")
        need(NULL not in after and before not in after, "a marker has a successor that cannot be")
        need(is_date(*date), "a marker has a date or a zone that cannot be")
        need(marker[:4] == it[:4] and marker[5] == it[5], "a marker is not the same when it is read again")
    return found


# ---- The push

class Incoming:
    """What a canonical bundle brings, laid over a repository and checked."""

    def __init__(self, repo, bundle, most=None):
        self.repo = repo.unfiltered()
        self.texts, self.hashes = Texts(most), Hashes()
        self.log = Log("the changeset", self.repo.changelog, self.texts, self.hashes)
        self.manifests = Manifests(self.repo.manifestlog.getstorage(b"")._revlog, self.texts, self.hashes)
        self.logs = {}
        # what is new: changesets by node, revisions of files, markers; and the bookmarks that are moved
        self.changesets, self.files, self.markers, self.bookmarks = {}, [], [], {}
        for part in canonical.changes(bundle):
            CHECKS[part.type](self, part)
        self.hashes.settle()

    def knows(self, node):
        return self.log.has(node)

    def file_log(self, path):
        if path not in self.logs:
            self.logs[path] = Log(f"the file {shown(path)}", self.repo.file(path)._revlog, self.texts, self.hashes)
        return self.logs[path]

    def check_changegroup(self, part):
        version = part.param(b"version")
        chunks = Chunks(part.payload, b"01" if version is None else version)
        new = self.read_changesets(chunks)
        self.read_manifests(chunks, new)
        for changeset in new.values():
            self.compare(changeset)
        copies = self.read_files(chunks, new)
        need(chunks.place == len(part.payload), "bytes are left over in a changegroup")
        for changeset in new.values():
            for path, node in changeset.introduced.items():
                need(node != NULL and self.file_log(path).has(node), "{} lacks the file {}", changeset.name, path)
            self.check_links(changeset)
        for name, source, node in copies:
            need(self.file_log(source).has(node), "{} is a copy of a file that is not there", name)

    def check_links(self, changeset):
        """What becomes a link in a changeset can be one in a clone: it is a path."""
        for path, (was, now) in changeset.changed.items():
            if now is not None and now[1] == b"l" and was != now:
                text = storageutil.filtermetadata(self.file_log(path).text(now[0]))
                need(0 < len(text) <= LINK_MAX and b"\0" not in text, "the file {} cannot be a link", path)

    def read_changesets(self, chunks):
        new = {}
        for entry in chunks.entries():
            node, p1, p2 = entry[:3]
            added = self.log.add(entry)
            if added is not None:
                need(p1 != NULL or p2 == NULL, "the changeset {} has a second parent alone", node.hex())
                new[node] = Changeset(self.repo.changelog, node, p1, p2, added[0])
        self.changesets.update(new)
        return new

    def read_manifests(self, chunks, new):
        for entry in chunks.entries():
            node, link = entry[0], entry[4]
            need(self.knows(link) and link != NULL, "the manifest {} is linked to an unknown changeset", node.hex())
            if self.manifests.add(entry) is not None:
                need(link in new and new[link].manifest == node,
                     "the manifest {} is linked to a changeset that does not bring it", node.hex())
        for changeset in new.values():
            need(self.manifests.has(changeset.manifest), "{} has no manifest", changeset.name)

    def manifest_of(self, node):
        if node == NULL:
            return NULL
        new = self.changesets.get(node)
        return new.manifest if new else self.repo.changelog.changelogrevision(node).manifest

    def compare(self, changeset):
        """Compares the files of a changeset with what differs between its manifest and those of its parents."""
        before, other = self.manifest_of(changeset.p1), self.manifest_of(changeset.p2)
        changeset.changed = self.manifests.between(before, changeset.manifest)
        is_merge = changeset.p2 != NULL
        beside = self.manifests.between(other, changeset.manifest) if is_merge else None
        listed = set(changeset.files)
        for path, (was, now) in changeset.changed.items():
            if is_merge:
                there = beside.get(path)
                if there is None or now is None or now[0] in (it[0] for it in (was, there[0]) if it):
                    continue
            need(path in listed, "{} changes {} and does not list it", changeset.name, path)
            if now is not None:
                changeset.introduced[path] = now[0]
        text = None
        for path in listed - changeset.changed.keys() - (beside or {}).keys():
            text = self.manifests.text(changeset.manifest) if text is None else text
            need(has_path(text, path), "{} lists {} and its manifest has no such file", changeset.name, path)

    def read_files(self, chunks, new):
        """Reads the revisions of files; of what they say that they are copies."""
        seen, copies = set(), []
        while (path := chunks.next()) is not None:
            check_path(path)
            need(path not in seen, "the file {} comes twice", path)
            seen.add(path)
            log, count = self.file_log(path), 0
            for entry in chunks.entries():
                copies += self.read_file(log, path, entry, new)
                count += 1
            need(count, "the file {} comes without a revision", path)
        return copies

    def read_file(self, log, path, entry, new):
        node, p1, link = entry[0], entry[1], entry[4]
        need(self.knows(link) and link != NULL, "{} {} is linked to an unknown changeset", log.name, node.hex())
        added = log.add(entry)
        if added is None:
            return []
        need(link in new and new[link].introduced.get(path) == node,
             "{} {} is linked to a changeset that does not bring it", log.name, node.hex())
        self.files.append(File(log, path, node, len(added[0])))
        return self.copied(f"{log.name} {node.hex()}", p1, added[0]) if added[0][:2] == b"\1\n" else []

    @staticmethod
    def copied(name, p1, text):
        """Of what a file is a copy, as Mercurial keeps it before the text."""
        try:
            head = storageutil.parsemeta(text)[0]
        except Exception as fault:
            raise Refused(f"Mercurial cannot read {name}: {type(fault).__name__}") from fault
        need(b"censored" not in head, "{} is censored", name)
        if b"copy" not in head or p1 != NULL:
            return []
        source, digits = head[b"copy"], head.get(b"copyrev", b"")
        need(DIGITS.fullmatch(digits), "{} does not say of which revision it is a copy", name)
        check_path(source)
        node = bytes.fromhex(digits.decode())
        need(node != NULL, "{} does not say of which revision it is a copy", name)
        return [(name, source, node)]

    def check_phase_heads(self, part):
        need(len(part.payload) % 24 == 0, "phase-heads are cut off")
        for phase, node in struct.iter_unpack(">i20s", part.payload):
            need(phase in (0, 1, 2), "phase-heads have an unknown phase")
            need(self.knows(node) and node != NULL, "phase-heads name an unknown changeset")

    def check_obsmarkers(self, part):
        self.markers += read_markers(part.payload)

    def check_bookmarks(self, part):
        data, place = part.payload, 0
        while place < len(data):
            need(len(data) - place >= 22, "bookmarks are cut off")
            node, size = struct.unpack_from(">20sH", data, place)
            name = data[place + 22:place + 22 + size]
            need(len(name) == size, "bookmarks are cut off")
            place += 22 + size
            need(node == NO_BOOKMARK or self.knows(node), "a bookmark names an unknown changeset")
            self.move(name, None if node == NO_BOOKMARK else node)

    def move(self, name, node):
        """Notes that a bookmark is set, or deleted."""
        need(not bookmarks.isdivergent(name), "the bookmark {} has an @ inside", name)
        if node is not None:
            check_name(name, "a bookmark")
        self.bookmarks[name] = node

    def check_pushkey(self, part):
        namespace, key, old, new = (part.param(it) for it in canonical.CHANGING[b"pushkey"])
        need(None not in (namespace, key, old, new), "a pushkey has not all of its parameters")
        if namespace == b"obsolete" and key.startswith(b"dump") and not old:
            try:
                markers = util.b85decode(new)
            except ValueError as fault:
                raise Refused("markers are not in base 85") from fault
            self.markers += read_markers(markers)
        if namespace == b"bookmarks" and not bookmarks.isdivergent(key):
            node = node_in_digits(new)
            if self.bookmark(key) == old and (not new or node is not None and self.knows(node)):
                self.move(key, node)

    def bookmark(self, name):
        """Where a bookmark is now, in digits; nothing where there is none."""
        node = self.bookmarks[name] if name in self.bookmarks else self.repo._bookmarks.get(name)
        return node.hex().encode() if node else b""


CHECKS = {
    b"changegroup": Incoming.check_changegroup,
    b"phase-heads": Incoming.check_phase_heads,
    b"obsmarkers": Incoming.check_obsmarkers,
    b"bookmarks": Incoming.check_bookmarks,
    b"pushkey": Incoming.check_pushkey,
}


def node_in_digits(digits):
    """The node in 40 digits of either case; None where they are something else."""
    return bytes.fromhex(digits.decode()) if DIGITS.fullmatch(digits.lower()) else None
