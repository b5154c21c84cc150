"""Pushes that are made by hand, changesets with manifests and files, for tests: each field may be said otherwise."""

import hashlib
import struct

NULL = bytes(20)
END = struct.pack(">I", 0)


def node_of(text, first=NULL, second=NULL):
    return hashlib.sha1(min(first, second) + max(first, second) + text).digest()


def hunk(start, end, content):
    return struct.pack(">III", start, end, len(content)) + content


def chunk(data):
    return struct.pack(">I", len(data) + 4) + data


class Revision:
    """An entry of a group: its text is one hunk upon a base, the null revision where none is named."""

    def __init__(self, text, p1=NULL, p2=NULL):
        self.text, self.p1, self.p2, self.node = text, p1, p2, node_of(text, p1, p2)
        self.base, self.delta, self.link = NULL, hunk(0, 0, text), None
        SIZES[self.node] = len(text)

    def entry(self, before=None):
        """The entry; in version 01 upon the one before it, else upon the first parent."""
        if before is None:
            return chunk(self.node + self.p1 + self.p2 + self.base + self.link + self.delta)
        return chunk(self.node + self.p1 + self.p2 + self.link + hunk(0, SIZES[before or self.p1], self.text))


# how long the text of a revision is, by its node
SIZES = {NULL: 0}


class Made:
    """A changeset, its manifest and its files. `files` is by path a text, or a text and a flag; None removes it."""

    def __init__(self, parent=None, files=None, parent2=None, user=b"someone", date=b"0 0", description=b"made",
                 listed=None, text=None, lines=None, head=b""):
        one, two = parent or EMPTY, parent2 or EMPTY
        self.tree, self.files = {**two.tree, **one.tree}, {}
        for path, content in (files or {}).items():
            self.write(path, content, one, two, head)
        rows = [path + b"\0" + node.hex().encode() + flag + b"\n" for path, (node, flag) in sorted(self.tree.items())]
        rows = (lines or bytes)(b"".join(rows))
        self.manifest = Revision(rows, one.manifest.node, two.manifest.node)
        if text is None:
            names = b"\n".join(sorted(files or {}) if listed is None else listed)
            text = b"\n".join([self.manifest.node.hex().encode(), user, date, *([names] if names else []), b"",
                               description])
        self.changeset = Revision(text, one.node, two.node)
        for revision in (self.changeset, self.manifest, *self.files.values()):
            revision.link = self.node

    def write(self, path, content, one, two, head):
        if content is None:
            self.tree.pop(path)
            return
        content, flag = content if isinstance(content, tuple) else (content, b"")
        before = [it.tree.get(path, (NULL, b""))[0] for it in (one, two)]
        revision = Revision(head + content, *(before if before[0] != before[1] else (before[0], NULL)))
        self.tree[path] = revision.node, flag
        self.files[path] = revision

    @property
    def node(self):
        return self.changeset.node

    def of(self, path):
        return self.files[path]


class Nothing:
    """What is below the first changeset."""
    node, tree = NULL, {}
    manifest = Revision(b"")


Nothing.manifest.node = NULL
EMPTY = Nothing()


def entries(revisions, version):
    """A group of revisions."""
    before = [None] * len(revisions) if version != b"01" else [b"", *(it.node for it in revisions)]
    return b"".join(it.entry(base) for it, base in zip(revisions, before)) + END


def group(*made, version=b"02", manifests=True, files=True, more=b""):
    """The payload of a changegroup of such changesets."""
    data = entries([it.changeset for it in made], version)
    data += entries([it.manifest for it in made if manifests and it.manifest.node != NULL], version)
    paths = sorted({path for it in made for path in it.files}) if files else []
    for path in paths:
        data += chunk(path) + entries([it.files[path] for it in made if path in it.files], version)
    return data + more + END


def part(kind, payload=b"", mandatory=(), advisory=(), number=0, chunks=None):
    """A part of a bundle, its payload in one chunk, or in these chunks."""
    params = [*mandatory, *advisory]
    header = bytes([len(kind)]) + kind + struct.pack(">IBB", number, len(mandatory), len(advisory))
    header += b"".join(bytes([len(name), len(value)]) for name, value in params)
    header += b"".join(name + value for name, value in params)
    pieces = chunks if chunks is not None else [struct.pack(">I", len(payload)) + payload] if payload else []
    return struct.pack(">I", len(header)) + header + b"".join(pieces) + END


def bundle(*parts, params=b""):
    return b"HG20" + struct.pack(">I", len(params)) + params + b"".join(parts) + END


CAPS = part(b"REPLYCAPS", b"HG20\nchangegroup=01,02\nphases=heads\nobsmarkers=V0\nbookmarks\npushkey")


def changegroup(*made, kind=b"CHANGEGROUP", mandatory=(), advisory=(), version=b"02", **more):
    return part(kind, group(*made, version=version, **more), [(b"version", version), *mandatory], advisory, 1)


def push(*made, parts=(), **more):
    """The bundle that brings such changesets."""
    return bundle(CAPS, changegroup(*made, **more), *parts)


def bookmarks(*moved):
    """The part that sets bookmarks, or deletes them where there is no node."""
    return part(b"BOOKMARKS", b"".join((node or b"\xff" * 20) + struct.pack(">H", len(name)) + name
                                       for name, node in moved), number=2)


def pushkey(namespace, key, old, new, kind=b"pushkey"):
    params = [(b"namespace", namespace), (b"key", key), (b"old", old), (b"new", new)]
    return part(kind, b"", params if kind.isupper() else (), () if kind.isupper() else params, 3)


def phase_heads(*rows):
    return part(b"PHASE-HEADS", b"".join(struct.pack(">i", phase) + node for phase, node in rows), number=4)


def marker(before, after=(), flags=0, meta=b"user:someone\0date:0.0 0"):
    return struct.pack(">BIB", len(after), len(meta), flags) + before + b"".join(after) + meta


def obsmarkers(*markers, kind=b"OBSMARKERS", version=b"\0"):
    return part(kind, version + b"".join(markers), number=5)
