"""Changegroups of the versions 01 and 02, and the deltas in them."""
from container import Broken, Stream
from repository import NULL, knows, node_id, register, text_of
from rules import rule, seen


class Malformed(Exception):
    """A payload against its grammar."""


class Unfit(Exception):
    """A changeset that the changelog does not take."""


def chunk(stream):
    """A length that counts its own four bytes, and the rest. Length 0 is an empty chunk, 1 to 4 and less are none."""
    length = stream.size()
    if length < 0 or 1 <= length <= 4:
        raise Malformed
    return stream.take(length - 4) if length else b""


def group(stream):
    """Chunks up to an empty one."""
    return list(iter(lambda: chunk(stream), b""))


@rule
def read_changegroup(version, payload):
    """The group of changesets, that of manifests, for each file its name and a group, an empty chunk, and no more.
    A changeset has its id, two parents, in version 02 the base of its delta, and the changeset that it is linked to;
    then the delta. In version 01 the base is the first parent for the first one, and the one before for the others.
    Nothing is asked of what stands in manifests and files."""
    size = {b"01": 80, b"02": 100}.get(version)
    if size is None:
        raise Malformed
    stream, entries = Stream(payload), []
    try:
        changesets = group(stream)
        group(stream)
        while chunk(stream):
            group(stream)
    except Broken:
        raise Malformed from None
    if stream.at < len(payload):
        raise Malformed
    for it in changesets:
        if len(it) < size:
            raise Malformed
        node, first, second = it[:20], it[20:40], it[40:60]
        base = it[60:80] if size == 100 else entries[-1][0] if entries else first
        entries.append((node, first, second, base, it[size:]))
    return entries


@rule
def apply_delta(base, delta):
    """Hunks of start, end, length and so many bytes, which stand in the place of those from start to end. They
    ascend, lie apart and inside the base."""
    made, end, stream = b"", 0, Stream(delta)
    try:
        while stream.at < len(delta):
            start, stop, length = (int.from_bytes(stream.take(4), "big") for _ in range(3))
            if not end <= start <= stop <= len(base):
                raise Unfit
            made, end = made + base[end:start] + stream.take(length), stop
    except Broken:
        raise Unfit from None
    return made + base[end:]


@rule
def add(repo, entry, phase):
    """A changeset that is known is left out. Else its parents and its base are known, the delta can be applied, and
    the id is that of what comes of it."""
    node, first, second, base, delta = entry
    if knows(repo, node):
        seen("changeset: known already")
        return
    if not all(knows(repo, it) for it in (first, second, base)):
        seen("changeset: unknown parent or base")
        raise Unfit
    text = apply_delta(text_of(repo, base), delta)
    if node_id(first, second, text) != node:
        seen("changeset: another hash")
        raise Unfit
    if NULL not in (first, second):
        seen("changeset: a merge")
    repo.revs[node] = len(repo.rows)
    repo.rows.append((node, first, second, text))
    register(repo, phase)
