"""Pushes that ask much of a server: each kind is a function of a size.

It gives the pushes that have to be done before, the hostile push, and how many bytes that one makes the server hash.
"""
import random

from bundles import *


def group_part(chunks):
    return (b"CHANGEGROUP", ((b"version", b"02"),), chunks + bytes(12))


class Line:
    """Changesets with short texts, each the child of the one before, or of none."""

    def __init__(self):
        self.nodes, self.chunks, self.hashed = [], [], 0

    def add(self, text, parent):
        node = node_of(text, parent)
        delta = number(0) + number(0) + number(len(text)) + text if text else b""
        body = node + parent + NULL + NULL + node + delta
        self.chunks.append(number(len(body) + 4) + body)
        self.nodes.append(node)
        self.hashed += 40 + len(text)

    def part(self):
        return group_part(b"".join(self.chunks))


def line_of(count, is_line=True):
    """So many changesets, on one line or each alone."""
    line, parent = Line(), NULL
    for place in range(count):
        line.add(b"%d" % place, parent)
        parent = line.nodes[-1] if is_line else NULL
    return line


def empty_texts(count):
    line, parent = Line(), NULL
    for _ in range(count):
        line.add(b"", parent)
        parent = line.nodes[-1]
    return line


def phase_heads(nodes, phase=0):
    return (b"phase-heads", (), b"".join(number(phase) + node for node in nodes))


def bookmarks(names, node):
    entry = lambda name: node + len(name).to_bytes(2, "big") + name
    return (b"bookmarks", (), b"".join(map(entry, names)))


def pushkey(namespace, key, old, new):
    return (b"pushkey", ((b"namespace", namespace), (b"key", key), (b"old", old), (b"new", new)), b"")


def names(count, step=1):
    """So many names of 12 bytes in descending order."""
    return [b"name%08d" % (step * place) for place in reversed(range(count))]


def markers(count):
    """Markers with a predecessor of their own and one successor, 46 bytes each."""
    one = lambda place: bytes([1]) + number(0) + bytes(1) + place.to_bytes(20, "big") + bytes([1]) * 20
    return (b"obsmarkers", (), bytes(1) + b"".join(map(one, range(count))))


# what refuses a push after its other parts were run
REFUSED = (b"CHECK:HEADS", (), bytes([7]) * 20)


def heads_of_a_line(count):
    line = line_of(count)
    return [bundle(line.part())], bundle(phase_heads(line.nodes)), 0


def heads_alone(count):
    line = line_of(count, False)
    return [bundle(line.part())], bundle(phase_heads(line.nodes)), 0


def heads_repeated(count):
    """So many entries for 10,000 rows."""
    line = line_of(10_000)
    nodes = (line.nodes * (count // 10_000 + 1))[:count]
    return [bundle(line.part())], bundle(phase_heads(nodes)), 0


def heads_and_back(count):
    line = line_of(count)
    return [bundle(line.part())], bundle(phase_heads(line.nodes), REFUSED), 0


def phase_keys(count):
    line = line_of(200_000 + count)
    keys = [pushkey(b"phases", node.hex().encode(), b"1", b"0") for node in line.nodes[:count]]
    return [bundle(line.part())], bundle(*keys), 0


def new_names(count):
    line = line_of(1)
    return [bundle(line.part())], bundle(bookmarks(names(count), line.nodes[0])), 0


def mixed_names(count):
    """The same in no order, as it comes each time."""
    mixed = names(count)
    random.Random(count).shuffle(mixed)
    return mixed


def names_in_no_order(count):
    line = line_of(1)
    return [bundle(line.part())], bundle(bookmarks(mixed_names(count), line.nodes[0])), 0


def names_in_no_order_and_back(count):
    line = line_of(1)
    return [bundle(line.part())], bundle(bookmarks(mixed_names(count), line.nodes[0]), REFUSED), 0


def new_names_and_back(count):
    line = line_of(1)
    return [bundle(line.part())], bundle(bookmarks(names(count), line.nodes[0]), REFUSED), 0


def name_keys(count):
    line = line_of(1)
    node = line.nodes[0]
    keys = [pushkey(b"bookmarks", name + b"x", b"", node.hex().encode()) for name in names(count, 10)]
    return [bundle(line.part(), bookmarks(names(100_000), node))], bundle(*keys), 0


def many_markers(count):
    return [], bundle(markers(count)), 0


def many_empty_texts(count):
    line = empty_texts(count)
    return [], bundle(line.part()), line.hashed


def many_parts(count):
    return [], bundle(*[(b"output", (), b"a line")] * count), 0


def all_at_once(count):
    """Of each a share, in one push."""
    line = empty_texts(count)
    nodes = line.nodes
    keys = [pushkey(b"bookmarks", name + b"x", b"", nodes[0].hex().encode()) for name in names(count // 32)]
    parts = [line.part(), phase_heads(nodes), bookmarks(names(count), nodes[0]), markers(count), *keys]
    return [], bundle(*parts), line.hashed


# of each kind of push, its largest size
ROWS = {
    "phase-heads of a line, an entry for each row": (heads_of_a_line, 160_000),
    "phase-heads of rows without parents": (heads_alone, 160_000),
    "phase-heads with many entries for 10,000 rows": (heads_repeated, 2_700_000),
    "phase-heads of a line, refused after it": (heads_and_back, 160_000),
    "pushkeys on phases, 200,000 rows after them": (phase_keys, 10_000),
    "bookmarks with new names in descending order": (new_names, 1_960_000),
    "the same, refused after it": (new_names_and_back, 1_960_000),
    "bookmarks with new names in no order": (names_in_no_order, 1_960_000),
    "those in no order, refused after it": (names_in_no_order_and_back, 1_960_000),
    "pushkeys of new names among 100,000": (name_keys, 10_000),
    "obsmarkers": (many_markers, 1_400_000),
    "a changegroup of empty texts": (many_empty_texts, 600_000),
    "parts": (many_parts, 10_000),
    "all in one push": (all_at_once, 160_000),
}

# those that are refused after all else of them was run
REFUSING = (heads_and_back, new_names_and_back, names_in_no_order_and_back)


def longest(size, hashed):
    """How many seconds a push of so many bytes may hold the lock, on processors on which sha1sum makes 400 MB/s."""
    return 2 + 60e-9 * (size + hashed)
