"""Pushes as lists of fields, and the bytes that they are written as.

A push is a list of parts and a few edits of its bytes. A part is a type, an id, parameters and the items of its
payload. An item is bytes as they are, or a tuple: its name and its fields. An id is written as its digits.
"""
import collections

import container
from bundles import number

Part = collections.namedtuple("Part", "kind id params items")
Push = collections.namedtuple("Push", "parts edits")


def delta(hunks):
    return b"".join(start.to_bytes(4, "big") + end.to_bytes(4, "big") + number(len(text)) + text
                    for start, end, text in hunks)


def changeset(version, node, first, second, base, hunks):
    ids = [first, second, *([base] if version == "02" else []), node]
    body = b"".join(map(bytes.fromhex, (node, *ids))) + delta(hunks)
    return number(len(body) + 4) + body


def marker(successors, flags, predecessor, meta):
    ids = bytes.fromhex(predecessor) + b"".join(map(bytes.fromhex, successors))
    return bytes([len(successors)]) + number(len(meta)) + bytes([flags]) + ids + meta


def phase(level, node):
    return number(level) + bytes.fromhex(node)


def bookmark(node, name):
    return bytes.fromhex(node) + len(name).to_bytes(2, "big") + name


ITEMS = {"changeset": changeset, "marker": marker, "node": bytes.fromhex, "phase": phase, "bookmark": bookmark}


def payload_of(items):
    return b"".join(it if isinstance(it, bytes) else ITEMS[it[0]](*it[1:]) for it in items)


def as_read(part):
    """The part as a reader gives it."""
    return container.Part(part.kind.encode(), part.id, part.params, payload_of(part.items))


def header(kind, place, params):
    params = sorted(params, key=lambda it: not it[0])
    mandatory = sum(it[0] for it in params)
    block = bytes([len(kind)]) + kind.encode() + place.to_bytes(4, "big") + bytes([mandatory, len(params) - mandatory])
    block += b"".join(bytes([len(key), len(value)]) for _, key, value in params)
    block += b"".join(key + value for _, key, value in params)
    return number(len(block)) + block


def chunks(payload, size):
    """In chunks of one size, without the closing one."""
    return b"".join(number(len(it)) + it for it in (payload[at:at + size] for at in range(0, len(payload), size)))


def interruption(kind, params=(), nested=b""):
    """Such a part in the middle of a payload."""
    return number(-1) + header(kind, 0, params) + chunks(b"said", 3) + nested + number(0)


def written(push):
    """The bytes. Edits are: stream parameters; the size of chunks; what stands inside the payload of which part; bytes
    behind the end; a byte that is turned; how many bytes are cut off."""
    edits = push.edits
    data = b"HG20" + number(len(edits.get("stream", b""))) + edits.get("stream", b"")
    for place, part in enumerate(push.parts):
        at, inside = edits.get("inside", (None, b""))
        payload, size = payload_of(part.items), edits.get("chunks", 1 << 20)
        half, inside = (len(payload) // 2, inside) if at == place else (0, b"")
        data += header(*part[:3]) + chunks(payload[:half], size) + inside + chunks(payload[half:], size) + number(0)
    data += number(0) + edits.get("behind", b"")
    if "turn" in edits:
        at, value = edits["turn"]
        data = data[:at % len(data)] + bytes([value]) + data[at % len(data) + 1:]
    return data[:len(data) - edits.get("cut", 0)]
