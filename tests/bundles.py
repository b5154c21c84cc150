"""Bundles as a client of Mercurial's writes them, and the replies that the server writes to them."""
import hashlib

NULL = bytes(20)
EMPTY = b"HG20" + bytes(8)


def number(value):
    return value.to_bytes(4, "big", signed=True)


def part(kind, place, params=(), payload=b""):
    """A part with mandatory parameters where its type is in capitals, and with advisory ones where not."""
    count = bytes([len(params), 0]) if kind.isupper() else bytes([0, len(params)])
    sizes = b"".join(bytes([len(key), len(value)]) for key, value in params)
    texts = b"".join(key + value for key, value in params)
    header = bytes([len(kind)]) + kind + number(place) + count + sizes + texts
    chunk = number(len(payload)) + payload if payload else b""
    return number(len(header)) + header + chunk + number(0)


def bundle(*parts):
    """The bundle of such parts, given without their places."""
    numbered = (part(kind, place, params, payload) for place, (kind, params, payload) in enumerate(parts))
    return b"HG20" + number(0) + b"".join(numbered) + number(0)


def header(kind, place, params):
    """A header of parameters that say each whether they are mandatory, those first."""
    params = sorted(params, key=lambda it: not it[0])
    mandatory = sum(it[0] for it in params)
    sizes = b"".join(bytes([len(key), len(value)]) for _, key, value in params)
    texts = b"".join(key + value for _, key, value in params)
    text = bytes([len(kind)]) + kind + place.to_bytes(4, "big") + bytes([mandatory, len(params) - mandatory])
    return number(len(text + sizes + texts)) + text + sizes + texts


def chunks(dice, payload, interruptions=()):
    """A payload in chunks of any sizes, with some of the interruptions between them."""
    text = b""
    while payload or dice.random() < 0.3:
        if interruptions and dice.random() < 0.4:
            text += number(-1) + dice.choice(interruptions)
        size = min(len(payload), dice.choice((1, 2, 7, 100, 4096)))
        text += number(size) + payload[:size] if size else b""
        payload = payload[size:]
    return text + number(0)


KINDS = (b"replycaps", b"check:heads", b"changegroup", b"phase-heads", b"obsmarkers", b"bookmarks", b"pushkey",
         b"output", b"remote-changegroup", b"hgtagsfnodes", b"error:abort")
KEYS = (b"version", b"nbchanges", b"targetphase", b"namespace", b"key", b"old", b"new", b"message", b"Version", b"",
        b"treemanifest")


def any_bundle(dice):
    """A bundle of parts of many types, written in one of many ways. Not each of them can be a push that is done."""
    inside = [number(0)] + [header(kind, 3, params) + chunks(dice, text)
                            for kind, params, text in ((b"output", (), b"hello"), (b"other", ((True, b"a", b"b"),), b""))]
    text = b"HG20" + dice.choice((number(0), number(3) + b"a b", number(14) + b"Compression=UN"))
    for _ in range(dice.randrange(8)):
        kind = dice.choice(KINDS)
        if dice.random() < 0.5 and kind not in KINDS[-3:]:
            kind = bytes(it - 32 if 97 <= it <= 122 and dice.random() < 0.5 else it for it in kind)
        keys = dice.sample(KEYS, dice.randrange(len(KEYS)) if dice.random() < 0.3 else dice.randrange(4))
        params = [(dice.random() < 0.3 and key not in KEYS[7:], key, dice.randbytes(dice.choice((0, 1, 9, 255))))
                  for key in keys]
        payload = dice.randbytes(dice.choice((0, 0, 1, 26, 5000)))
        text += header(kind, dice.choice((0, 1, 7, 2**32 - 1)), params) + chunks(dice, payload, inside)
    return text + number(0)


def node_of(text, first=NULL, second=NULL):
    return hashlib.sha1(min(first, second) + max(first, second) + text).digest()


CAPS = (b"REPLYCAPS", (), b"")


def heads(*nodes):
    return (b"CHECK:HEADS", (), b"".join(nodes))


def group(*entries):
    """A changegroup of version 02. An entry is a changeset's text, a delta on null, and its first parent."""
    chunks = []
    for text, parent in entries:
        delta = number(0) + number(0) + number(len(text)) + text if text else b""
        body = node_of(text, parent) + parent + NULL + NULL + node_of(text, parent) + delta
        chunks.append(number(len(body) + 4) + body)
    return (b"CHANGEGROUP", ((b"version", b"02"),), b"".join(chunks) + bytes(12))


def parts_of(text):
    """The type and the payload of each part of a bundle."""
    at = 8 + int.from_bytes(text[4:8], "big")
    while size := int.from_bytes(text[at:at + 4], "big"):
        kind, payload = text[at + 5:at + 5 + text[at + 4]], b""
        at += 4 + size
        while count := int.from_bytes(text[at:at + 4], "big"):
            payload += text[at + 4:at + 4 + count]
            at += 4 + count
        at += 4
        yield kind, payload


def changesets_in(text):
    """The ids of the changesets of a bundle: they stand first in the chunks of a changegroup's first group."""
    for kind, payload in parts_of(text):
        at = 0
        while kind == b"CHANGEGROUP" and (size := int.from_bytes(payload[at:at + 4], "big")):
            yield payload[at + 4:at + 24].hex()
            at += size


def reply(kind, *params):
    return bundle((kind, params, b""))


def changesets(place, result):
    """The reply to a changegroup at that place."""
    return reply(b"reply:changegroup", (b"in-reply-to", b"%d" % place), (b"return", b"%d" % result))


def aborted(message):
    return reply(b"ERROR:ABORT", (b"message", message))


RACED = reply(b"ERROR:PUSHRACED", (b"message", b"heads changed"))
TRUNCATED = aborted(b"stream fault 10")
FOREIGN = aborted(b"stream fault 1")

ROOT = node_of(b"")
FIRST_PUSH = bundle(CAPS, heads(NULL))
NO_HEADS = bundle(heads())
ROOT_PUSH = bundle(CAPS, group((b"", NULL)))
ROOT_REPLY = changesets(1, 1)
WRONG_HASH = ROOT_PUSH.replace(ROOT + NULL + NULL, ROOT[:-1] + b"\xdc" + NULL + NULL, 1)
WRONG_REPLY = aborted(b"part 1 holds a bad changeset")
