"""Markers, base-85, and what `pushkey` asks for in each namespace."""
import re

from changegroups import Malformed
from container import Broken, Stream
from repository import NULL, advance, knows, phase_of
from rules import rule, seen

DIGITS = b"0123456789ABCDEFGHIJKLMNOPQRSTUVWXYZabcdefghijklmnopqrstuvwxyz!#$%&()*+-;<=>?@^_`{|}~"
ID = re.compile(rb"[0-9A-Fa-f]{40}")


def id_of(digits):
    """The id of 40 hexadecimal digits, in either case; None for anything else."""
    return bytes.fromhex(digits.decode()) if ID.fullmatch(digits) else None


@rule
def read_markers(data):
    """A byte 0 and the markers, each as its bytes: how many successors in a byte, the length of the metadata in four,
    flags, the predecessor, the successors, the metadata. No successor is null. Metadata are strings with bytes 0
    between them; each that is not empty has a colon."""
    stream, markers = Stream(data), []
    try:
        if stream.take(1) != b"\0":
            raise Malformed
        while stream.at < len(data):
            start = stream.at
            count, length = stream.take(1)[0], int.from_bytes(stream.take(4), "big")
            stream.take(21)
            successors = [stream.take(20) for _ in range(count)]
            pieces = stream.take(length).split(b"\0")
            if NULL in successors or any(it and b":" not in it for it in pieces):
                raise Malformed
            markers.append(data[start:stream.at])
    except Broken:
        raise Malformed from None
    return markers


@rule
def merge(repo, markers):
    """Adds each marker that is not there yet, all its bytes compared, in order. Gives how many were added."""
    before = len(repo.markers)
    for it in markers:
        if it in repo.markers:
            seen("marker: there already")
        else:
            repo.markers.append(it)
    return len(repo.markers) - before


@rule
def base85_decode(text):
    """Five digits are four bytes, the most significant digit first. A last group of two to four is filled with the
    greatest digit, and gives a byte less than it has digits. One digit alone is none, nor is a group beyond 32 bits."""
    made = b""
    for at in range(0, len(text), 5):
        piece, value = text[at:at + 5], 0
        if len(piece) == 1 or set(piece) - set(DIGITS):
            raise Malformed
        for digit in piece.ljust(5, b"~"):
            value = 85 * value + DIGITS.index(digit)
        if value >= 1 << 32:
            raise Malformed
        made += value.to_bytes(4, "big")[:len(piece) - 1]
    return made


@rule
def base85_encode(data):
    """The other way: a last group of one to three bytes is filled with zeros, and keeps one digit more than bytes."""
    made = b""
    for at in range(0, len(data), 4):
        piece = data[at:at + 4]
        value, digits = int.from_bytes(piece.ljust(4, b"\0"), "big"), []
        for _ in range(5):
            value, digit = divmod(value, 85)
            digits.insert(0, DIGITS[digit])
        made += bytes(digits[:len(piece) + 1])
    return made


@rule
def push_key(repo, namespace, key, old, new):
    """Whether what is asked for is so now. A namespace that is not known grants nothing."""
    asked = {b"phases": push_phase, b"bookmarks": push_bookmark, b"obsolete": push_obsolete}.get(namespace)
    return asked is not None and asked(repo, key, old, new)


@rule
def push_phase(repo, key, old, new):
    """The key is a known id, old and new are phases. From the present phase, a lower one is set; where the present
    one is the new one, it is so."""
    node = id_of(key)
    if node is None or not knows(repo, node) or not {old, new} <= {b"0", b"1", b"2"}:
        return False
    old, new, present = int(old), int(new), phase_of(repo, node)
    if present == old and new < old:
        seen("pushkey: a phase is lowered")
        advance(repo, new, node)
        return True
    return present == new


@rule
def push_bookmark(repo, key, old, new):
    """A key with `@` ends in it. New is empty or an id. The bookmark is now where old says, or already where new
    says. Empty deletes it; otherwise it is set on an id that is known."""
    node, present = id_of(new), repo.bookmarks.get(key)
    if (b"@" in key and not key.endswith(b"@")) or (new and node is None):
        return False
    if (present.hex().encode() if present is not None else b"") != old and present != node:
        return False
    if new == b"":
        seen("pushkey: a bookmark is deleted" if key in repo.bookmarks else "pushkey: there was no bookmark")
        repo.bookmarks.pop(key, None)
        return True
    if not knows(repo, node):
        return False
    seen("pushkey: a bookmark is set")
    repo.bookmarks[key] = node
    return True


@rule
def push_obsolete(repo, key, old, new):
    """The key begins with `dump`, and old is empty. New is markers in base-85."""
    if not key.startswith(b"dump") or old:
        return False
    merge(repo, read_markers(base85_decode(new)))
    return True
