#!/usr/bin/env python3
"""What clients were told of a repository, beside the one order in which its store has the pushes.

    python3 tests/history.py        tries the comparison on histories made by hand

The records of a store say in which order pushes took effect, and so what the repository held behind each of them: that
is a moment, counted by the records before it. A push took effect from the moment of its record to the next one. What
was read is of a moment at which the repository held that. All that was told has to stand in one line: what was asked
behind an answer is of the same moment or of a later one (`disorder`).
"""
import hashlib
import heapq
import re
import struct
import sys
import urllib.parse

HEAD = 54
TOKEN = re.compile(rb"push-[a-z0-9-]+-\d+\.")


class Damaged(Exception):
    pass


def records_of(data):
    """The name and the bundle of each record of a store of version 2, up to its shut gate; digests are compared."""
    at, number = HEAD, 0
    digest = hashlib.sha1(data[:HEAD]).digest()
    while at < len(data) and data[at] == 255:
        (size,), front = struct.unpack(">I", data[at + 1:at + 5]), at + 14 + data[at + 13]
        bundle = data[front + 20:front + 20 + size]
        digest = hashlib.sha1(digest + data[at + 1:front] + hashlib.sha1(bundle).digest()).digest()
        if digest != data[front:front + 20]:
            raise Damaged(f"a wrong digest at place {number}")
        yield data[at + 14:front], bundle
        at, number = front + 20 + size, number + 1
    if at < len(data) and data[at]:
        raise Damaged(f"a gate that is neither open nor shut at place {number}")


def parts_of(bundle):
    """The type, the parameters and the payload of each part of a bundle."""
    at = 8 + int.from_bytes(bundle[4:8], "big")
    while size := int.from_bytes(bundle[at:at + 4], "big"):
        header = bundle[at + 4:at + 4 + size]
        kind, start = header[1:1 + header[0]], 7 + header[0]
        count = header[start - 2] + header[start - 1]
        text, params = start + 2 * count, {}
        for number in range(count):
            key, value = header[start + 2 * number:start + 2 * number + 2]
            params[header[text:text + key]] = header[text + key:text + key + value]
            text += key + value
        at, payload = at + 4 + size, b""
        while length := int.from_bytes(bundle[at:at + 4], "big", signed=True):
            payload += bundle[at + 4:at + 4 + length]
            at += 4 + length
        at += 4
        yield kind.lower(), params, payload


def bundles_in(data):
    """Bundles that stand one after the other, as `log` writes them."""
    start = 0
    while start < len(data):
        at = start + 8 + int.from_bytes(data[start + 4:start + 8], "big")
        while size := int.from_bytes(data[at:at + 4], "big"):
            at += 4 + size
            while length := int.from_bytes(data[at:at + 4], "big", signed=True):
                at += 4 + length
            at += 4
        yield data[start:at + 4]
        start = at + 4


def bookmarks_of(bundle):
    """The bookmarks that a push asks to set, and what each is to be on; nothing where it is to be taken away. A hostile
    push may ask for bytes of any form."""
    for kind, params, payload in parts_of(bundle):
        if kind == b"pushkey" and params[b"namespace"] == b"bookmarks":
            yield params[b"key"].decode(errors="replace"), params[b"new"].decode(errors="replace")
        elif kind == b"bookmarks":
            yield from bookmarks_in(payload)


def changesets_in(payload):
    """The ids of the changesets of a changegroup, which stand first in the chunks of its first group."""
    at = 0
    while size := int.from_bytes(payload[at:at + 4], "big"):
        yield payload[at + 4:at + 24].hex()
        at += size


def bookmarks_in(payload):
    """The names of a part `bookmarks`, and what each is on; nothing where it is taken away."""
    at = 0
    while at < len(payload):
        size = int.from_bytes(payload[at + 20:at + 22], "big")
        node = payload[at:at + 20]
        yield payload[at + 22:at + 22 + size].decode(), "" if node == b"\xff" * 20 else node.hex()
        at += 22 + size


def sign_of(marks):
    """What tells bookmarks from others. That of more is made of their own."""
    sign = 0
    for key, value in marks.items():
        sign ^= hash((key, value)) if value else 0
    return sign


def sign_of_nodes(nodes):
    return hashlib.sha1("".join(nodes).encode()).digest()


class Report:
    """How many pushes a report has, and what tells its changesets and its bookmarks from others."""

    def __init__(self, text):
        rows = [line.split(" ") for line in text.splitlines()]
        self.pushes = sum(row[0] == "J" for row in rows)
        self.nodes = sign_of_nodes(row[2] for row in rows if row[0] == "C")
        self.marks = sign_of({urllib.parse.unquote(row[2]): row[1] for row in rows if row[0] == "B"})


class Moments:
    """What a repository held at each moment, by the records of its store: changesets, and bookmarks."""

    def __init__(self, data):
        self.places, self.set = {}, {}
        self.nodes, self.counts = [], [0]
        self.values, self.marks = {}, [0]
        self.last = 0
        known = set()
        for user, bundle in records_of(data):
            self.add(user, bundle, known)
        self.at_marks = {}
        for moment, mark in enumerate(self.marks):
            self.at_marks.setdefault(mark, []).append(moment)

    def add(self, user, bundle, known):
        place, mark = self.last, self.marks[-1]
        tokens = {it.decode() for it in TOKEN.findall(user)}
        for kind, params, payload in parts_of(bundle):
            if kind == b"changegroup":
                tokens |= {it.decode() for it in TOKEN.findall(payload)}
                fresh = [it for it in changesets_in(payload) if it not in known]
                known.update(fresh)
                self.nodes += fresh
            elif kind == b"pushkey" and params[b"namespace"] == b"bookmarks":
                key, old, new = (params[it].decode() for it in (b"key", b"old", b"new"))
                now = self.value(key)
                # a bookmark that is as the client wants it already is content too
                self.set[place] = now == old or now == new
                if self.set[place]:
                    mark ^= self.move(key, new)
            elif kind == b"bookmarks":
                for key, new in bookmarks_in(payload):
                    mark ^= self.move(key, new)
        for token in tokens:
            self.places.setdefault(token, []).append(place)
        self.last += 1
        self.counts.append(len(self.nodes))
        self.marks.append(mark)

    def value(self, key):
        """What a bookmark is on behind the records so far; nothing where it is not there."""
        return self.values.get(key, "")

    def move(self, key, new):
        """Sets a bookmark, and gives how the sign of all of them changes."""
        change = sign_of({key: self.value(key)}) ^ sign_of({key: new})
        self.values[key] = new
        return change

    def place(self, token):
        return self.places[token][0] if token in self.places else None

    def of_marks(self, sign):
        """The moments at which the bookmarks had that sign."""
        return ranges(self.at_marks.get(sign, ()))

    def of_report(self, told):
        """The moment of a report; none where the repository was another at that moment."""
        moment = told.pushes
        fits = (moment <= self.last and told.nodes == sign_of_nodes(self.nodes[:self.counts[moment]])
                and told.marks == self.marks[moment])
        return [(moment, moment)] if fits else []

    def of_pull(self, tokens, others):
        """The moments at which a repository had just these of the changesets of the others, by their tokens."""
        first = max((self.places[it][0] + 1 for it in tokens if it in self.places), default=0)
        behind = min((places[0] for it, places in self.places.items() if others(it) and it not in tokens),
                     default=self.last)
        return [(first, behind)] if first <= behind else []


def ranges(moments):
    """Moments in ascending order, as ranges from one to another."""
    found = []
    for it in moments:
        if found and found[-1][1] == it - 1:
            found[-1] = (found[-1][0], it)
        else:
            found.append((it, it))
    return found


class Told:
    """What was asked, from when until when, by whom, and the ranges of moments that the answer fits. A push that is in
    the store has no other moment than that behind its record, whether it was answered or not."""

    def __init__(self, what, by, began, ended, fits, is_push=False):
        self.what, self.by, self.began, self.ended = what, by, began, ended
        self.fits, self.is_push = fits, is_push


def pushed(what, by, began, ended, place):
    return Told(what, by, began, ended, [(place + 1, place + 1)], True)


def disorder(told):
    """What does not fit behind what had been answered before it was asked, each with what that was. Each answer gets
    the earliest moment that it can have: where any line of moments is right, that one is."""
    waiting, least, by, faults = [], 0, None, []
    for number, it in enumerate(sorted(told, key=lambda it: it.began)):
        while waiting and waiting[0][0] < it.began:
            _, _, moment, before = heapq.heappop(waiting)
            if moment > least:
                least, by = moment, before
        soonest = least + 1 if it.is_push else least
        moment = next((max(first, soonest) for first, last in it.fits if last >= soonest), None)
        if moment is None:
            faults.append((it, by))
        elif it.ended is not None:
            heapq.heappush(waiting, (it.ended, number, moment, it))
    return faults


# ---- histories made by hand

def case(what, told, wanted):
    found = [it.what for it, _ in disorder(told)]
    if found != wanted:
        sys.exit(f"{what}: {found}, not {wanted}")


def main():
    one, two = pushed("one", "a", 0, 1, 0), pushed("two", "a", 2, 3, 1)

    def read(began, ended, *fits, what="read"):
        return Told(what, "b", began, ended, list(fits))

    case("pushes in their order", [one, two], [])
    case("a push before one that had been answered", [pushed("one", "a", 0, 1, 1), pushed("two", "a", 2, 3, 0)],
         ["two"])
    case("at one time any order is right", [pushed("one", "a", 0, 3, 1), pushed("two", "a", 1, 2, 0)], [])
    case("a push without an answer may be late", [pushed("one", "a", 0, None, 1), pushed("two", "a", 2, 3, 0)], [])
    case("and not early", [one, two, pushed("three", "a", 9, None, 1)], ["three"])
    case("a read of the last moment", [one, two, read(4, 5, (2, 2))], [])
    case("a read that lacks an answered push", [one, two, read(4, 5, (1, 1))], ["read"])
    case("a read meanwhile", [one, two, read(2, 4, (1, 1)), read(2, 4, (2, 2))], [])
    case("a read behind another that had more", [one, pushed("two", "a", 2, 9, 1), read(3, 4, (2, 2)),
                                                 read(5, 6, (1, 1), what="later")], ["later"])
    case("a read of what was pushed behind it", [one, read(1.5, 1.7, (2, 2)), two], ["two"])
    case("one of several moments", [one, two, read(4, 5, (0, 0), (2, 3))], [])
    case("none of several", [one, two, read(4, 5, (0, 0), (1, 1))], ["read"])
    case("a read of no moment", [one, read(4, 5)], ["read"])
    if ranges([1, 2, 3, 7, 9, 10]) != [(1, 3), (7, 7), (9, 10)]:
        sys.exit("ranges")
    print("history.py: as wanted")
    return 0


if __name__ == "__main__":
    sys.exit(main())
