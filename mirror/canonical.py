# canonical.py - the bundle of a push, with nothing in it but what may change a repository
#
# Copyright the authors of Deqtorap
#
# This software may be used and distributed according to the terms of the
# GNU General Public License version 2 or any later version.

"""The bundle of a push, with nothing in it but what may change a repository.

A bundle is the magic, parameters of the stream, parts, and an end mark. A part is a header and a payload in
chunks, between which other parts may stand that interrupt it. Mercurial knows more types of parts and more
parameters than the push server does. What the server passes over, Mercurial would act on. So a bundle is read
here as the server reads it, and written anew without the rest:

- the magic, and no parameters of the stream;
- of the parts those that may change a repository: `changegroup` with its `version`, `phase-heads`, `obsmarkers`,
  `pushkey` with its four parameters, `bookmarks`;
- each payload in one chunk, and nothing that interrupts it.

The order of the parts stays, and of each its id, the case of its type, and what is mandatory. What the server
would refuse while it reads is a `Fault` here.
"""

import re
import struct
from urllib.parse import unquote_to_bytes

MAGIC = b"HG20"

# The types of parts that the server handles, and the parameters that it knows of each.
KNOWN = {
    b"replycaps": (),
    b"check:heads": (),
    b"check:phases": (),
    b"check:bookmarks": (),
    b"changegroup": (b"version", b"nbchanges", b"targetphase"),
    b"phase-heads": (),
    b"obsmarkers": (),
    b"bookmarks": (),
    b"pushkey": (b"namespace", b"key", b"old", b"new"),
    b"output": (),
    b"error:abort": (b"message", b"hint"),
}

# Those that may change a repository, and the parameters that say how.
CHANGING = {
    b"changegroup": (b"version",),
    b"phase-heads": (),
    b"obsmarkers": (),
    b"bookmarks": (),
    b"pushkey": (b"namespace", b"key", b"old", b"new"),
}

TYPE = re.compile(rb"[a-zA-Z0-9_:-]+")
INTERRUPTION = -1

# The most bytes of the parameters of a stream, of a header, and of a payload; and the most parts.
MOST_PARAMS, MOST_HEADER, MOST_PAYLOAD, MOST_PARTS = 65536, 261382, 67108864, 10000


class Fault(ValueError):
    """A bundle that the push server refuses."""


class Part:
    """A part: its type as it was written, its id, its parameters (mandatory, name, value), and its payload."""

    def __init__(self, kind, number, params, payload=b""):
        self.kind, self.number, self.params, self.payload = kind, number, params, payload
        self.type = kind.lower()

    @property
    def is_mandatory(self):
        return self.kind != self.type

    @property
    def is_supported(self):
        known = KNOWN.get(self.type)
        return known is not None and not any(must and name not in known for must, name, _ in self.params)

    def param(self, wanted):
        return next((value for _, name, value in self.params if name == wanted), None)

    def changing(self):
        """The part with the parameters that matter; None where it changes nothing."""
        names = CHANGING.get(self.type)
        if names is None or not self.is_supported:
            return None
        return Part(self.kind, self.number, [it for it in self.params if it[1] in names], self.payload)

    def __bytes__(self):
        mandatory = [it for it in self.params if it[0]]
        params = mandatory + [it for it in self.params if not it[0]]
        header = bytes([len(self.kind)]) + self.kind + struct.pack(">I", self.number)
        header += bytes([len(mandatory), len(params) - len(mandatory)])
        header += b"".join(bytes([len(name), len(value)]) for _, name, value in params)
        header += b"".join(name + value for _, name, value in params)
        chunk = struct.pack(">i", len(self.payload)) + self.payload if self.payload else b""
        return struct.pack(">i", len(header)) + header + chunk + bytes(4)


class Reader:
    """The bytes of a bundle, read from left to right."""

    def __init__(self, data):
        self.data, self.place = memoryview(data), 0

    def take(self, size, most):
        if size < 0:
            raise Fault("a size in the bundle is negative")
        if size > most:
            raise Fault("a piece of the bundle is too large")
        piece = self.data[self.place:self.place + size]
        if len(piece) < size:
            raise Fault("the bundle is not whole")
        self.place += size
        return bytes(piece)

    def number(self):
        return struct.unpack(">i", self.take(4, 4))[0]

    def header(self):
        """The part of the next header, without its payload; None at an end mark."""
        size = self.number()
        return header(self.take(size, MOST_HEADER)) if size else None

    def payload(self, is_interrupting=False):
        chunks, total = [], 0
        while size := self.number():
            if size == INTERRUPTION and not is_interrupting:
                self.interruption()
            elif size == INTERRUPTION:
                raise Fault("an interrupting part is interrupted")
            else:
                chunks.append(self.take(size, MOST_PAYLOAD - total))
                total += size
        return b"".join(chunks)

    def interruption(self):
        """Reads a part that stands inside of another: it has no access to the repository."""
        part = self.header()
        if part is None:
            return
        is_known = part.type in (b"output", b"error:abort") and part.is_supported
        if is_known and part.type == b"error:abort":
            raise Fault("the client ends the push")
        if part.is_mandatory and not is_known:
            raise Fault("an interrupting part is not supported")
        self.payload(is_interrupting=True)


def header(block):
    """The part that a header tells of."""
    reader = Reader(block)
    kind = reader.take(reader.take(1, 1)[0], 255)
    if not TYPE.fullmatch(kind):
        raise Fault("the type of a part is not made of letters, digits and _ : -")
    number, mandatory, advisory = struct.unpack(">IBB", reader.take(6, 6))
    sizes = reader.take(2 * (mandatory + advisory), MOST_HEADER)
    params = []
    for place in range(mandatory + advisory):
        name = reader.take(sizes[2 * place], 255)
        params.append((place < mandatory, name, reader.take(sizes[2 * place + 1], 255)))
    if reader.place != len(block):
        raise Fault("bytes are left over in the header of a part")
    if len({name for _, name, _ in params}) < len(params):
        raise Fault("a parameter of a part is repeated")
    return Part(kind, number, params)


def check_stream_params(block):
    """The parameters of the stream: nothing that the server does not know may be mandatory."""
    for piece in block.split(b" ") if block else ():
        name, has_value, value = (unquote_to_bytes(it) for it in piece.partition(b"="))
        if not name:
            raise Fault("a parameter of the stream has no name")
        if not name[:1].isalpha():
            raise Fault("the name of a parameter of the stream does not begin with a letter")
        if name.lower() == b"compression":
            if not has_value or value != b"UN":
                raise Fault("the bundle is compressed")
        elif name[:1].isupper():
            raise Fault("a parameter of the stream is mandatory and not known")


def parts(bundle):
    """The parts of a bundle, as the server reads them."""
    reader = Reader(bundle)
    if bytes(reader.data[:4]) != MAGIC:
        raise Fault("this is no bundle of the form HG20")
    reader.place = 4
    check_stream_params(reader.take(reader.number(), MOST_PARAMS))
    found = []
    while (part := reader.header()) is not None:
        if len(found) == MOST_PARTS:
            raise Fault("the bundle has too many parts")
        part.payload = reader.payload()
        found.append(part)
    return found


def changes(bundle):
    """The parts of a bundle that may change a repository."""
    found = []
    for part in parts(bundle):
        if not part.is_supported and part.is_mandatory:
            raise Fault(f"the part {part.type.decode()} is mandatory and not supported")
        if part.is_supported and part.type == b"error:abort":
            raise Fault("the client ends the push")
        found.append(part.changing())
    return [it for it in found if it is not None]


def written(found):
    """The bundle of such parts."""
    return b"".join([MAGIC, bytes(4), *map(bytes, found), bytes(4)])


def canonical(bundle):
    """The bundle with nothing in it but what may change a repository."""
    return written(changes(bundle))
