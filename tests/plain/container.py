"""The container of a push: its parts in order, up to the first fault. A fault of a stream is told by its number."""
import collections
import string
from urllib.parse import unquote_to_bytes

from rules import rule, seen

MAGIC, NEGATIVE, PARAMS, HEADER, CHUNK, NESTED, ABORT, UNSUPPORTED, TOO_LARGE, TRUNCATED = range(1, 11)
MOST_HEADER, MOST_PARAMS, MOST_PAYLOAD, MOST_PARTS = 261_382, 65_536, 67_108_864, 10_000
TYPE = (string.ascii_letters + string.digits + "_:-").encode()
INTERRUPTING = {b"output": (), b"error:abort": (b"message", b"hint")}

# The parameters are (is it mandatory, key, value).
Part = collections.namedtuple("Part", "kind id params payload")


class Broken(Exception):
    """A fault of the stream: its number."""


class Stream:
    """Bytes that are taken from the front. What is not there is an input that ended too soon."""

    def __init__(self, data):
        self.data, self.at = data, 0

    def take(self, count):
        if len(self.data) - self.at < count:
            raise Broken(TRUNCATED)
        self.at += count
        return self.data[self.at - count:self.at]

    def size(self):
        return int.from_bytes(self.take(4), "big", signed=True)

    def block(self, most):
        """The size of a block of at most so many bytes."""
        size = self.size()
        if size < 0:
            raise Broken(NEGATIVE)
        if size > most:
            raise Broken(TOO_LARGE)
        return size


@rule
def read_bundle(data):
    """The magic, stream parameters, parts, and a zero. Gives the parts that are whole before the first fault, and
    the number of that fault, or nothing in its place. What follows the zero is nobody's."""
    stream, parts = Stream(data), []
    try:
        if stream.take(4) != b"HG20":
            raise Broken(MAGIC)
        read_stream_params(stream.take(stream.block(MOST_PARAMS)))
        while size := stream.block(MOST_HEADER):
            if len(parts) == MOST_PARTS:
                raise Broken(TOO_LARGE)
            parts.append(Part(*read_header(stream.take(size)), read_payload(stream)))
        return parts, None
    except Broken as fault:
        return parts, fault.args[0]


@rule
def read_stream_params(block):
    """None, or pieces with one space between: a name, or a name and a value behind the first `=`, both with escapes.
    A name begins with an ASCII letter. `compression` in any case may be `UN` and nothing else. Any other name is
    ignored where its first letter is small, and refused where it is a capital."""
    for piece in block.split(b" ") if block else ():
        name, has_value, value = (unquote_to_bytes(it) for it in piece.partition(b"="))
        if not name[:1].isalpha():
            raise Broken(PARAMS)
        if name.lower() == b"compression":
            seen("stream parameter: compression")
            if not has_value or value != b"UN":
                raise Broken(PARAMS)
        elif name[:1].isupper():
            raise Broken(PARAMS)
        else:
            seen("stream parameter: ignored")


@rule
def read_header(block):
    """The size of the type in a byte, the type, an id, how many parameters are mandatory and how many advisory, two
    sizes for each, and their keys and values, with nothing behind. A type has letters, digits, `_`, `:`, `-`, one at
    least. No key stands there twice."""
    stream = Stream(block)
    try:
        kind = stream.take(stream.take(1)[0])
        number = int.from_bytes(stream.take(4), "big")
        mandatory, advisory = stream.take(2)
        sizes = stream.take(2 * (mandatory + advisory))
        params = [(place < mandatory, stream.take(sizes[2 * place]), stream.take(sizes[2 * place + 1]))
                  for place in range(mandatory + advisory)]
    except Broken:
        raise Broken(HEADER) from None
    keys = {key for _, key, _ in params}
    if stream.at < len(block) or not kind or set(kind) - set(TYPE) or len(keys) < len(params):
        raise Broken(HEADER)
    return kind, number, params


@rule
def read_payload(stream, is_inside=False):
    """Chunks, each behind its size, closed by a size of 0. A size of -1 is an interruption, which no part that
    interrupts has inside."""
    payload = b""
    while size := stream.size():
        if size == -1 and is_inside:
            raise Broken(NESTED)
        if size == -1:
            read_interruption(stream)
        elif size < 0 or len(payload) + size > MOST_PAYLOAD:
            raise Broken(CHUNK)
        else:
            payload += stream.take(size)
    return payload


@rule
def read_interruption(stream):
    """A part in the middle of a payload, or none where its header has no bytes. It is no part of the push. `output`
    is dropped, `error:abort` ends the push. What is not known, or has a mandatory parameter that is not known, is
    dropped where it is advisory and ends the push where it is mandatory."""
    size = stream.block(MOST_HEADER)
    if size == 0:
        seen("interruption: no part")
        return
    kind, _, params = read_header(stream.take(size))
    known = INTERRUPTING.get(kind.lower())
    if known is None or any(is_mandatory and key not in known for is_mandatory, key, _ in params):
        if is_mandatory_type(kind):
            raise Broken(UNSUPPORTED)
        seen("interruption: unsupported and dropped")
    elif kind.lower() == b"error:abort":
        raise Broken(ABORT)
    read_payload(stream, is_inside=True)


@rule
def is_mandatory_type(kind):
    """A type with a capital letter."""
    return kind != kind.lower()
