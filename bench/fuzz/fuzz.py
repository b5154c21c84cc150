"""Random bundles for the built program: fuzz.py PROGRAM [--seconds S] [--seed N] [--case K]

Each case takes a push of the examples and changes it: bits are turned, bytes cut off, taken out or said
twice, sizes replaced, parts repeated, left out or put into the payload of another, bundles joined. The
program runs the changed push twice: its bytes whole, and in pieces, each of which a read gets by itself. Both
runs must write the same bytes, tell the same status and the same line, end within 20 seconds, and end with
a documented status. A first push goes through `one`, whose reply must be a whole bundle that holds an error
exactly where the status is 1. A later one goes through `replay`, behind the pushes before it.

The cases of a seed are always the same. What goes wrong is told with its seed and its number, and
`--case K` runs that one alone and leaves its bundle in `case-K.hg20`.
"""
import argparse, fcntl, glob, os, random, signal, subprocess, sys, time

HERE = os.path.dirname(os.path.abspath(__file__))
TOP = os.path.normpath(os.path.join(HERE, "..", ".."))
PUSHES = os.path.join(TOP, "examples", "pushes")
sys.path.insert(0, os.path.join(TOP, "tests"))
from bundles import CAPS, EMPTY, bundle, group, heads, number, NULL

# how long a case may take
WAIT = 20
ABORTED = b"hg_pushd: push aborted\n"
SIZES = (-2147483648, -3, -2, -1, 0, 1, 2, 3, 4, 5, 6, 7, 19, 20, 21, 84, 104, 255, 256, 65536, 261382)
SIZES += (261383, 67108864, 67108865, 268435456, 2147483647)


class Wrong(Exception):
    pass


def too_long(_signal, _frame):
    raise Wrong(f"no end within {WAIT} seconds")


def size_at(data, at):
    return int.from_bytes(data[at : at + 4], "big", signed=True) if at + 4 <= len(data) else None


class Frames:
    """Where the sizes of a bundle stand, its parts, and the ends of its chunks, as far as it is whole."""

    def __init__(self, data):
        self.sizes, self.parts, self.chunk_ends = [4], [], []
        self.data = data
        at = 8 + max(size_at(data, 4) or 0, 0)
        while at is not None and size_at(data, at) is not None and size_at(data, at) > 0:
            end = self.part(at, 0)
            if end is not None:
                self.parts.append((at, end))
            at = end
        if at is not None and at < len(data):
            self.sizes.append(at)
            self.end = at

    end = None

    def part(self, at, depth):
        """The place behind the part that begins here."""
        self.sizes.append(at)
        at += 4 + size_at(self.data, at)
        while True:
            size = size_at(self.data, at)
            if size is None or size < -1 or depth > 8:
                return None
            self.sizes.append(at)
            self.chunk_ends.append(at)
            at += 4
            if size == 0:
                return at
            if size == -1:
                if (size_at(self.data, at) or 0) <= 0:
                    return None
                at = self.part(at, depth + 1)
                if at is None:
                    return None
            else:
                at += size


def examples():
    """Each push of the examples, with the pushes before it: a list of files, and whether it is published."""
    found = []
    for row in sorted(glob.glob(os.path.join(PUSHES, "*", ""))):
        files = sorted(glob.glob(os.path.join(row, "*.hg20")))
        published = os.path.exists(os.path.join(row, "publishing"))
        for place, name in enumerate(files):
            with open(name, "rb") as file:
                found.append((file.read(), files[:place], published))
    pushkey = (b"pushkey", ((b"namespace", b"none"), (b"key", b"k"), (b"old", b""), (b"new", b"1")), b"")
    made = (
        EMPTY,
        bundle(CAPS, heads(NULL)),
        bundle(heads()),
        bundle(CAPS, group((b"", NULL), (b"text", NULL))),
        bundle((b"frob", (), b"data")),
        bundle((b"FROB", ((b"a", b"b"),), b"data")),
        bundle((b"ERROR:ABORT", ((b"message", b"m"), (b"hint", b"h")), b"")),
        bundle(CAPS, *[pushkey] * 20),
        bundle(CAPS, (b"output", (), bytes(9000)), heads(NULL)),
    )
    return found + [(data, [], False) for data in made]


def spot(chance, data):
    return chance.randrange(len(data) + 1)


def turned_bits(chance, data, _others):
    data = bytearray(data)
    for _ in range(chance.choice((1, 1, 1, 2, 8))):
        if data:
            data[chance.randrange(len(data))] ^= 1 << chance.randrange(8)
    return bytes(data)


def cut_short(chance, data, _others):
    return data[: spot(chance, data)]


def taken_out(chance, data, _others):
    at = spot(chance, data)
    return data[:at] + data[at + chance.choice((1, 2, 4, 20, 100)) :]


def said_twice(chance, data, _others):
    at = spot(chance, data)
    return data[:at] + data[at : at + chance.choice((1, 4, 20, 200))] + data[at:]


def another_byte(chance, data, _others):
    at = spot(chance, data)
    return data[:at] + bytes([chance.choice((0, 1, 2, 127, 128, 254, 255))]) + data[at + 1 :]


def another_size(chance, data, _others):
    """A size of the list, or the size itself with one more or one less, as far as four bytes hold it."""
    at = chance.choice(Frames(data).sizes)
    near = (size_at(data, at) or 0) + chance.choice((-1, 1))
    near = min(max(near, SIZES[0]), SIZES[-1])
    return data[:at] + number(chance.choice(SIZES + (near, near, near, near))) + data[at + 4 :]


def another_number(chance, data, _others):
    at = spot(chance, data)
    return data[:at] + number(chance.choice(SIZES)) + data[at + 4 :]


def joined(chance, data, others):
    return data + chance.choice(others)


def crossed(chance, data, others):
    """The front of one bundle and the rest of another."""
    other = chance.choice(others)
    return data[: spot(chance, data)] + other[spot(chance, other) :]


def some_part(chance, data):
    parts = Frames(data).parts
    return chance.choice(parts) if parts else (8, 8)


def part_again(chance, data, _others):
    at, end = some_part(chance, data)
    return data[:end] + data[at:end] * chance.choice((1, 1, 2, 40)) + data[end:]


def part_left_out(chance, data, _others):
    at, end = some_part(chance, data)
    return data[:at] + data[end:]


def part_moved(chance, data, others):
    """A part of another bundle, before one of this."""
    other = chance.choice(others)
    first, last = some_part(chance, other)
    at, _ = some_part(chance, data)
    return data[:at] + other[first:last] + data[at:]


def interrupted(chance, data, others):
    """A part within the payload of another."""
    ends = Frames(data).chunk_ends
    if not ends:
        return data
    other = chance.choice(others)
    first, last = some_part(chance, other)
    at = chance.choice(ends)
    return data[:at] + number(-1) + other[first:last] * chance.choice((1, 1, 3)) + data[at:]


def chunk_cut(chance, data, _others):
    """A chunk in two, which changes nothing of the payload."""
    places = [at for at in Frames(data).sizes[1:] if 1 < (size_at(data, at) or 0) <= len(data) - at - 4]
    if not places:
        return data
    at = chance.choice(places)
    size = size_at(data, at)
    front = chance.randrange(1, size)
    middle = data[at + 4 : at + 4 + front] + number(size - front)
    return data[:at] + number(front) + middle + data[at + 4 + front :]


CHANGES = (turned_bits, turned_bits, cut_short, taken_out, said_twice, another_byte, another_size)
CHANGES += (another_size, another_number, joined, crossed, part_again, part_left_out, part_moved)
CHANGES += (interrupted, interrupted, chunk_cut, chunk_cut)


def pieces_of(chance, data):
    """The bytes in pieces: byte by byte, of a few bytes, of many, or cut where the sizes stand."""
    most = chance.choice((1, 3, 7, 100, 4096))
    if len(data) // most > 4000:
        most = len(data) // 400
    if chance.random() < 0.25:
        cuts = {at + chance.randrange(5) for at in Frames(data).sizes}
        places = [0] + sorted(at for at in cuts if 0 < at < len(data)) + [len(data)]
    else:
        places = [0]
        while places[-1] < len(data):
            places.append(min(len(data), places[-1] + chance.randint(1, most)))
    for start, end in zip(places, places[1:]):
        for at in range(start, end, 4096):
            yield data[at : min(end, at + 4096)]


class Subject:
    """The program, run once on a push that comes from this descriptor."""

    def __init__(self, words, source):
        self.out, self.err = os.memfd_create("out"), os.memfd_create("err")
        self.process = subprocess.Popen(words, stdin=source, stdout=self.out, stderr=self.err)

    def ended(self):
        status = self.process.wait()
        return status, read_whole(self.out), read_whole(self.err)

    def stop(self):
        if self.process.poll() is None:
            self.process.kill()
            self.process.wait()
        os.close(self.out)
        os.close(self.err)


def read_whole(descriptor):
    return os.pread(descriptor, os.fstat(descriptor).st_size, 0)


def run_whole(words, data):
    source = os.memfd_create("in")
    try:
        os.write(source, data)
        os.lseek(source, 0, os.SEEK_SET)
        subject = Subject(words, source)
        try:
            return subject.ended()
        finally:
            subject.stop()
    finally:
        os.close(source)


def run_in_pieces(words, pieces):
    """The same, where each piece is a packet of a pipe, and a read gets no more than one."""
    source, sink = os.pipe2(os.O_DIRECT | os.O_CLOEXEC)
    subject = None
    try:
        fcntl.fcntl(sink, fcntl.F_SETPIPE_SZ, 1 << 20)
        subject = Subject(words, source)
        os.close(source)
        source = None
        try:
            for piece in pieces:
                os.write(sink, piece)
        except BrokenPipeError:
            # it has seen enough
            pass
        os.close(sink)
        sink = None
        return subject.ended()
    finally:
        for descriptor in (source, sink):
            if descriptor is not None:
                os.close(descriptor)
        if subject is not None:
            subject.stop()


def is_error(data, at):
    return data[at + 5 : at + 11].lower() == b"error:"


def judge(words, status, out, err):
    """Whether one run is as documented, whatever the bundle says."""
    if (status, err) not in ((0, b""), (1, ABORTED)):
        raise Wrong(f"status {status}, and on standard error {err[:300]!r}")
    if words[1] == "one":
        frames = Frames(out)
        if out[:8] != b"HG20\0\0\0\0" or frames.end is None or frames.end + 4 != len(out):
            raise Wrong(f"the reply is no whole bundle: {out[:300]!r}")
        if any(is_error(out, at) for at, _ in frames.parts) != (status == 1):
            raise Wrong(f"status {status}, and the reply {out[:300]!r}")


def made(seed, case, all_examples):
    """The changed push of a case, what it is run with, and the chance that goes on from there."""
    chance = random.Random(f"{seed} {case}")
    small = [one for one in all_examples if len(one[0]) < 20_000]
    data, before, published = chance.choice(all_examples if chance.random() < 0.01 else small)
    others = [one[0] for one in small]
    for _ in range(chance.choice((1, 1, 1, 2, 2, 3, 5))):
        data = chance.choice(CHANGES)(chance, data, others)
    words = ["replay"] if before else ["one"]
    if published != (chance.random() < 0.1):
        words.append("--publishing")
    return data, words + before + (["/dev/stdin"] if before else []), chance


def tried(program, data, words, chance):
    """Both runs of a case. Their status."""
    signal.setitimer(signal.ITIMER_REAL, WAIT)
    try:
        words = [program] + words
        whole = run_whole(words, data)
        judge(words, *whole)
        apart = run_in_pieces(words, pieces_of(chance, data))
        if apart != whole:
            raise Wrong(f"whole: {str(whole)[:400]}, in pieces: {str(apart)[:400]}")
        return whole[0]
    finally:
        signal.setitimer(signal.ITIMER_REAL, 0)


def main():
    asked = argparse.ArgumentParser()
    asked.add_argument("program", type=os.path.abspath)
    asked.add_argument("--seconds", type=float, default=60)
    asked.add_argument("--seed", type=int, default=random.randrange(1 << 32))
    asked.add_argument("--case", type=int)
    asked = asked.parse_args()
    signal.signal(signal.SIGALRM, too_long)
    pushes = examples()
    start, case, tries, done = time.monotonic(), asked.case or 0, 0, 0
    while time.monotonic() - start < asked.seconds:
        data, words, chance = made(asked.seed, case, pushes)
        try:
            done += tried(asked.program, data, words, chance) == 0
        except Wrong as wrong:
            print(f"seed {asked.seed}, case {case}, {' '.join(words[:2])}: {wrong}")
            sys.exit(1)
        finally:
            if asked.case is not None:
                with open(f"case-{case}.hg20", "wb") as file:
                    file.write(data)
        case += 1
        tries += 1
        if asked.case is not None:
            break
    told = f"{tries} with the seed {asked.seed}, {done} of them done"
    print(f"Random bundles: {told}, each alike whole and in pieces.")


if __name__ == "__main__":
    main()
