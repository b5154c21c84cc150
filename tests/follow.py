"""Stores that are followed: follow.py PROGRAM [--ends N] [NAME..]

`log --follow` of the built program runs beside stores made by hand, whose files grow byte by byte, and beside servers
that are killed N times (20 if left out) while clients push. It has to write a frame for each push once it is durable:
each once, in order, with its own place, time, name and digest, and none before its gate is open. How it ends is looked
at too: by its reader, by damage, and by another store under the name.
"""
import os
import queue
import re
import shutil
import signal
import struct
import subprocess
import sys
import tempfile
import threading
import time
import urllib.error
import urllib.request

sys.dont_write_bytecode = True
PROGRAM = os.path.abspath(sys.argv[1])
import store
from bundles import EMPTY, bundle
from store import SHUT, Wrong, row, found_in, sha1, store_of, want

FRONT = struct.Struct(">QQB")
SOON = 20  # seconds, on a busy machine
A_WHILE = 0.7  # more than three looks
CLIENTS = 3
CASES = []
ENDS = 20


def case(body):
    CASES.append(body)
    return body


def pushes(count, seed=7):
    """Bundles that differ."""
    return [bundle((b"note", (), b"%d-%d" % (seed, number))) for number in range(count)]


def stamps(count):
    return [(1_700_000_000_000 + 1000 * number, b"user-%d" % number if number % 3 else b"") for number in range(count)]


class Follower:
    """`log --follow`, and the frames that it has written."""

    def __init__(self, room, *words):
        self.process = subprocess.Popen([PROGRAM, "log", "--store", room.path("store"), "--follow", *words],
                                        stdout=subprocess.PIPE, stderr=subprocess.PIPE, stdin=subprocess.DEVNULL)
        self.frames, self.torn = queue.Queue(), b""
        self.reader = threading.Thread(target=self.read, daemon=True)
        self.reader.start()

    def read(self):
        pipe = self.process.stdout
        while front := pipe.read(FRONT.size):
            self.torn = front
            if len(front) < FRONT.size:
                return
            place, time_of, named = FRONT.unpack(front)
            name = pipe.read(named)
            size = pipe.read(4)
            digest = pipe.read(20)
            text = pipe.read(int.from_bytes(size, "big"))
            self.torn += name + size + digest + text
            if len(size + digest) < 24 or len(text) < int.from_bytes(size, "big"):
                return
            want("the digest of a frame", digest, sha1(text))
            self.frames.put((place, time_of, name, text))
            self.torn = b""
        self.frames.put(None)

    def next(self):
        return self.frames.get(timeout=SOON)

    def has(self, wanted):
        for it in wanted:
            want("a frame", self.next(), it)

    def waits(self):
        """It writes nothing for a while, and goes on."""
        time.sleep(A_WHILE)
        want("frames while it waits", (self.frames.qsize(), self.torn, self.process.poll()), (0, b"", None))

    def is_over(self, status, line=""):
        """It ends so, behind what was taken."""
        want("its status", self.process.wait(timeout=SOON), status)
        self.reader.join(timeout=SOON)
        want("the end of its frames", (self.frames.get(timeout=SOON), self.torn), (None, b""))
        want("its line", self.process.stderr.read().decode(), line and f"hg_pushd: {line}\n")
        self.process.stdout.close()
        self.process.stderr.close()

    def end(self):
        """Its reader goes: it ends soon, whether more comes or not."""
        self.process.kill()
        self.process.wait()
        self.reader.join(timeout=SOON)
        self.process.stdout.close()
        self.process.stderr.close()


def frames_of(bundles, marks, first=0):
    return [(place, *marks[place], bundles[place]) for place in range(first, len(bundles))]


@case
def a_store_that_stands_still(room):
    """Frames of all pushes, and from each place on; from one that is not there yet none."""
    bundles, marks = pushes(4), stamps(4)
    room.store(store_of(bundles, stamps=marks)[0])
    before = found_in(room.folder)
    for first in range(6):
        follower = Follower(room, "--from", str(first))
        follower.has(frames_of(bundles, marks, first))
        if first in (0, 5):
            follower.waits()
        follower.end()
    want("files behind it", found_in(room.folder), before)


@case
def an_index(room):
    """From a place behind 1,024 records it begins at a mark of the index, which it makes where there is none."""
    bundles, marks = pushes(2_100), stamps(2_100)
    data, ends = store_of(bundles, stamps=marks)
    room.store(data)
    for _ in range(2):
        follower = Follower(room, "--from", "2090")
        follower.has(frames_of(bundles, marks, 2_090))
        follower.waits()
        follower.end()
        want("the marks of the index", len(found_in(room.path("store"))["pushes.index"]), 28 + 3 * 36)
    room.store(data[:ends[2_060]] + SHUT)
    follower = Follower(room, "--from", "2050")
    follower.has(frames_of(bundles[:2_060], marks, 2_050))
    with open(room.path("store/pushes"), "r+b") as file:
        file.seek(ends[2_060] + 1)
        file.write(data[ends[2_060] + 1:])
        file.flush()
        file.seek(ends[2_060])
        file.write(data[ends[2_060]:ends[2_060] + 1])
    follower.has(frames_of(bundles, marks, 2_060))
    follower.end()


@case
def many_records(room):
    """More records than are found before one sync, and larger ones."""
    bundles = pushes(3000) + [bundle((b"note", (), bytes(3_000_000))) for _ in range(4)]
    marks = stamps(len(bundles))
    room.store(store_of(bundles, stamps=marks)[0])
    follower = Follower(room)
    follower.has(frames_of(bundles, marks))
    follower.end()


@case
def in_canonical_form(room):
    """The frame has the canonical bundle, its length and its digest."""
    it = row("merge")
    marks = stamps(len(it.bundles))
    room.store(store_of(it.bundles, stamps=marks)[0])
    follower = Follower(room, "--canonical")
    follower.has(frames_of([store.canonical.canonical(text) for text in it.bundles], marks))
    follower.end()


@case
def of_version_1(room):
    """It has no times and no names."""
    bundles = pushes(3)
    room.store(store_of(bundles, version=1)[0])
    follower = Follower(room)
    follower.has(frames_of(bundles, [(0, b"")] * 3))
    follower.end()


@case
def behind_a_shut_gate(room):
    """What is written there byte by byte is no frame, until the gate is opened; then the whole batch is."""
    bundles, marks = pushes(6), stamps(6)
    data, ends = store_of(bundles, stamps=marks)
    room.store(data[:ends[1]] + SHUT)
    follower = Follower(room)
    follower.has(frames_of(bundles[:1], marks))
    with open(room.path("store/pushes"), "r+b", buffering=0) as file:
        for at in range(ends[1] + 1, ends[4] + 1):
            os.pwrite(file.fileno(), data[at:at + 1] if at < ends[4] else SHUT, at)
        follower.waits()
        os.pwrite(file.fileno(), b"\xff", ends[1])
        follower.has(frames_of(bundles[:4], marks, 1))
        # a tail that a start cuts off, and other records in its place
        os.pwrite(file.fileno(), data[ends[4] + 1:ends[4] + 40], ends[4] + 1)
        follower.waits()
        other, others = store_of(bundles[:4] + pushes(2, 8), stamps=marks)
        os.ftruncate(file.fileno(), ends[4])
        follower.waits()
        os.pwrite(file.fileno(), SHUT + other[ends[4] + 1:], ends[4])
        os.pwrite(file.fileno(), b"\xff", ends[4])
        follower.has(frames_of(bundles[:4] + pushes(2, 8), marks, 4))
        want("length", others[-1], len(other) - 1)
    follower.waits()
    follower.end()


@case
def it_ends_with_its_reader(room):
    """With none that reads, it ends by itself: before a push, behind one, and in the middle of a frame."""
    bundles, marks = pushes(2) + [bundle((b"note", (), bytes(3_000_000)))], stamps(3)
    for count in range(4):
        room.store(store_of(bundles[:count], stamps=marks)[0])
        with subprocess.Popen([PROGRAM, "log", "--store", "store", "--follow"], cwd=room.folder,
                              stdout=subprocess.PIPE, stderr=subprocess.PIPE) as process:
            if count:
                process.stdout.read(10)
            process.stdout.close()
            want(f"its status behind {count}", process.wait(timeout=SOON), 0)
            want("its line", process.stderr.read(), b"")


@case
def an_output_that_fails(room):
    room.store(store_of(pushes(2))[0])
    with open("/dev/full", "wb") as full:
        done = room.start("log", "--store", "store", "--follow", stdout=full)
    want("its end", (done.returncode, done.stderr), (3, b"hg_pushd: standard output: the output failed\n"))


@case
def no_store(room):
    """Nothing is made."""
    for words in ("log --store store --follow", "log --store store --follow --canonical --from 3"):
        room.looks(words, status=3, line="store/pushes: no store")
    room.store(store_of([])[0][:53])
    room.looks("log --store store --follow", status=3, line="store/pushes: no store: a file that is shorter than a head")
    done = room.start("log", "--store", "store", "--follow", "--to", "folder")
    want("with a folder", (done.returncode, done.stdout, os.path.exists(room.path("folder"))), (2, b"", False))


@case
def damage(room):
    """What stands before it is written, and its place is told."""
    bundles, marks = pushes(4), stamps(4)
    whole, ends = store_of(bundles, stamps=marks)
    for place in range(4):
        for at, byte in ((ends[place], 1), (ends[place], 254), (ends[place + 1] - 1, 7), (ends[place] + 10, 3)):
            data = bytearray(whole)
            data[at] ^= byte
            room.store(data)
            follower = Follower(room)
            follower.has(frames_of(bundles[:place], marks))
            follower.is_over(3, f"{room.path('store')}/pushes: damage at place {place}")
        for size in (ends[place] + 1, ends[place] + 30, ends[place + 1] - 1):
            room.store(whole[:size])
            follower = Follower(room)
            follower.has(frames_of(bundles[:place], marks))
            follower.is_over(3, f"{room.path('store')}/pushes: torn behind {place} pushes: end it there by `hg_pushd cut`")
    room.store(store_of((bundles[0], EMPTY[:-1], bundles[1]), stamps=marks)[0])
    follower = Follower(room, "--canonical")
    want("a canonical frame", follower.next()[0], 0)
    follower.is_over(3, f"{room.path('store')}/pushes: damage at place 1: no bundle")


@case
def damage_that_comes_later(room):
    bundles, marks = pushes(2), stamps(2)
    data, ends = store_of(bundles, stamps=marks)
    room.store(data[:ends[1]] + SHUT)
    follower = Follower(room)
    follower.has(frames_of(bundles[:1], marks))
    with open(room.path("store/pushes"), "r+b", buffering=0) as file:
        os.pwrite(file.fileno(), b"\x7f", ends[1])
    follower.is_over(3, f"{room.path('store')}/pushes: damage at place 1")


@case
def another_store_of_the_name(room):
    """A cut, an upgrade, and a store that is taken away: it ends, and says so."""
    bundles, marks = pushes(3), stamps(3)
    said = f"{room.path('store')}/pushes: another file has this name, or none: follow it anew"
    for version, words in ((2, "cut --store store --at 1"), (1, "upgrade --store store")):
        room.store(store_of(bundles, version=version, stamps=marks)[0])
        follower = Follower(room)
        follower.has(frames_of(bundles, marks if version == 2 else [(0, b"")] * 3))
        room.run(words)
        follower.is_over(3, said)
    follower = Follower(room)
    follower.has(frames_of(bundles, [(0, b"")] * 3))
    os.rename(room.path("store"), room.path("elsewhere"))
    follower.is_over(3, said)


@case
def a_sync_before_each_frame(room):
    """Between the last look at the file and each write of frames stands a sync that came back."""
    if not shutil.which("strace"):
        print("    strace is missing: the order of calls was not looked at")
        return
    bundles, marks = pushes(6), stamps(6)
    data, ends = store_of(bundles, stamps=marks)
    room.store(data[:ends[1]])
    trace = room.path("trace")
    with open(room.path("frames"), "wb") as frames, \
            open(room.path("store/pushes"), "r+b", buffering=0) as file, \
            subprocess.Popen(["strace", "-f", "-y", "-o", trace, "-e", "trace=read,pread64,write,writev,fsync,fdatasync",
                              PROGRAM, "log", "--store", "store", "--follow"], cwd=room.folder, stdout=frames,
                             stderr=subprocess.DEVNULL) as process:
        for number in range(1, 7):
            os.pwrite(file.fileno(), data[:ends[number]], 0)
            end = time.monotonic() + SOON
            wanted = sum(len(it) + 41 + len(mark[1]) for it, mark in zip(bundles[:number], marks))
            while os.path.getsize(room.path("frames")) < wanted and time.monotonic() < end:
                time.sleep(0.05)
            want("bytes of frames", os.path.getsize(room.path("frames")), wanted)
        process.kill()
    looked, synced, written = 0, 0, 0
    with open(trace, encoding="utf-8", errors="replace") as lines:
        for line in lines:
            if re.search(r"p?read(64)?\(\d+<[^>]*/store/pushes>", line):
                looked, synced = looked + 1, False
            elif re.search(r"f(data)?sync\(\d+<[^>]*/store/pushes>\) *= 0", line):
                synced = True
            elif re.search(r"writev?\(1<", line):
                written += 1
                if not synced:
                    raise Wrong(f"a frame without a sync before it: {line}")
    if looked < 12 or written < 6:
        raise Wrong(f"{looked} looks and {written} writes were seen")


class Growth(threading.Thread):
    """Writes a store as a server does, a batch behind the other: first what stands behind its gate, and then the gate."""

    def __init__(self, room, data, ends, pause):
        super().__init__(daemon=True)
        self.name_of, self.data, self.ends, self.pause = room.path("store/pushes"), data, ends, pause

    def run(self):
        with open(self.name_of, "r+b", buffering=0) as file:
            for begin, end in zip(self.ends, self.ends[1:]):
                os.pwrite(file.fileno(), self.data[begin + 1:end] + SHUT, begin + 1)
                os.pwrite(file.fileno(), self.data[begin:begin + 1], begin)
                time.sleep(self.pause)


def reads_in(trace):
    """How often a store was asked for its length, read, and asked for by its name; a read that is not within the length
    that was told last is wrong."""
    told, asked, read, named = {}, 0, 0, 0
    with open(trace, encoding="utf-8", errors="replace") as lines:
        for line in lines:
            if length := re.search(r"(?:fstat|newfstatat|statx)\((\d+)<[^>]*/store/pushes>.*st(?:x)?_size=(\d+)", line):
                asked, told[length[1]] = asked + 1, int(length[2])
            elif part := re.search(r"pread64\((\d+)<[^>]*/store/pushes>.*, (\d+), (\d+)\) *= \d+", line):
                read += 1
                if int(part[2]) + int(part[3]) > told.get(part[1], 0):
                    raise Wrong(f"a read behind the length that was told ({told.get(part[1])}): {line}")
            elif re.search(r"\b(read|readv|preadv2?|mmap)\(.*<[^>]*/store/pushes>", line):
                raise Wrong(f"a read that has no bound: {line}")
            elif re.search(r"(?:stat|lstat|newfstatat|statx)\(AT_FDCWD.*/pushes\"", line):
                named += 1
    return asked, read, named


@case
def no_byte_behind_the_length(room):
    """A store that another process makes longer is read as far as it was told to reach: by `log --follow`, which looks five
    times a second at most, by `log`, `log --list` and `report`."""
    if not shutil.which("strace"):
        print("    strace is missing: what is read was not looked at")
        return
    bundles = [bundle((b"note", (), b"%d" % place * (1 + 9973 * (place % 19)))) for place in range(150)]
    marks = stamps(len(bundles))
    data, ends = store_of(bundles, stamps=marks)
    frames = sum(len(it) + 41 + len(mark[1]) for it, mark in zip(bundles, marks))
    calls = "trace=fstat,newfstatat,statx,lstat,stat,read,readv,pread64,preadv,preadv2,mmap"
    for words in (("log", "--store", "store", "--follow"), ("log", "--store", "store"),
                  ("log", "--store", "store", "--list"), ("report", "--store", "store")):
        room.store(data[:ends[1]] + SHUT)
        follows, trace = "--follow" in words, room.path("trace")
        growth = Growth(room, data, ends[1:], 0.02 if follows else 0.001)
        began = time.monotonic()
        growth.start()
        with open(room.path("frames"), "wb") as out, \
                subprocess.Popen(["strace", "-f", "-y", "-o", trace, "-e", calls, PROGRAM, *words], cwd=room.folder,
                                 stdout=out, stderr=subprocess.DEVNULL) as process:
            growth.join()
            end = time.monotonic() + SOON
            while follows and os.path.getsize(room.path("frames")) < frames and time.monotonic() < end:
                time.sleep(0.05)
            seconds = time.monotonic() - began
            if follows:
                process.kill()
        asked, read, named = reads_in(trace)
        if follows:
            want("bytes of frames", os.path.getsize(room.path("frames")), frames)
            if named > 5 * seconds + 4 or asked > 2 * named + 8 or read < 2 * named:
                raise Wrong(f"{asked} lengths, {named} names and {read} reads in {seconds:.1f} seconds")
        elif asked < 1 or read < 1:
            raise Wrong(f"{asked} lengths and {read} reads of {words}")


class Server:
    def __init__(self, room):
        self.store, self.process, self.address = room.path("store"), None, "127.0.0.1:0"

    def start(self):
        self.process = subprocess.Popen([PROGRAM, "host", "--store", self.store, "--listen", self.address,
                                         "--user-header", "x-user"],
                                        stderr=subprocess.PIPE, stdin=subprocess.DEVNULL)
        line = self.process.stderr.readline().decode()
        while " bytes behind them are kept in " in line:
            line = self.process.stderr.readline().decode()
        self.address = re.search(r"http://([^,\s/]*)/", line)[1]

    def kill(self):
        self.process.send_signal(signal.SIGKILL)
        self.process.wait()
        self.process.stderr.close()

    def push(self, text, name):
        asked = urllib.request.Request(f"http://{self.address}/?cmd=unbundle", text, {
            "content-type": "application/mercurial-0.1", "x-hgarg-1": "heads=666f726365", "x-user": name})
        try:
            with urllib.request.urlopen(asked, timeout=10) as answer:
                return answer.status == 200 and answer.read(4) == b"HG20"
        except (urllib.error.URLError, OSError):
            return False


class Client(threading.Thread):
    """Pushes one bundle after the other, each other, until it is told to end. Those that were answered are `done`."""

    def __init__(self, server, number):
        super().__init__(daemon=True)
        self.server, self.number, self.tried, self.done, self.is_last = server, number, 0, [], False

    def run(self):
        while not self.is_last:
            text = pushes(self.tried + 1, self.number)[-1] if self.tried < 2 else \
                bundle((b"note", (), b"%d-%d" % (self.number, self.tried)))
            self.tried += 1
            if self.server.push(text, f"client-{self.number}"):
                self.done.append(text)
            else:
                time.sleep(0.02)


@case
def beside_a_server_that_is_killed(room):
    """Each push that was answered has its frame, once and in order, and what has a frame stays in the store."""
    server = Server(room)
    server.start()
    follower = Follower(room)
    clients = [Client(server, number) for number in range(CLIENTS)]
    for it in clients:
        it.start()
    for _ in range(ENDS):
        time.sleep(0.25)
        server.kill()
        server.start()
    time.sleep(0.25)
    for it in clients:
        it.is_last = True
    for it in clients:
        it.join()
    server.kill()
    stored = room.start("log", "--store", "store").stdout
    frames, text = [], b""
    while len(text) < len(stored):
        frames.append(follower.next())
        text += frames[-1][3]
    follower.waits()
    want("the bundles of the frames", text, stored)
    want("their places", [it[0] for it in frames], list(range(len(frames))))
    places = {it[3]: it[0] for it in frames}
    want("how many differ", len(places), len(frames))
    for it in clients:
        order = [places.get(text, -1) for text in it.done]
        want(f"the answered pushes of client {it.number}", order, sorted(set(order)))
        if -1 in order:
            raise Wrong("an answered push has no frame")
    for _, time_of, name, text in frames:
        number = re.search(rb"(\d+)-\d+\0{8}$", text)[1]
        want("the name of a frame", name, b"client-%s" % number)
        if abs(time_of / 1000 - time.time()) > 3600:
            raise Wrong(f"the time of a frame is {time_of}")
    # started behind all of it, from the middle on
    late = Follower(room, "--from", str(len(frames) // 2))
    late.has(frames[len(frames) // 2:])
    late.end()
    follower.end()
    answered = sum(len(it.done) for it in clients)
    print(f"    {len(frames)} pushes, {answered} of them answered, {ENDS} ends")
    if answered < ENDS:
        raise Wrong("too few pushes were answered")


def main():
    global ENDS
    words = sys.argv[2:]
    if words[:1] == ["--ends"]:
        ENDS, words = int(words[1]), words[2:]
    failed, cases = 0, [it for it in CASES if not words or it.__name__ in words]
    for body in cases:
        with tempfile.TemporaryDirectory(prefix="follow-") as folder:
            try:
                body(store.Room(folder))
            except (Wrong, OSError, subprocess.TimeoutExpired, queue.Empty) as error:
                print(f"{body.__name__}: {type(error).__name__} {error}")
                failed += 1
    print(f"Followers: {len(cases) - failed} of {len(cases)} cases as wanted.")
    return 1 if failed or not cases else 0


if __name__ == "__main__":
    sys.exit(main())
