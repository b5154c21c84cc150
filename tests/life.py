"""How `host` of the built program lives with connections that do nothing, or little: life.py PROGRAM [NAME..]

A thousand silent connections beside 24 that push; connections that are silent or slow, in what they send and in
what they read; bodies and answers beyond the memory, also of connections that stay; and descriptors that run out. It
ends by itself, within two minutes on a machine with little else to do.
"""
import contextlib
import os
import re
import resource
import selectors
import socket
import subprocess
import sys
import tempfile
import time

from bundles import CAPS, EMPTY, NULL, ROOT_PUSH, bundle, group, node_of
from host import EMPTY_REPLY, Host, Wrong, answer, request, want

PUSH = ("content-type: application/mercurial-0.1", "x-hgarg-1: heads=666f726365")
ROOT_NODE = node_of(b"root")
CASES = []


def case(body):
    CASES.append(body)
    return body


def pushed(text):
    """A request that pushes one changeset of that text."""
    return request("/?cmd=unbundle", bundle(CAPS, group((text, NULL))), PUSH)


def silent(host, number):
    """A connection that sent nothing, a part of a head, or a part of a body."""
    line = host.connect()
    line.sendall((b"", b"GET /?cmd=heads HT", request("/?cmd=unbundle", ROOT_PUSH, PUSH)[:-7])[number % 3])
    return line


def is_ended(line):
    """Whether the other side ended the connection, or ends it while this waits."""
    try:
        return line.recv(1 << 16) == b""
    except ConnectionError:
        return True


def opened(host):
    """How many connections are open, of which one asks."""
    return int(re.search(rb"^\w*connections\w* (\d+)$", host.ask("/metrics")[2], re.M)[1])


def becomes(host, count):
    """Whether so many connections are open soon, with the one that asks."""
    for _ in range(300):
        if opened(host) == count:
            return True
        time.sleep(0.1)
    return False


# ---- a thousand silent ones

class Pusher:
    """A connection that pushes one changeset after the other, each when the answer before it is there."""

    def __init__(self, host, name, pushes):
        self.line = host.connect()
        self.line.setsockopt(socket.IPPROTO_TCP, socket.TCP_NODELAY, 1)
        self.requests = [pushed(b"%s, the %d" % (name, number)) for number in range(pushes)]
        self.got, self.since, self.times = b"", 0.0, []

    def send(self):
        self.since = time.perf_counter()
        self.line.sendall(self.requests[len(self.times)])

    def receive(self):
        """Reads what is there; true where all pushes are answered."""
        self.got += self.line.recv(1 << 16)
        head, end, body = self.got.partition(b"\r\n\r\n")
        length = re.search(rb"content-length: (\d+)", head)
        if not end or len(body) < int(length[1]):
            return False
        self.times.append(time.perf_counter() - self.since)
        want("the reply says that it is done", b"reply:changegroup" in body, True)
        self.got = b""
        if len(self.times) == len(self.requests):
            return True
        self.send()
        return False


def times_of(host, name, pushers=24, pushes=100):
    """How long each push took, in ascending order."""
    all_of_them = [Pusher(host, b"%s %d" % (name, number), pushes) for number in range(pushers)]
    waiting = selectors.DefaultSelector()
    for it in all_of_them:
        waiting.register(it.line, selectors.EVENT_READ, it)
        it.send()
    while waiting.get_map():
        for key, _ in waiting.select(30):
            if key.data.receive():
                waiting.unregister(key.fileobj)
                key.fileobj.close()
    return sorted(it for pusher in all_of_them for it in pusher.times)


def part_of(times, percent):
    """The best of what so many of a hundred pushes took at most, in milliseconds."""
    return min(it[len(it) * percent // 100] for it in times) * 1e3


@case
def pushes_beside_a_thousand_silent_connections(host):
    """The 99th of 100 pushes takes at most 1.5 times what it takes without them. What else the machine does counts
    in both, so they take turns, four at least, and the best of each counts."""
    host.start("--connections", "1024")
    alone, beside = [], []
    for turn in range(16):
        alone.append(times_of(host, b"alone, %d" % turn))
        lines = [silent(host, number) for number in range(1000)]
        want("a thousand are open", becomes(host, 1001), True)
        beside.append(times_of(host, b"beside, %d" % turn))
        for it in lines:
            it.close()
        want("they are gone", becomes(host, 1), True)
        if turn >= 3 and part_of(beside, 99) <= 1.5 * part_of(alone, 99):
            break
    first, second = part_of(alone, 99), part_of(beside, 99)
    print(f"    24 that push: the 99th of 100 takes {first:.1f} ms, beside 1,000 silent ones {second:.1f} ms;"
          f" the 50th {part_of(alone, 50):.1f} and {part_of(beside, 50):.1f} ms; the best of {len(alone)} turns")
    want(f"{second:.1f} ms are at most 1.5 times {first:.1f} ms", second <= 1.5 * first, True)


# ---- silent and slow ones

@case
def silent_connections_end(host):
    """Those that sent nothing, a part of a head, and a part of a body; each in its time, and without an answer."""
    host.start("--idle", "2")
    lines, start = [silent(host, number) for number in range(3)], time.time()
    kept = host.connect()
    kept.sendall(request("/?cmd=heads", None, ()))
    want("an answer", answer(kept.makefile("rb"))[0], 200)
    for it in (*lines, kept):
        want("it is ended", is_ended(it), True)
        want("in its time", 1.5 < time.time() - start < 6, True)
    want("pushes", host.report(), "")


def sends_slowly(host, sent, size, wait):
    """Sends so many bytes at a time. The seconds until it was ended; None where all were sent, and the answer."""
    start = time.time()
    with host.connect() as line:
        line.setsockopt(socket.IPPROTO_TCP, socket.TCP_NODELAY, 1)
        for at in range(0, len(sent), size):
            line.setblocking(False)
            try:
                if not line.recv(1):
                    return time.time() - start, b""
            except BlockingIOError:
                pass
            except ConnectionError:
                return time.time() - start, b""
            line.setblocking(True)
            try:
                line.sendall(sent[at:at + size])
            except ConnectionError:
                return time.time() - start, b""
            time.sleep(wait)
        return None, answer(line.makefile("rb"))[2]


@case
def slow_connections_end(host):
    """Whoever sends less than 1,024 bytes in the time is ended, though never silent for long; whoever sends more is
    not, and neither is a short request."""
    host.start("--idle", "2")
    long = request("/?cmd=unbundle", EMPTY + bytes(6000), PUSH)
    for what, sent in (("a head", b"GET /?cmd=heads HTTP/1.1\r\n" + b"a: b\r\n" * 2000), ("a body", long)):
        spent, _ = sends_slowly(host, sent, 20, 0.1)
        want(f"{what} at 200 bytes a second is ended", spent is not None and 1.5 < spent < 8, True)
    want("a body at 2,000 bytes a second", sends_slowly(host, long, 200, 0.1), (None, EMPTY_REPLY))
    want("a short one, byte by byte", sends_slowly(host, request("/?cmd=heads", None, ()), 1, 0.02)[0], None)


@case
def who_does_not_read_is_ended(host):
    """An answer of 8 MB of which nothing is read, and one of which 200 bytes a second are."""
    host.start("--idle", "2")
    texts = [b"head %d" % number for number in range(12_500)]
    host.push(bundle(CAPS, group(*((text, NULL) for text in texts))))
    fields = (f"x-hgarg-1: cmds={'heads+%3B' * 15}heads+",)
    with host.connect() as first, host.connect() as second:
        for it in (first, second):
            it.setsockopt(socket.SOL_SOCKET, socket.SO_RCVBUF, 4096)
            it.sendall(request("/?cmd=batch", None, fields))
        want("the answer is told of all heads", re.search(rb"content-length: (\d+)", second.recv(200))[1], b"8200015")
        start = time.time()
        while opened(host) > 1 and time.time() - start < 15:
            second.recv(20)
            time.sleep(0.1)
        took = time.time() - start
        want("both are ended", (becomes(host, 1), took < 12), (True, True))


# ---- what is bounded

def resident(host):
    with open(f"/proc/{host.process.pid}/status", encoding="ascii") as status:
        return int(re.search(r"^VmHWM:\s+(\d+) kB", status.read(), re.M)[1]) / 1024


def held_by(host):
    """How many MiB the server holds now."""
    with open(f"/proc/{host.process.pid}/status", encoding="ascii") as status:
        return int(re.search(r"^VmRSS:\s+(\d+) kB", status.read(), re.M)[1]) / 1024


def is_refused(line):
    """Whether the other side answers that there is no memory, or ends the connection."""
    try:
        got = line.recv(1 << 16)
        return got == b"" or b"out of memory" in got
    except ConnectionError:
        return True


@contextlib.contextmanager
def gives_back():
    """Has what is started give memory that it freed back to the system, as docs/operating.md and the unit for systemd
    have it. Without that the C library keeps it for the threads that freed it, now more and now less."""
    os.environ["GLIBC_TUNABLES"] = "glibc.malloc.mmap_threshold=1048576"
    try:
        yield
    finally:
        del os.environ["GLIBC_TUNABLES"]


def send_bodies(host, memory):
    """Starts a server with so many MiB for bodies, and sends it 4 MiB of each of forty bodies of 6 MiB. Gives the
    connections, what is left to send on each, and the MiB that the server held at most."""
    with gives_back():
        host.start("--memory", str(memory << 20))
    push, lines = request("/?cmd=unbundle", bytes(6 << 20), PUSH), [host.connect() for _ in range(40)]
    for line in lines:
        with contextlib.suppress(ConnectionError):
            line.sendall(push[:4 << 20])
    time.sleep(1)
    return lines, push[4 << 20:], resident(host)


@case
def bodies_hold_no_more_than_the_memory(host):
    """Forty bodies of which 4 MiB came, and then their rest: where all have room, and where 16 MiB are allowed for
    all. A body lies in a block of at most twice its size. Those that grow at the same time may all be refused."""
    lines, _, ample = send_bodies(host, 1024)
    want("with room for all it held them", ample > 160, True)
    for it in lines:
        it.close()
    host.kill()
    lines, rest, most = send_bodies(host, 16)
    for line in lines:
        with contextlib.suppress(ConnectionError):
            line.sendall(rest)
    refused = sum(is_refused(it) for it in lines)
    print(f"    {refused} of 40 bodies of 4 MiB are refused where 16 MiB are allowed; the process held {most:.0f} MiB at"
          f" most, and {ample:.0f} where all had room")
    want("at least 36 are refused", refused >= 36, True)
    want("it held less than 64 MiB", most < 64, True)
    for it in lines:
        it.close()
    want("they are gone", becomes(host, 1), True)
    want("a small one", host.push(EMPTY)[2], EMPTY_REPLY)


@case
def bodies_that_were_answered_give_their_memory_back(host):
    """Forty connections that stay after a body of 6 MiB each, where 16 MiB are allowed for all: each has room, and so
    has its next body."""
    with gives_back():
        host.start("--memory", str(16 << 20))
    push, lines, refused = request("/?cmd=unbundle", bytes(6 << 20), PUSH), [], []

    def is_without_room(line):
        line.sendall(push)
        return b"out of memory" in answer(line.makefile("rb"))[2]

    for _ in range(40):
        lines.append(host.connect())
        refused.append(is_without_room(lines[-1]))
    most = resident(host)
    print(f"    {sum(refused)} of 40 bodies of 6 MiB are refused where 16 MiB are allowed and connections stay; the"
          f" process held {most:.0f} MiB at most")
    want("all have room", refused, [False] * 40)
    want("it held less than 64 MiB", most < 64, True)
    want("they have it again", [is_without_room(it) for it in lines], [False] * 40)
    for it in lines:
        it.close()
    want("they are gone", becomes(host, 1), True)


def start_with_bookmarks(host, memory):
    """Starts a server with so many MiB for bodies and answers, whose bookmarks are an answer of 13 MB."""
    with gives_back():
        host.start("--memory", str(memory << 20))
    names = b"".join(ROOT_NODE + (90).to_bytes(2, "big") + b"%090d" % place for place in range(100_000))
    want("the bookmarks are there", host.push(bundle(CAPS, group((b"root", NULL)), (b"bookmarks", (), names)))[0], 200)


BOOKMARKS = request("/?cmd=listkeys&namespace=bookmarks", None, ())
NO_ROOM = ("application/hg-error", b"out of memory\n")


def is_whole(told):
    """Whether an answer has all bookmarks."""
    return len(told[2]) == 13_199_999


@case
def answers_that_nobody_reads(host):
    """Answers of 13 MB count until they are sent: where 64 MiB are allowed, seven connections that read nothing have
    five of them, and the others are told that there is no memory. A push beside them is done. Once they are read there
    is room again."""
    start_with_bookmarks(host, 64)
    lines, before = [], held_by(host)
    for _ in range(7):
        lines.append(host.connect())
        lines[-1].sendall(BOOKMARKS)
        time.sleep(0.5)
    held = held_by(host) - before
    want("a push beside them", host.push(EMPTY)[2], EMPTY_REPLY)
    told = [answer(it.makefile("rb")) for it in lines]
    print(f"    {sum(is_whole(it) for it in told)} of 7 answers of 13 MB are held where 64 MiB are allowed: {held:.0f} MiB")
    want("which are held", [is_whole(it) for it in told], [True] * 5 + [False] * 2)
    want("what the others are told", [it[1:] for it in told[5:]], [NO_ROOM] * 2)
    want("it held less than 80 MiB", held < 80, True)
    want("there is room again", [ask_on(it) for it in lines], [True] * 7)
    for it in lines:
        it.close()
    want("they are gone", becomes(host, 1), True)


def ask_on(line):
    """Whether all bookmarks are answered on a connection."""
    line.sendall(BOOKMARKS)
    return is_whole(answer(line.makefile("rb")))


@case
def answers_that_were_read_give_their_memory_back(host):
    """Forty connections that stay once they have read an answer of 13 MB, where 32 MiB are allowed for all: each has
    room, and so has its next answer. None keeps what its answer was in."""
    start_with_bookmarks(host, 32)
    lines, before = [host.connect() for _ in range(40)], held_by(host)
    for _ in range(2):
        want("each is answered", [ask_on(it) for it in lines], [True] * 40)
    # an answer is given back behind the write of its last bytes, which may have been read by then
    end = time.monotonic() + 10
    while (held := held_by(host) - before) >= 16 and time.monotonic() < end:
        time.sleep(0.1)
    print(f"    40 connections that read an answer of 13 MB and stay hold {held:.0f} MiB")
    want("they hold less than 16 MiB", held < 16, True)
    for it in lines:
        it.close()


@case
def a_body_for_which_memory_is_refused(host):
    """A body of 60 MiB where the system has 8 MiB more for the process: its answer says so, and its connection goes
    on, as does another."""
    host.start("--memory", str(1 << 30))
    pid, push = host.process.pid, request("/?cmd=unbundle", bytes(60 << 20), PUSH)
    with host.connect() as line:
        line.sendall(push[:20])
        time.sleep(0.2)
        with open(f"/proc/{pid}/statm", encoding="ascii") as file:
            room = int(file.read().split()[0]) * resource.getpagesize() + (8 << 20)
        resource.prlimit(pid, resource.RLIMIT_AS, (room, room))
        line.sendall(push[20:])
        answers = line.makefile("rb")
        want("it says so", b"out of memory" in answer(answers)[2], True)
        line.sendall(request("/?cmd=unbundle", EMPTY, PUSH))
        want("the next one", answer(answers)[2], EMPTY_REPLY)
    want("another connection", host.push(EMPTY)[2], EMPTY_REPLY)


def takes_no_more(pid, more):
    """Lets a process take so many KiB more of memory that it writes to."""
    with open(f"/proc/{pid}/status", encoding="ascii") as status:
        room = (int(re.search(r"^VmData:\s+(\d+) kB", status.read(), re.M)[1]) + more) << 10
    resource.prlimit(pid, resource.RLIMIT_DATA, (room, room))


def hold_heads(lines):
    """Sends 12 KiB of a head on each connection: what the process holds of it, it holds as long as they are silent."""
    for line in lines:
        with contextlib.suppress(ConnectionError):
            for number in range(12):
                line.sendall(b"x-%d: %s\r\n" % (number, bytes(b"y" * 1000)))
    time.sleep(0.5)


@case
def each_request_is_answered_whatever_memory_there_is(host):
    """Connections that hold parts of heads take what memory the process may have. Then requests on another, two at a
    time, with bodies of up to 20 kB: each has its answer, or one that there is no memory, and the connection goes on."""
    asked = []
    for size in (0, 50, 200, 1000, 3000, 8000, 20_000) * 8:
        asked += [request("/?cmd=unbundle", bytes(size), PUSH), request("/?cmd=heads", None, ())]
    for more, count in ((0, 50), (0, 150), (0, 300), (64, 150), (256, 150), (256, 300)):
        host.start("--connections", "400")
        with host.connect() as line, contextlib.ExitStack() as stack:
            answers = line.makefile("rb")
            others = [stack.enter_context(host.connect()) for _ in range(count)]
            for it in (line, *others):
                it.sendall(b"GET /?cmd=heads HTTP/1.1\r\nhost: a\r\n")
            time.sleep(0.5)
            takes_no_more(host.process.pid, more)
            hold_heads(others)
            line.sendall(b"\r\n")
            said = [answer(answers)]
            for first, second in zip(asked[::2], asked[1::2]):
                line.sendall(first + second)
                said += [answer(answers), answer(answers)]
        lacks = sum(b"out of memory" in it[2] for it in said)
        print(f"    {count} connections, {more} KiB more: {lacks} of {len(said)} answers say that there is no memory")
        want("all are answered", {it[0] for it in said}, {200})
        host.kill()


@case
def descriptors_run_out(host):
    """With 40 descriptors for 100 connections those that are served go on, and who waits is served later."""
    soft, hard = resource.getrlimit(resource.RLIMIT_NOFILE)
    resource.setrlimit(resource.RLIMIT_NOFILE, (40, hard))
    try:
        host.start("--connections", "100")
    finally:
        resource.setrlimit(resource.RLIMIT_NOFILE, (soft, hard))
    lines = [host.connect() for _ in range(60)]
    said = host.process.stderr.readline().decode()
    want(f"it says so: {said!r}", said.startswith("hg_pushd: a connection was not accepted: "), True)
    lines[0].sendall(request("/?cmd=unbundle", EMPTY, PUSH))
    want("one that is served", answer(lines[0].makefile("rb"))[2], EMPTY_REPLY)
    lines[59].sendall(request("/?cmd=unbundle", EMPTY, PUSH))
    lines[59].settimeout(0.5)
    with contextlib.suppress(TimeoutError):
        want("one that waits", lines[59].recv(1), None)
    os.set_blocking(host.process.stderr.fileno(), False)
    want("it says so once", host.process.stderr.read(), None)
    os.set_blocking(host.process.stderr.fileno(), True)
    for it in lines[:40]:
        it.close()
    lines[59].settimeout(30)
    want("it is served later", answer(lines[59].makefile("rb"))[2], EMPTY_REPLY)
    want("and so is another", host.push(EMPTY)[2], EMPTY_REPLY)


def main():
    hard = resource.getrlimit(resource.RLIMIT_NOFILE)[1]
    resource.setrlimit(resource.RLIMIT_NOFILE, (min(hard, 8192), hard))
    names, failed = sys.argv[2:], 0
    for body in CASES:
        if names and body.__name__ not in names:
            continue
        with tempfile.TemporaryDirectory(prefix="life-") as folder:
            host = Host(folder)
            try:
                body(host)
                print(f"as wanted: {body.__name__}", flush=True)
            except (Wrong, OSError, subprocess.TimeoutExpired) as why:
                failed += 1
                print(f"FAILED: {body.__name__}: {why}", flush=True)
            finally:
                host.kill()
    print(f"tests/life.py: {'as wanted' if not failed else f'{failed} not as wanted'}")
    return 1 if failed else 0


if __name__ == "__main__":
    sys.exit(main())
