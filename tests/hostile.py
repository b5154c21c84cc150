"""A server under a limit of its address space, and clients that ask for more: hostile.py PROGRAM [NAME..]

Each case starts `hg_pushd serve` on a free port of 127.0.0.1 and pushes to it. A push that there is no
memory for is answered so, the others are done, and the report is that of the done pushes, one by one.
"""
import select

import loopback
from loopback import *
from hostile_pushes import REFUSING, ROWS, longest

# much is hashed and moved here, perhaps on a busy machine
loopback.WAIT = 90

MIB = 1 << 20
# what a server has at its start, and the stack of a thread
START, STACK = 4 * MIB, MIB
# room for the payloads of some pushes of 64 MiB, and not for those of eight
ROOM = 400 * MIB
# room for some 30 texts of 4 MiB
LESS_ROOM = 128 * MIB
NO_MEMORY = (aborted(b"out of memory"), aborted(b"stream fault 11"))


def tuned(*words):
    """Servers are started with these settings of the C library: with one arena, or else it takes 64 MiB of
    address space for each thread; or with large blocks given back to the system as soon as they are free."""
    os.environ["GLIBC_TUNABLES"] = ":".join("glibc.malloc." + word for word in words)


ONE_ARENA, GIVEN_BACK = "arena_max=1", "mmap_threshold=1048576"


def limited(room, limit, connections, *words):
    """A server whose process may have so many bytes of address space."""
    under = lambda: resource.setrlimit(resource.RLIMIT_AS, (limit, limit))
    return served(room, connections, *words, limit=under)


def ended_as_one_by_one(server, room, pushes, others=0):
    """It ends, and its report is that of the done pushes, in the order of the report, beside so many that
    bring no changeset."""
    server.ended(0, None)
    report = server.told()
    want("lines of the journal", report.count("J "), len(pushes.done) + others)
    serial_run(room, report, pushes.done)


def memory(server, name):
    """A figure of the server's process, in bytes."""
    with open(f"/proc/{server.process.pid}/status") as file:
        for line in file:
            if line.startswith(name + ":"):
                return int(line.split()[1]) * 1024
    raise Wrong(f"{name} is not told")


def is_done(reply):
    return reply in (changesets(1, 1), changesets(1, 2))


class Pushes:
    """What was pushed and answered, from several threads."""

    def __init__(self):
        self.lock, self.done, self.refused = threading.Lock(), {}, 0

    def answered(self, node, sent, reply):
        """Whether the push is done. Anything but a change of heads or want of memory is wrong."""
        with self.lock:
            if is_done(reply):
                self.done[node.hex()] = sent
                return True
            want("a reply that tells want of memory", reply in NO_MEMORY, True)
            self.refused += 1
            return False


def read_reply(client):
    """One reply bundle with at most one part, which has no payload."""
    front = read_exactly(client, 12)
    size = int.from_bytes(front[8:12], "big")
    return front + read_exactly(client, size + 8) if size else front


def connected(server, count):
    """So many connections, each of which has a thread: the push of an empty bundle was answered."""
    clients = [server.connect() for _ in range(count)]
    for client in clients:
        client.sendall(EMPTY)
        want("reply", read_exactly(client, len(EMPTY)), EMPTY)
    return clients


def push_small(client, pushes, place, rounds):
    """Pushes a changeset a bundle. Each is done."""
    for round in range(rounds):
        text = b"small %d %d" % (place, round)
        sent = bundle(CAPS, group((text, NULL)))
        client.sendall(sent)
        if not pushes.answered(node_of(text), sent, read_reply(client)):
            raise Wrong(f"no memory for the small push {round} of {place}")


def large_push(place, size):
    """The tip of a push with a payload of that size in texts that a changeset may have, and its bundle."""
    overhead, count = 12, 5
    entries, parent = [], NULL
    left = size - overhead - count * (4 + 100 + 12)
    for entry in range(count):
        length = left // (count - entry)
        left -= length
        text = b"large %d %d" % (place, entry)
        text += bytes(length - len(text))
        entries.append((text, parent))
        parent = node_of(text, parent)
    kind, params, payload = group(*entries)
    want("size of the payload", len(payload), size)
    return parent, bundle(CAPS, (kind, params, payload))


def push_together(client, pushes, tip, sent, all_sent):
    """A payload of 64 MiB, whose last byte is sent when all have sent the others. Whether it is done."""
    client.sendall(sent[:-1])
    all_sent.wait(60)
    # who was refused may have its reply by now
    if not select.select([client], [], [], 0)[0]:
        client.sendall(sent[-1:])
    got = read_reply(client)
    return got == EMPTY or pushes.answered(tip, sent, got)


LARGE_OUTPUT = bundle(CAPS, (b"output", (), bytes(64 * MIB)))


@case
def large_pushes_beside_small_ones(room):
    """Eight connections push 64 MiB each at once, where there is memory for a few. Others push small ones."""
    tuned(ONE_ARENA, GIVEN_BACK)
    large = [large_push(place, 64 * MIB) for place in range(2)] + [(NULL, LARGE_OUTPUT)] * 6
    server = limited(room, START + 13 * STACK + ROOM, 13, "--bundles", "100")
    pushes, all_sent, outputs = Pushes(), threading.Barrier(8), []
    clients = connected(server, 13)

    def push(place):
        if place >= 8:
            push_small(clients[place], pushes, place, 50)
        elif push_together(clients[place], pushes, *large[place], all_sent) and place >= 2:
            outputs.append(place)

    together(12, push)
    if pushes.refused == 0:
        raise Wrong("there was memory for all")
    # what was refused, or dropped, was given back
    clients[12].sendall(LARGE_OUTPUT)
    want("one alone", read_reply(clients[12]), EMPTY)
    close(clients)
    ended_as_one_by_one(server, room, pushes, 13 + len(outputs) + 1)


def close(clients):
    for client in clients:
        client.close()


def copies(base, length, count):
    """A push of so many copies of the text of `base`, each by an empty delta and the child of the one before,
    and their tip. Their ids are right as far as there can be memory for them."""
    text, parent, chunks = bytes(length), base, b""
    for place in range(count):
        right = place * length < 2 * LESS_ROOM
        node = node_of(text, parent) if right else hashlib.sha1(parent).digest()
        chunks += number(104) + node + parent + NULL + base + node
        parent = node
    return bundle(CAPS, (b"CHANGEGROUP", ((b"version", b"02"),), chunks + bytes(12))), parent


@case
def empty_deltas_on_a_large_base(room):
    """208,000 bytes that ask for 8 GiB: 2,000 texts of 4 MiB, by empty deltas on a base that stands there."""
    tuned(ONE_ARENA)
    server = limited(room, START + 4 * STACK + LESS_ROOM, 4, "--bundles", "100")
    pushes, clients = Pushes(), connected(server, 4)
    text = bytes(4 * MIB)
    base = node_of(text)

    def answered(client, tip, sent):
        client.sendall(sent)
        return pushes.answered(tip, sent, read_reply(client))

    want("the base", answered(clients[0], base, bundle(CAPS, group((text, NULL)))), True)
    many, tip = copies(base, len(text), 2000)

    def push(place):
        if place < 2:
            want("as many as that", answered(clients[place], tip, many), False)
        else:
            push_small(clients[place], pushes, place, 50)

    together(4, push)
    few, tip = copies(base, len(text), 10)
    want("a few of them", answered(clients[0], tip, few), True)
    close(clients)
    ended_as_one_by_one(server, room, pushes, 4)


@case
def memory_is_given_back(room):
    """A hundred pushes of 64 MiB are aborted: on one connection, on several behind each other, and on eight
    at once that stay. The process then holds no more than twice what it held behind the first."""
    tuned(GIVEN_BACK)
    server = served(room, 1 + 1 + 7 + 8, "--bundles", "100")
    raced = bundle(heads(), (b"output", (), bytes(64 * MIB)))
    _, whole = large_push(0, 64 * MIB)
    # another last byte of its last text, which then has another id
    bad = whole[:-21] + b"!" + whole[-20:]
    wanted = {raced: RACED, bad: aborted(b"part 1 holds a bad changeset")}

    def push(client, sent):
        client.sendall(sent)
        got = read_exactly(client, 12)
        got += read_exactly(client, int.from_bytes(got[8:12], "big") + 8)
        want("reply", got, wanted[sent])

    with server.connect() as client:
        push(client, bad)
    first = settled(server)
    with server.connect() as client:
        for round in range(60):
            push(client, raced if round % 10 else bad)
    for _ in range(7):
        with server.connect() as client:
            push(client, raced)
    clients = [server.connect() for _ in range(8)]
    together(8, lambda place: [push(clients[place], raced) for _ in range(4)])
    last = settled(server)
    for client in clients:
        client.close()
    if last > 2 * first:
        raise Wrong(f"{last} bytes are held, and {first} behind the first push")
    server.ended(0, "")


def settled(server):
    """What the process holds once its threads have done what they had to."""
    time.sleep(0.5)
    return memory(server, "VmRSS")


NO_ROOM = "hg_pushd: out of memory"


def not_served(room, limit, *words):
    """A server under a limit of its address space, for which there is too little memory to begin."""
    under = lambda: resource.setrlimit(resource.RLIMIT_AS, (limit, limit))
    here = ("--listen", "127.0.0.1:0", "--connections", "1", "--report", "report")
    refused(room, 4, NO_ROOM, *here, *words, limit=under)
    want("a report file", os.path.exists(os.path.join(room, "report")), False)


@case
def memory_is_refused_for_the_queue(room):
    not_served(room, START + MIB, "--capacity", "65536")


@case
def memory_is_refused_for_the_seed(room):
    with open(os.path.join(room, "seed"), "wb") as file:
        file.write(bundle(CAPS, (b"output", (), bytes(60 * MIB))))
    not_served(room, START + 32 * MIB, "--seed", "seed")


@case
def memory_is_refused_for_the_report(room):
    """A marker of 16 MiB is there, and no room for the line that tells it. The pushes are done."""
    tuned(ONE_ARENA, GIVEN_BACK)
    server = served(room, 2)
    metadata = b"a:" + b"b" * (16 * MIB)
    marker = bytes(2) + number(len(metadata)) + bytes(1) + ROOT + metadata
    new = (b"in-reply-to", b"1"), (b"new", b"1")
    want("reply", server.push(bundle(CAPS, (b"obsmarkers", (), marker))), reply(b"reply:obsmarkers", *new))
    few = memory(server, "VmSize") + STACK + MIB
    resource.prlimit(server.process.pid, resource.RLIMIT_AS, (few, few))
    want("another reply", server.push(EMPTY), EMPTY)
    server.ended(4, None, NO_ROOM)
    want("a report file", os.path.exists(os.path.join(room, "report")), False)


@case
def a_thousand_connections_under_a_limit(room):
    """1,024 connections stay open at once, each with a thread, and each pushes."""
    tuned(ONE_ARENA)
    most = resource.getrlimit(resource.RLIMIT_NOFILE)[1]
    resource.setrlimit(resource.RLIMIT_NOFILE, (min(most, 4_096), most))
    server = limited(room, START + 1_024 * STACK + 64 * MIB, 1_024, "--bundles", "2")
    pushes, clients = Pushes(), connected(server, 1_024)
    for place, client in enumerate(clients):
        push_small(client, pushes, place, 1)
    close(clients)
    want("done pushes", len(pushes.done), 1_024)
    ended_as_one_by_one(server, room, pushes, 1_024)


class Small:
    """Small pushes, one after another on a connection: how long each waited for its reply."""

    def __init__(self, server):
        self.client, self.waits = server.connect(), []

    def push(self):
        text = b"small %d" % len(self.waits)
        start = time.monotonic()
        self.client.sendall(bundle(CAPS, group((text, NULL))))
        want("a small push is done", is_done(read_reply(self.client)), True)
        self.waits.append(time.monotonic() - start)

    def push_until(self, ended):
        """At least 100, and on until that is so, with pauses, since a connection has 10,000 bundles."""
        while len(self.waits) < 100 or not ended.is_set():
            self.push()
            time.sleep(0.002)


def beside_small_ones(room, make, count):
    """A hostile push, and small ones beside it. None of them waits longer than the hostile one may hold the lock."""
    before, hostile, hashed = make(count)
    server, ended = served(room, len(before) + 2, "--bundles", "10000"), threading.Event()
    for sent in before:
        want("refused parts of a push before", server.push(sent).count(b"ERROR"), 0)
    small, refused = Small(server), []

    def push(place):
        if place:
            small.push_until(ended)
            return
        try:
            refused.append(b"ERROR" in server.push(hostile))
        finally:
            ended.set()

    together(2, push)
    small.client.close()
    want(f"{make.__name__} is refused", refused, [make in REFUSING])
    slowest = max(small.waits)
    if slowest > longest(len(hostile), hashed):
        raise Wrong(f"{make.__name__}: a small push of {len(small.waits)} waited {slowest:.2f} s")
    server.ended(0, None)
    done = sum(line.startswith("J ") for line in server.told().splitlines())
    want("done pushes", done, len(before) + len(small.waits) + (not refused[0]))


@case
def small_pushes_beside_hostile_ones(room):
    """Of each kind that asks much of the server a push of a quarter of the largest size, beside small ones."""
    os.environ.pop("GLIBC_TUNABLES", None)
    for make, most in ROWS.values():
        beside_small_ones(room, make, most // 4)


play("Hostile clients: each was answered, and the others were served.")
