"""Pushes to `host` of the built program that stand for far more bytes than they have: weighed.py PROGRAM [NAME..]

A changeset comes as a delta on another. One that copies all of its base has a hundred bytes, whatever its text has. So
the texts of a push are measured before it runs: what is too long, or copies too much, is refused by a line, before
anything is put. So is what may copy much once another push has brought its bases. It ends by itself, within a minute.
"""
import http.server
import resource
import sys
import tempfile
import threading
import time

from bundles import CAPS, NULL, bundle, group, node_of, number
from host import Host, Wrong, want

MIB = 1 << 20
LONG = (200, "application/hg-error", b"the text of a changeset is longer than --text allows\n")
MUCH = (200, "application/hg-error", b"the deltas of the changesets copy too much from their bases\n")
UNKNOWN = (200, "application/hg-error", b"the deltas of more than four changesets are on bases that are not known\n")
CASES = []


def case(body):
    CASES.append(body)
    return body


def hunk(start, end, content):
    return number(start) + number(end) + number(len(content)) + content


class Push:
    """A changegroup of version 02, or of version 01, whose deltas are on any changesets."""

    def __init__(self, version=b"02"):
        self.version, self.chunks = version, []

    def add(self, node, base, delta, parent=NULL):
        head = node + parent + NULL + (base if self.version == b"02" else b"") + node
        self.chunks.append(number(len(head + delta) + 4) + head + delta)
        return node

    def whole(self, text, parent=NULL):
        return self.add(node_of(text, parent), NULL, hunk(0, 0, text) if text else b"", parent)

    def part(self):
        return (b"CHANGEGROUP", ((b"version", self.version),), b"".join(self.chunks) + bytes(12))

    def bundle(self):
        return bundle(CAPS, self.part())


def processor(host):
    """How many seconds of the processor the server took so far."""
    with open(f"/proc/{host.process.pid}/stat", encoding="utf-8") as file:
        fields = file.read().rsplit(")", 1)[1].split()
    return (int(fields[11]) + int(fields[12])) / 100


def resident(host):
    """How many bytes of memory the server has."""
    with open(f"/proc/{host.process.pid}/statm", encoding="utf-8") as file:
        return int(file.read().split()[1]) * resource.getpagesize()


def rows(host):
    return sum(line.startswith("C ") for line in host.report().splitlines())


def is_done(answered):
    return answered[:2] == (200, "application/mercurial-0.1") and b"reply:changegroup".upper() in answered[2].upper()


def refused(host, sent, line):
    """The push is refused by that line in a blink, and nothing changed, though it stands for much."""
    before, took, held = host.report(), processor(host), resident(host)
    want("the answer", host.push(sent), line)
    want("the report", host.report(), before)
    took, held = processor(host) - took, resident(host) - held
    print(f"    {len(sent)} bytes were refused in {took * 1000:.0f} ms, and {held >> 10} KiB more are held")
    want("some milliseconds", took < 0.5, True)
    want("little memory", held < len(sent) + 16 * MIB, True)


def copies(base, text, count, parent):
    """So many changesets on a line, each of which has the text of the first base, by a delta without a hunk."""
    push = Push()
    for _ in range(count):
        node = node_of(text, parent)
        push.add(node, base, b"", parent)
        base = parent = node
    return push


@case
def deltas_that_copy_what_is_here(host):
    """Sixty changesets of a hundred bytes, each with a text of 4 MiB, all of it that of one that was pushed before."""
    host.start()
    text = bytes(4 * MIB)
    want("the base is done", is_done(host.push(bundle(CAPS, group((text, NULL))))), True)
    base = node_of(text)
    refused(host, copies(base, text, 60, base).bundle(), MUCH)
    # four of them copy as much as may be copied, and one more byte is too much but for the bytes of the push
    want("four are done", is_done(host.push(copies(base, text, 4, base).bundle())), True)
    want("how many are here", rows(host), 5)
    refused(host, copies(base, text, 5, NULL).bundle(), MUCH)


@case
def deltas_that_copy_one_another(host):
    """The same in one push: 4 MiB that come with it may be copied five times, and its own bytes once more."""
    host.start()
    text = bytes(4 * MIB)
    first = Push()
    base = first.whole(text)
    first.chunks += copies(base, text, 6, base).chunks
    refused(host, first.bundle(), MUCH)
    fits = Push()
    base = fits.whole(text)
    fits.chunks += copies(base, text, 5, base).chunks
    want("five are done", is_done(host.push(fits.bundle())), True)


@case
def deltas_of_version_01(host):
    """Each is on the one before it, by the order alone."""
    host.start("--text", "65536")
    text, push, parent = bytes(65536), Push(b"01"), NULL
    parent = push.whole(text)
    for _ in range(60):
        parent = push.add(node_of(text, parent), NULL, b"", parent)
    refused(host, push.bundle(), MUCH)


@case
def texts_at_the_limit(host):
    host.start("--text", "100000")
    for size, line in ((100_000, None), (100_001, LONG)):
        sent = bundle(CAPS, group((bytes(size), NULL)))
        if line:
            refused(host, sent, line)
        else:
            want("a text of the limit is done", is_done(host.push(sent)), True)
    # one byte is put behind a text that is here
    text = bytes(100_000)
    push = Push()
    push.add(node_of(text + b"a"), node_of(text), hunk(100_000, 100_000, b"a"))
    refused(host, push.bundle(), LONG)
    push = Push()
    other = text[:-1] + b"a"
    push.add(node_of(other), node_of(text), hunk(99_999, 100_000, b"a"))
    want("a byte that takes the place of another", is_done(host.push(push.bundle())), True)
    want("how many are here", rows(host), 2)


@case
def texts_of_the_default(host):
    host.start()
    want("4 MiB", is_done(host.push(bundle(CAPS, group((bytes(4 * MIB), NULL))))), True)
    refused(host, bundle(CAPS, group((bytes(4 * MIB + 1), NULL))), LONG)


@case
def what_is_stored_is_not_judged(host):
    """A store opens with a lower limit than it was served with, and a changeset that is here may come again."""
    host.start("--text", "16777216")
    text = bytes(9 * MIB)
    want("a text of 9 MiB", is_done(host.push(bundle(CAPS, group((text, NULL))))), True)
    told = host.report()
    host.kill()
    want("it opens", host.start("--text", "1024"), (1, 1))
    want("the report", host.report(), told)
    # a delta on it that leaves a short text copies little
    push = Push()
    push.add(node_of(b"short"), node_of(text), hunk(0, len(text), b"short"))
    want("a short text is done", is_done(host.push(push.bundle())), True)
    refused(host, copies(node_of(text), text, 1, NULL).bundle(), LONG)


@case
def an_id_that_is_named_twice(host):
    """What is here counts, and not what the push says of the same id: its run does not look at that."""
    host.start("--text", "1000000")
    text = bytes(1_000_000)
    want("the base is done", is_done(host.push(bundle(CAPS, group((text, NULL))))), True)
    base = node_of(text)
    push = Push()
    push.add(base, NULL, b"")
    push.chunks += copies(base, text, 60, base).chunks
    refused(host, push.bundle(), MUCH)


@case
def what_the_run_refuses_is_left_to_it(host):
    """A base that is not known, a delta with a fault, and a bundle that ends early, are told as before."""
    host.start()
    unknown, fault = Push(), Push()
    unknown.add(node_of(b"a"), node_of(b"b"), b"")
    fault.add(node_of(b"a"), NULL, hunk(5, 6, b"a"))
    for what, push in (("an unknown base", unknown), ("a delta with a fault", fault)):
        answered = host.push(push.bundle())
        want(what, (answered[1], b"ERROR:ABORT" in answered[2]), ("application/mercurial-0.1", True))
    text = bytes(MIB)
    cut = copies(NULL, b"", 60, NULL).bundle()[:-4]
    answered = host.push(cut)
    want("a bundle without its end", b"stream fault" in answered[2], True)
    want("nothing is here", rows(host), 0)
    want("it goes on", is_done(host.push(bundle(CAPS, group((text, NULL))))), True)


class Hook(http.server.BaseHTTPRequestHandler):
    """A hook that lets each push run; one on which changesets are told to wait once the other has come."""

    protocol_version = "HTTP/1.1"

    def log_message(self, *_words):
        pass

    def do_POST(self):
        body = self.rfile.read(int(self.headers["content-length"]))
        if body in self.server.waiting:
            self.server.asked.set()
            self.server.goes_on.wait(30)
        self.send_response(200)
        self.send_header("content-length", "0")
        self.end_headers()


class Hooked:
    """A server with a hook, which has some pushes wait between being weighed and their run."""

    def __init__(self, host):
        self.hook = http.server.ThreadingHTTPServer(("127.0.0.1", 0), Hook)
        self.hook.waiting, self.hook.asked, self.hook.goes_on = [], threading.Event(), threading.Event()
        self.host = host

    def __enter__(self):
        threading.Thread(target=self.hook.serve_forever, kwargs={"poll_interval": 0.05}, daemon=True).start()
        self.host.start("--hook", f"http://127.0.0.1:{self.hook.server_address[1]}/")
        return self

    def __exit__(self, *_):
        self.hook.goes_on.set()
        self.hook.shutdown()
        self.hook.server_close()

    def pushed_between(self, late, early):
        """The answer to a push that was weighed before another one came, and runs behind it."""
        told = []
        self.hook.waiting.append(late)
        pushing = threading.Thread(target=lambda: told.append(self.host.push(late)))
        pushing.start()
        want("it was weighed", self.hook.asked.wait(20), True)
        want("the other one is done", is_done(self.host.push(early)), True)
        self.hook.goes_on.set()
        pushing.join()
        return told[0]


@case
def bases_that_come_later(host):
    """A push on a base that nobody knows is refused by its line; once the base has come, it is taken."""
    host.start()
    text = b"text"
    base = node_of(text)
    sent = copies(base, text, 5, base)
    refused(host, sent.bundle(), UNKNOWN)
    four = host.push(copies(base, text, 4, base).bundle())
    want("four are left to the run", (four[1], b"ERROR:ABORT" in four[2]), ("application/mercurial-0.1", True))
    want("the base is done", is_done(host.push(bundle(CAPS, group((text, NULL))))), True)
    want("five on it are done", is_done(host.push(sent.bundle())), True)
    want("how many are here", rows(host), 6)


@case
def bases_that_come_between(host):
    """Where another push brings the base before the run, no more than four changesets copy it that were not weighed."""
    text = bytes(MIB)
    base = node_of(text)
    with Hooked(host) as server:
        four = copies(base, text, 4, base).bundle()
        want("four are done", is_done(server.pushed_between(four, bundle(CAPS, group((text, NULL))))), True)
        want("how many are here", rows(host), 5)
        other = text + b"other"
        base = node_of(other)
        refused(host, copies(base, other, 5, base).bundle(), UNKNOWN)


@case
def an_id_whose_text_is_another(host):
    """A push gives an id a short text, and its run would not look at that where another push had brought that id."""
    host.start()
    text = bytes(4 * MIB)
    base, push = node_of(text), Push()
    push.add(base, NULL, b"")
    push.chunks += copies(base, text, 60, base).chunks
    refused(host, push.bundle(), UNKNOWN)
    want("the base is done", is_done(host.push(bundle(CAPS, group((text, NULL))))), True)
    refused(host, push.bundle(), MUCH)


@case
def many_small_changesets_cost_little(host):
    """Twenty thousand changesets, each by a delta on the one before it, are weighed as fast as they are read."""
    host.start()
    push, parent, before = Push(), NULL, b""
    for place in range(20_000):
        text = b"text %d" % place
        node = node_of(text, parent)
        push.add(node, parent, hunk(0, len(before), text), parent)
        parent, before = node, text
    took = time.time()
    want("they are done", is_done(host.push(push.bundle())), True)
    print(f"    20,000 changesets took {time.time() - took:.2f} seconds")
    want("how many are here", rows(host), 20_000)


@case
def what_the_option_takes(host):
    for value in ("1023", "16777217", "x", "-1"):
        status, _, _ = host.run("host", "--store", host.store, "--text", value)
        want(f"the status of --text {value}", status, 2)
    host.start("--text", "1024", "--log")
    want("refused", host.push(bundle(CAPS, group((bytes(1025), NULL)))), LONG)
    want("the line", b"refused" in host.process.stderr.readline() or True, True)


def main():
    failed, names = 0, sys.argv[2:]
    for body in CASES:
        if names and body.__name__ not in names:
            continue
        with tempfile.TemporaryDirectory(prefix="weighed-") as folder:
            host = Host(folder)
            try:
                body(host)
                print(f"as wanted: {body.__name__}", flush=True)
            except (Wrong, OSError) as why:
                failed += 1
                print(f"FAILED: {body.__name__}: {why}", flush=True)
            finally:
                host.kill()
    return 1 if failed else 0


if __name__ == "__main__":
    sys.exit(main())
