"""Clients push to `host` of the built program: host.py PROGRAM [NAME..]

Each case has a folder with a store of its own. Requests are made here, byte by byte, and recorded conversations of
Mercurial (`conversations/`) are held again; where the command `hg` is installed, an unmodified Mercurial pushes too.
Replies are compared whole, and the report with what the client has.
"""
import datetime
import hashlib
import io
import os
import re
import resource
import signal
import shutil
import socket
import struct
import subprocess
import sys
import tempfile
import threading
import time
from urllib.parse import unquote

from bundles import CAPS, EMPTY, NULL, ROOT_PUSH, bundle, changesets_in, group, node_of

PROGRAM = os.path.abspath(sys.argv[1])
HERE = os.path.dirname(os.path.abspath(__file__))
HG = shutil.which("hg")
CASES = []
LIMITS = (65536, 67108864, 268435456, 10000, 16777216, 1024, 2147483647)
ROOT = "b80de5d138758541c5f05265ad144ab9fa86d1db"
EMPTY_REPLY = b"HG20" + bytes(8)
LOST_REPLY = (b"HG20" + bytes(7) + b"\x2a\x0bERROR:ABORT" + bytes(4) + b"\x01\x00\x07\x0fmessageconnection lost"
              + bytes(8))
SETTINGS = "[ui]\nusername = Test <t@e>\n[experimental]\nevolution = all\n[phases]\npublish = false\n"


class Wrong(Exception):
    pass


def case(body):
    CASES.append((body, False))
    return body


def with_hg(body):
    CASES.append((body, True))
    return body


def want(what, got, wanted):
    if got != wanted:
        raise Wrong(f"{what}: {str(got)[:600]}, not {str(wanted)[:600]}")


class Host:
    """A folder with a store, and the program that serves it."""

    def __init__(self, folder):
        self.folder, self.store, self.process, self.port = folder, f"{folder}/store", None, 0
        with open(f"{folder}/hgrc", "w", encoding="utf-8") as file:
            file.write(SETTINGS)
        self.environment = {"PATH": os.environ["PATH"], "HGRCPATH": f"{folder}/hgrc", "HGPLAIN": "1",
                            "LC_ALL": "C.UTF-8", "HOME": folder}

    def start(self, *words, ignores_signals=False):
        self.process = subprocess.Popen([PROGRAM, "host", "--store", self.store, "--listen", "127.0.0.1:0", *words],
                                        stderr=subprocess.PIPE, stdin=subprocess.DEVNULL,
                                        restore_signals=not ignores_signals)
        self.said, self.kept = self.process.stderr.readline().decode(), []
        while " bytes behind them are kept in " in self.said:
            self.kept.append(self.said)
            self.said = self.process.stderr.readline().decode()
        found = re.fullmatch(r"hg_pushd: listening on http://127\.0\.0\.1:(\d+)/, (\d+) pushes, (\d+) changesets\n",
                             self.said)
        if not found:
            raise Wrong(f"it said {self.said!r}")
        self.port = int(found[1])
        return int(found[2]), int(found[3])

    def kill(self):
        if self.process:
            self.process.send_signal(signal.SIGKILL)
            self.process.wait()
            self.process.stderr.close()
            self.process = None

    def url(self):
        return f"http://127.0.0.1:{self.port}/"

    def run(self, *words):
        """The status of the program with these words, and what it wrote."""
        done = subprocess.run([PROGRAM, *words], capture_output=True, timeout=60, check=False)
        return done.returncode, done.stdout, done.stderr.decode()

    def connect(self):
        return socket.create_connection(("127.0.0.1", self.port), timeout=30)

    def ask(self, target, body=None, fields=()):
        """The status, the type and the body of one answer."""
        with self.connect() as line:
            line.sendall(request(target, body, fields))
            return answer(line.makefile("rb"))

    def push(self, body, heads="666f726365"):
        kind = ("content-type: application/mercurial-0.1", f"x-hgarg-1: heads={heads}")
        return self.ask("/?cmd=unbundle", body, kind)

    def report(self):
        return self.ask("/report")[2].decode()

    def hg(self, *words, cwd=None):
        done = subprocess.run([HG, *words], cwd=cwd or self.folder, env=self.environment, capture_output=True,
                              timeout=120, check=False)
        return done.returncode, (done.stdout + done.stderr).decode()


def request(target, body, fields):
    method = "GET" if body is None else "POST"
    lines = [f"{method} {target} HTTP/1.1", "host: a", *fields]
    if body is not None:
        lines.append(f"content-length: {len(body)}")
    return "\r\n".join([*lines, "", ""]).encode() + (body or b"")


def answer(file):
    status, length, kind = file.readline(), 0, ""
    for line in iter(file.readline, b"\r\n"):
        if not line:
            raise Wrong(f"the answer ended in its head: {status!r}")
        name, _, value = line.decode().partition(":")
        if name.lower() == "content-length":
            length = int(value)
        if name.lower() == "content-type":
            kind = value.strip()
    return int(status.split()[1]), kind, file.read(length)


def requests_in(sent):
    """The requests of one connection, one after the other."""
    while sent:
        head, _, rest = sent.partition(b"\r\n\r\n")
        length = re.search(rb"^content-length: *(\d+)", head, re.M | re.I)
        size = len(head) + 4 + (int(length[1]) if length else 0)
        yield sent[:size]
        sent = sent[size:]


# ---- by requests

@case
def recorded_conversations(host):
    """Three pushes of a real client, one after the other on one store, request by request. Afterwards the store has
    the changesets that they brought, in that order."""
    host.start()
    pushed = []
    for number in range(3):
        with open(f"{HERE}/conversations/{number}.sent", "rb") as file:
            sent = file.read()
        with open(f"{HERE}/conversations/{number}.answered", "rb") as file:
            wanted = file.read()
        answers = io.BytesIO(wanted)
        with host.connect() as line:
            told = line.makefile("rb")
            for place, it in enumerate(requests_in(sent)):
                line.sendall(it)
                want(f"answer {place} of conversation {number}", answer(told), answer(answers))
                if it.startswith(b"POST /?cmd=unbundle "):
                    pushed += changesets_in(it.partition(b"\r\n\r\n")[2])
        want(f"what is left of conversation {number}", answers.read(), b"")
    want("changesets", [it.split()[2] for it in host.report().splitlines() if it.startswith("C ")], pushed)


@case
def what_an_empty_store_tells(host):
    host.start()
    status, kind, told = host.ask("/?cmd=capabilities")
    want("capabilities", (status, kind, len(told)), (200, "application/mercurial-0.1", 224))
    want("heads", host.ask("/?cmd=heads")[2], b"0" * 40 + b"\n")
    want("known", host.ask("/?cmd=known")[2], b"")
    fields = ("x-hgarg-1: cmds=heads+%3Bknown+nodes%3D" + "0" * 40,)
    want("batch", host.ask("/?cmd=batch", None, fields)[2], b"0" * 40 + b"\n;1")
    want("another path", host.ask("/nothing")[0], 404)


@case
def a_push_is_stored(host):
    host.start()
    want("the empty push", host.push(EMPTY), (200, "application/mercurial-0.1", EMPTY_REPLY))
    want("a root changeset", len(host.push(ROOT_PUSH)[2]), 67)
    told = host.report()
    want("report", told, f"C 0 {ROOT} 1 0\nJ 0\nJ 1\n")
    want("`report` beside it", host.run("report", "--store", host.store)[:2], (0, told.encode()))
    host.kill()
    want("the size of the store", os.path.getsize(f"{host.store}/pushes") in (
        54 + 34 + len(EMPTY) + 34 + len(ROOT_PUSH), 54 + 34 + len(EMPTY) + 34 + len(ROOT_PUSH) + 1), True)
    want("at the next start", host.start(), (2, 1))
    want("the report of before", host.report(), told)


@case
def what_is_refused_changes_nothing(host):
    host.start()
    want("heads that are not forced", host.push(ROOT_PUSH, "00")[:2], (200, "application/hg-error"))
    kind = ("content-type: application/mercurial-0.1", "x-hgarg-1: heads=666f726365", "origin: http://a")
    want("from a browser", host.ask("/?cmd=unbundle", ROOT_PUSH, kind)[0], 403)
    want("a pull", host.ask("/?cmd=getbundle")[:2], (200, "application/hg-error"))
    with host.connect() as line:
        line.sendall(request("/?cmd=unbundle", ROOT_PUSH, ("content-type: application/mercurial-0.1",
                                                           "x-hgarg-1: heads=666f726365"))[:-7])
    want("report", host.report(), "")


@case
def a_command_that_may_be_read_otherwise(host):
    """Who stands before the server may take the first `cmd`, or read no escapes."""
    host.start()
    kind = ("content-type: application/mercurial-0.1", "x-hgarg-1: heads=666f726365")
    for query in ("cmd=heads&cmd=unbundle", "%63md=heads", "cmd=%68eads", "%63md=unbundle", "cmd=unbundle&cmd=unbundle",
                  "cmd=heads&%63md=unbundle", "cmd=unbundle+", "cmd&cmd=unbundle"):
        want(query, host.ask(f"/?{query}", ROOT_PUSH, kind)[0], 400)
    want("report", host.report(), "")
    want("a command behind its arguments", host.ask("/?n%6fdes=&cmd=known")[0], 200)


@case
def one_path_is_answered(host):
    host.start("--path", "/team/one/")
    kind = ("content-type: application/mercurial-0.1", "x-hgarg-1: heads=666f726365")
    for path in ("/", "/team", "/team/one2", "/team/one/sub", "/team/one//", "/team/%6fne", "/team/one/report"):
        want(path, host.ask(f"{path}?cmd=unbundle", ROOT_PUSH, kind)[0], 404)
    for path in ("/", "/report", "/metrics", "/team/one/sub"):
        want(path, host.ask(path)[0], 404)
    want("its page", [host.ask(path)[:2] for path in ("/team/one", "/team/one/")],
         [(200, "text/html; charset=utf-8")] * 2)
    want("its numbers", host.ask("/team/one/metrics")[0], 200)
    want("its report", host.ask("/team/one/report")[2], b"")
    want("a push", len(host.ask("/team/one?cmd=unbundle", ROOT_PUSH, kind)[2]), 67)
    want("heads", host.ask("/team/one/?cmd=heads")[2].decode(), ROOT + "\n")


@case
def one_name_is_answered(host):
    host.start("--name", "hg.example.org")
    for name, status in (("hg.example.org", 200), ("HG.example.org:8000", 200), ("127.0.0.1", 421),
                         ("hg.example.org.evil", 421), ("rebound.example", 421)):
        with host.connect() as line:
            line.sendall(f"GET /?cmd=heads HTTP/1.1\r\nhost: {name}\r\n\r\n".encode())
            want(name, answer(line.makefile("rb"))[0], status)


@case
def more_capabilities_are_told(host):
    host.start()
    told = host.ask("/?cmd=capabilities")[2]
    host.kill()
    host.start("--also", "stream bundles=1%2C2")
    want("capabilities", host.ask("/?cmd=capabilities")[2], told + b" stream bundles=1%2C2")


def names_in(path):
    """Who pushed, by the records of a store of version 2."""
    with open(path, "rb") as file:
        data = file.read()
    names, at = [], 54
    while at < len(data) and data[at] == 0xff:
        size, name = int.from_bytes(data[at + 1:at + 5], "big"), data[at + 13]
        names.append(data[at + 14:at + 14 + name])
        at += 34 + name + size
    return names


@case
def who_pushed_stands_in_the_record(host):
    """The field that is named says it, up to 255 bytes of it; no other one does, and without the option none."""
    kind = ("content-type: application/mercurial-0.1", "x-hgarg-1: heads=666f726365")
    for words, fields in (((), ("x-remote-user: ann",)), (("--user-header", "X-Remote-User"), ())):
        host.start(*words)
        for more in ((), fields, ("X-REMOTE-USER: bob",), ("remote-user: eve",), (f"x-remote-user: {'c' * 300}",)):
            want("a push", host.ask("/?cmd=unbundle", EMPTY, kind + more)[2], EMPTY_REPLY)
        host.kill()
    want("the names", names_in(f"{host.store}/pushes"), [b""] * 7 + [b"bob", b"", b"c" * 255])


@case
def who_pushed_and_when_is_listed(host):
    """A line for each push: its place, the second, who, changesets and bytes."""
    kind = ("content-type: application/mercurial-0.1", "x-hgarg-1: heads=666f726365")
    host.start("--user-header", "x-remote-user")
    first = time.time()
    for body, more in ((EMPTY, ()), (ROOT_PUSH, ("x-remote-user: ann lee",))):
        want("a push", host.ask("/?cmd=unbundle", body, kind + more)[0], 200)
    last = time.time()
    for asked in range(3):
        status, listed, said = host.run("log", "--store", host.store, "--list", "--from", str(asked))
        want("the list", (status, said), (0, ""))
        lines = [it.split(" ") for it in listed.decode().splitlines()]
        want("the lines", [it[:1] + it[2:] for it in lines],
             [["0", "-", "0", "12"], ["1", "ann%20lee", "1", str(len(ROOT_PUSH))]][asked:])
        for _, when, *_ in lines:
            at = datetime.datetime.strptime(when, "%Y-%m-%dT%H:%M:%SZ").replace(tzinfo=datetime.timezone.utc).timestamp()
            want(f"{when} is between the pushes", int(first) <= at <= last, True)


@case
def a_store_that_has_to_be_there(host):
    """A file system that is not mounted: its folder is empty, and stays so. One that is there is opened."""
    words = ("host", "--store", host.store, "--listen", "127.0.0.1:0")
    for make in (lambda: None, lambda: os.mkdir(host.store)):
        make()
        for flag in ("--existing", "--shared"):
            want(f"no store, {flag}", host.run(*words, flag)[::2],
                 (3, f"hg_pushd: {host.store}/pushes: no store\n"))
    want("what is in it", os.listdir(host.store), [])
    host.start()
    host.push(EMPTY)
    host.kill()
    for flag in ("--existing", "--shared"):
        want(f"a store, {flag}", host.start(flag), (1, 0))
        host.kill()


@case
def a_pull_goes_elsewhere(host):
    host.start("--pull", "http://127.0.0.1:9/hg")
    want("status", host.ask("/?cmd=getbundle&common=00")[0], 302)


@case
def a_store_has_one_server(host):
    host.start()
    status, _, said = host.run("host", "--store", host.store, "--listen", "127.0.0.1:0")
    want("the second", (status, said), (3, f"hg_pushd: {host.store}/pushes: another process holds the store\n"))
    want("the first goes on", host.push(EMPTY)[2], EMPTY_REPLY)
    host.kill()
    status, _, said = host.run("host", "--store", host.store, "--listen", "127.0.0.1:0", "--publishing")
    want("publishing", (status, said), (3, f"hg_pushd: {host.store}/pushes: a store of another publishing flag\n"))


@case
def a_record_that_is_damaged(host):
    host.start()
    host.push(ROOT_PUSH)
    host.kill()
    path = f"{host.store}/pushes"
    with open(path, "rb") as file:
        whole = file.read()
    for at, size in ((70, len(whole)), (len(whole), 90)):
        with open(path, "wb") as file:
            damaged = bytearray(whole[:size])
            if at < size:
                damaged[at] ^= 1
            file.write(damaged)
        status, _, said = host.run("host", "--store", host.store, "--listen", "127.0.0.1:0")
        want("status", status, 3)
        want("names the file", path in said, True)
        with open(path, "rb") as file:
            want("the file", file.read(), bytes(damaged))


@case
def a_silent_connection_ends(host):
    host.start("--idle", "1", "--connections", "1")
    with host.connect() as silent:
        silent.sendall(b"GET /?cmd=heads HT")
        start = time.time()
        want("nothing is answered", silent.recv(100), b"")
        want("in time", 0.5 < time.time() - start < 5, True)
    want("who waited is served", host.ask("/?cmd=known")[0], 200)


@case
def bodies_beyond_the_memory(host):
    host.start("--memory", "1048576")
    kind = ("content-type: application/mercurial-0.1", "x-hgarg-1: heads=666f726365")
    long = request("/?cmd=unbundle", bytes(4 << 20), kind)
    with host.connect() as line:
        file = line.makefile("rb")
        for _ in range(20):
            # the connection goes on, also with a request that came with the end of the body
            line.sendall(long + request("/?cmd=heads", None, ()))
            want("out of memory", b"out of memory" in answer(file)[2], True)
            want("the heads behind it", answer(file)[2], b"0" * 40 + b"\n")
        line.sendall(request("/?cmd=unbundle", EMPTY, kind))
        want("a small one", answer(file)[2], EMPTY_REPLY)
    want("the connection is asked to close", host.ask("/?cmd=unbundle", bytes(4 << 20), (*kind, "connection: close"))[0], 200)


@case
def a_line_for_each_push(host):
    host.start("--log")
    host.push(EMPTY)
    host.push(ROOT_PUSH)
    lines = [host.process.stderr.readline().decode() for _ in range(2)]
    for place, (line, changesets, size) in enumerate(zip(lines, (0, 1), (len(EMPTY), len(ROOT_PUSH)))):
        pattern = rf"\S+Z push {place} done: {changesets} changesets, {size} bytes, \S+ ms in the lock, \S+ ms for the disk\n"
        want(f"{line!r} is such a line", bool(re.fullmatch(pattern, line)), True)


class Client(threading.Thread):
    """Pushes fifty changesets, each until it was told as done."""

    def __init__(self, host, number):
        super().__init__()
        self.host, self.number, self.done, self.tries = host, number, [], 0

    def run(self):
        for count in range(50):
            text = b"of %d, the %d" % (self.number, count)
            push, node = bundle(CAPS, group((text, NULL))), node_of(text).hex()
            while node not in self.done and self.tries < 5000:
                self.tries += 1
                try:
                    if b"reply:changegroup" in self.host.push(push)[2]:
                        self.done.append(node)
                except (OSError, Wrong, ValueError, IndexError):
                    time.sleep(0.02)
            time.sleep(0.06)


@case
def what_was_told_as_done_is_there_after_each_end(host):
    """Six clients push fifty changesets each while the process is killed ten times."""
    host.start()
    clients = [Client(host, number) for number in range(6)]
    for it in clients:
        it.start()
    ends = 0
    while ends < 10 or any(it.is_alive() for it in clients):
        time.sleep(0.25)
        if ends < 10:
            host.kill()
            host.start()
            ends += 1
    for it in clients:
        it.join()
    done = sorted(node for it in clients for node in it.done)
    want("how many were told as done", len(done), 300)
    told = host.report()
    rows = sorted(line.split()[2] for line in told.splitlines() if line.startswith("C "))
    want("the changesets", rows, done)
    host.kill()
    want("`report` of the store", host.run("report", "--store", host.store)[1].decode(), told)
    status, log, _ = host.run("log", "--store", host.store, "--to", f"{host.folder}/log")
    want("log", (status, log), (0, b""))
    names = sorted(os.listdir(f"{host.folder}/log"))
    status, replayed, _ = host.run("replay", *(f"{host.folder}/log/{name}" for name in names))
    want("replay", (status, replayed.decode()), (0, "".join(it for it in told.splitlines(True) if it[0] != "J")))
    print(f"    300 changesets in {len(names)} pushes, {sum(it.tries for it in clients)} tries, {ends} ends")


def a_request_that_breaks_off(host, sent):
    with host.connect() as line:
        line.sendall(sent)
        line.shutdown(socket.SHUT_WR)
        line.makefile("rb").read()


@case
def a_line_for_each_refused_request(host):
    """What ends before a push is opened is told by a line, and counted by its reason."""
    host.start("--log", "--memory", "1048576", "--path", "/team", "--name", "a")
    kind = ("content-type: application/mercurial-0.1", "x-hgarg-1: heads=666f726365")
    with host.connect() as line:
        head = ["POST /team?cmd=unbundle HTTP/1.1", "host: a", *kind, "content-length: 4000000000", "", ""]
        line.sendall("\r\n".join(head).encode())
        want("a body over the limit", answer(line.makefile("rb"))[0], 413)
    want("a head over the limit", host.ask("/team?cmd=heads", None, ("x: " + "a" * 20_000,))[0], 431)
    want("a line over the limit", host.ask("/team?cmd=heads&x=" + "a" * 20_000)[0], 414)
    with host.connect() as line:
        line.sendall(b"no request\r\n\r\n")
        want("no request", answer(line.makefile("rb"))[0], 400)
    whole = request("/team?cmd=unbundle", ROOT_PUSH, kind)
    for cut in (20, len(whole) - 7):
        a_request_that_breaks_off(host, whole[:cut])
    want("no room", b"out of memory" in host.ask("/team?cmd=unbundle", bytes(4 << 20), kind)[2], True)
    with host.connect() as line:
        line.sendall(request("/team?cmd=heads", None, ()).replace(b"host: a", b"host: b"))
        want("another name", answer(line.makefile("rb"))[0], 421)
    want("another path", host.ask("/other?cmd=heads")[0], 404)
    want("no view", host.ask("/team/nothing")[0], 404)
    want("two commands", host.ask("/team?cmd=heads&cmd=unbundle")[0], 400)
    want("a page in a browser", host.ask("/team?cmd=unbundle", ROOT_PUSH, (*kind, "origin: null"))[0], 403)
    want("heads that are not forced", host.ask("/team?cmd=unbundle", ROOT_PUSH, kind[:1])[1], "application/hg-error")
    want("none of it was pushed", host.ask("/team?cmd=heads")[2], b"0" * 40 + b"\n")
    wanted = ["body over the limit", "head over the limit", "head over the limit", "no request", "connection lost",
              "connection lost", "out of memory", "for another server", "not found", "not found", "unclear command",
              "forbidden", "command not taken"]
    counts = {reason: wanted.count(reason) for reason in wanted}
    text = host.ask("/team/metrics")[2].decode()
    found = re.findall(r'^hg_pushd_requests_refused_total\{reason="([^"]*)"\} (\d+)$', text, re.MULTILINE)
    want("the counts", {reason: int(count) for reason, count in found if count != "0"}, counts)
    shown = re.findall(r"<span class=no><b>(\d+) ([^<]*)</b></span>", host.ask("/team")[2].decode())
    want("the page", {reason: int(count) for count, reason in shown}, counts)
    lines = [host.process.stderr.readline().decode() for _ in wanted]
    told = [re.fullmatch(r"\S+Z refused, (.*)\n", line) for line in lines]
    want("the lines", sorted(it[1] if it else "no line" for it in told), sorted(wanted))


@case
def a_body_that_ends_early(host):
    """Its push is aborted, which is answered where somebody still reads, and others go on."""
    host.start("--log")
    kind = ("content-type: application/mercurial-0.1", "x-hgarg-1: heads=666f726365")
    with host.connect() as line:
        line.sendall(request("/?cmd=unbundle", ROOT_PUSH, kind)[:-7])
    with host.connect() as line:
        line.sendall(request("/?cmd=unbundle", ROOT_PUSH, kind)[:-7])
        line.shutdown(socket.SHUT_WR)
        file = line.makefile("rb")
        want("it is answered", answer(file), (200, "application/mercurial-0.1", LOST_REPLY))
        want("and the connection ends", file.read(), b"")
    want("another", host.push(EMPTY)[2], EMPTY_REPLY)
    want("report", host.report().startswith("J "), True)


@case
def a_name_that_breaks_lines(host):
    host.start()
    host.push(ROOT_PUSH)
    for name in ("plain", "a%0Ab", "a%09b", "a%0Db"):
        fields = ("content-type: application/mercurial-0.1",
                  f"x-hgarg-1: namespace=bookmarks&key={name}&old=&new={ROOT}")
        want(f"{name} is set", host.ask("/?cmd=pushkey", b"", fields)[2], b"1\n")
    told = host.ask("/?cmd=listkeys&namespace=bookmarks")[2]
    want("listkeys", told, f"plain\t{ROOT}".encode())
    want("report", sum(it.startswith("B ") for it in host.report().splitlines()), 4)


HOSTILE = ("%3Cscript%3Ealert(1)%3C/script%3E", "%22onload%3D%22a%27b%26lt%3B", "%1B%5B31m%00%07red", "%FF%FE%80%C3",
           "%E2%80%AEright-to-left", "%3C/title%3E%3Cimg src%3Dx onerror%3Dalert(1)%3E")


def name_all(host, names):
    for name in names:
        fields = ("content-type: application/mercurial-0.1",
                  f"x-hgarg-1: namespace=bookmarks&key={name}&old=&new={ROOT}")
        want(f"{name} is set", host.ask("/?cmd=pushkey", b"", fields)[2], b"1\n")


@case
def the_page_shows_names_as_text(host):
    """Names of bookmarks that would be more than text are escaped, in a short page that may run and load nothing."""
    host.start()
    host.push(ROOT_PUSH)
    name_all(host, HOSTILE)
    with host.connect() as line:
        line.sendall(request("/", None, ("connection: close",)))
        head, _, page = line.makefile("rb").read().partition(b"\r\n\r\n")
    for field in (b"content-type: text/html; charset=utf-8",
                  b"content-security-policy: default-src 'none'; style-src 'unsafe-inline'"):
        want(f"{field} is in {head}", field in head.split(b"\r\n"), True)
    want("its size", len(page) < 65536, True)
    text = page.decode()
    for found in ("<script", "<img", "onload=", "\x1b", "\x00", "\u202e"):
        want(f"{found!r} is in the page", found in text.replace("&quot;onload=", ""), False)
    want("a name is shown", "&lt;script&gt;alert(1)&lt;/script&gt;" in text, True)
    want("bytes that are no UTF-8", "\ufffd" in text, True)


@case
def numbers_for_prometheus(host):
    host.start()
    host.push(ROOT_PUSH)
    host.push(b"HG10")
    name_all(host, HOSTILE)
    told = host.ask("/metrics")[2]
    if not shutil.which("promtool"):
        print("    promtool is not installed: it did not read the numbers")
        return
    done = subprocess.run(["promtool", "check", "metrics"], input=told, capture_output=True, timeout=60, check=False)
    want("promtool", (done.returncode, (done.stdout + done.stderr).decode()), (0, ""))


@case
def a_store_cut_at_each_of_its_lengths(host):
    """Below a head it is no store. It is served where it is cut after its head, and where it ends in a shut gate or
    before one; else it is torn, and stays as it is."""
    host.start()
    host.push(ROOT_PUSH)
    host.kill()
    path = f"{host.store}/pushes"
    with open(path, "rb") as file:
        whole = file.read()
    record = 54 + 34 + len(ROOT_PUSH)
    for length in range(len(whole) + 1):
        with open(path, "wb") as file:
            file.write(whole[:length])
        if length == 54 or length >= record:
            want(f"{length} bytes", host.start(), (int(length > 54), int(length > 54)))
            want(f"report of {length} bytes", host.report(), f"C 0 {ROOT} 1 0\nJ 0\n" if length > 54 else "")
            host.kill()
            continue
        status, _, said = host.run("host", "--store", host.store, "--listen", "127.0.0.1:0")
        wanted = "no store: a file that is shorter than a head" if length < 54 else "torn: 0 pushes are whole"
        want(f"{length} bytes: {said}", (status, wanted in said), (3, True))
        with open(path, "rb") as file:
            want(f"the file of {length} bytes", file.read(), whole[:length])


def frames_of(bundles):
    """A store of these bundles, and where the gate of each record stands."""
    made = b"HGPUSHES\2\0" + struct.pack(">7I", *LIMITS) + b"the name of this"
    digest, gates = hashlib.sha1(made).digest(), []
    for it in bundles:
        label = len(it).to_bytes(4, "big") + bytes(9)
        digest = hashlib.sha1(digest + label + hashlib.sha1(it).digest()).digest()
        gates.append(len(made))
        made += b"\xff" + label + digest + it
    return made + b"\0", gates


def files_in(folder):
    """Its files but the store, each with its bytes."""
    found = {}
    for name in os.listdir(folder):
        if name != "pushes":
            with open(f"{folder}/{name}", "rb") as file:
                found[name] = file.read()
    return found


@case
def a_gate_that_became_shut(host):
    """Of five pushes the gate of the second becomes 0: the last four are kept, and that is printed; and so are three, of
    which the second has 16 MiB. Where it hides more than one batch, or becomes anything else, the store is refused, and
    stays as it is."""
    whole, gates = frames_of([EMPTY] * 5)
    os.mkdir(host.store)
    path = f"{host.store}/pushes"
    for at, value in [(gate, value) for gate in gates for value in (1, 2, 127, 128, 254)]:
        turned = bytearray(whole)
        turned[at] = value
        with open(path, "wb") as file:
            file.write(turned)
        status, _, said = host.run("host", "--store", host.store, "--listen", "127.0.0.1:0")
        want(f"gate {value}", (status, f"{path}: a store that is not read: damage" in said), (3, True))
        with open(path, "rb") as file:
            want("the file", file.read(), bytes(turned))
    most = [EMPTY, bytes(2 ** 24 - 34), EMPTY]
    for bundles, again in (([EMPTY] * 4, 0), ([EMPTY] * 4, 0), ([ROOT_PUSH] * 4, 2), (most, 3)):
        whole, gates = frames_of([EMPTY] + bundles)
        turned = bytearray(whole)
        turned[gates[1]] = 0
        with open(path, "wb") as file:
            file.write(turned)
        want("it is served", host.start(), (1, 0))
        name = "pushes.tail-1" + (f".{again}" if again else "")
        size = len(whole) - gates[1]
        want("what is said", host.kept, [
            f"hg_pushd: {path}: 1 pushes are whole; {size} bytes behind them are kept in {host.store}/{name}\n"])
        host.kill()
        want("what is kept", files_in(host.store)[name], bytes(turned[gates[1]:]))
        with open(path, "rb") as file:
            want("the store", file.read(), whole[:gates[1]] + b"\0")
    for bundles in ([EMPTY] * 70, [EMPTY, EMPTY, bytes(2 ** 24 - 33), EMPTY]):
        whole, gates = frames_of(bundles)
        turned = bytearray(whole)
        turned[gates[1]] = 0
        with open(path, "wb") as file:
            file.write(turned)
        before = files_in(host.store)
        status, _, said = host.run("host", "--store", host.store, "--listen", "127.0.0.1:0")
        want(f"more than a batch: {said}", (status, f"{path}: " in said and "`hg_pushd cut`" in said), (3, True))
        with open(path, "rb") as file:
            want("the file", file.read(), bytes(turned))
        want("the other files", files_in(host.store), before)


@case
def a_store_that_another_changed(host):
    """While it is served, the file gets a second name, or grows, or loses its name: the next push is not answered, and
    the server ends."""
    path = f"{host.store}/pushes"
    for change in (lambda: os.link(path, f"{host.folder}/other"), lambda: os.unlink(path),
                   lambda: os.truncate(path, 10_000)):
        host.start()
        host.push(EMPTY)
        change()
        try:
            told = host.push(EMPTY)
        except (OSError, ValueError, IndexError, Wrong):
            told = None
        want("the push", told, None)
        want("status", host.process.wait(30), 3)
        want("the line", "hg_pushd: the store was changed by another\n" in host.process.stderr.read().decode(), True)
        host.process.stderr.close()
        host.process = None
        for name in (path, f"{host.folder}/other"):
            if os.path.exists(name):
                os.unlink(name)


@case
def a_store_behind_a_link(host):
    """A link is not followed to a store, nor to the file in which a new one is made."""
    host.start()
    host.push(EMPTY)
    host.kill()
    path, other = f"{host.store}/pushes", f"{host.folder}/other"
    os.rename(path, other)
    os.symlink(other, path)
    with open(other, "rb") as file:
        before = file.read()
    for words in (("host", "--listen", "127.0.0.1:0"), ("report",), ("log",)):
        want(f"status of {words[0]}", host.run(*words, "--store", host.store)[0], 3)
    os.unlink(path)
    os.symlink(other, f"{path}.new")
    want("a new store", host.start(), (0, 0))
    host.kill()
    with open(other, "rb") as file:
        want("what the link led to", file.read(), before)
    want("the folder", sorted(os.listdir(host.store)), ["pushes"])


@case
def a_record_that_does_not_run(host):
    """A store with a push that is not done when it is run again, and with one that is no bundle, is not served."""
    host.start()
    host.push(ROOT_PUSH)
    host.kill()
    path = f"{host.store}/pushes"
    with open(path, "rb") as file:
        head = file.read(54)
    raced = bundle(CAPS, (b"CHECK:HEADS", (), b"\1" * 20))
    for second, why in ((raced, "the push of record 1 is not done"), (ROOT_PUSH[:-1], "record 1 is no bundle")):
        digest, made = hashlib.sha1(head).digest(), head
        for it in (ROOT_PUSH, second):
            label = len(it).to_bytes(4, "big") + bytes(9)
            digest = hashlib.sha1(digest + label + hashlib.sha1(it).digest()).digest()
            made += b"\xff" + label + digest + it
        with open(path, "wb") as file:
            file.write(made + b"\0")
        status, _, said = host.run("host", "--store", host.store, "--listen", "127.0.0.1:0")
        want(f"what is said, {why}", (status, said), (3, f"hg_pushd: {path}: damage: {why}\n"))
        with open(path, "rb") as file:
            want("the file", file.read(), made + b"\0")


@case
def a_store_that_fails(host):
    """The file may not grow beyond 600 bytes: what does not fit is not answered, and that is the end."""
    soft, hard = resource.getrlimit(resource.RLIMIT_FSIZE)
    resource.setrlimit(resource.RLIMIT_FSIZE, (600, hard))
    try:
        host.start(ignores_signals=True)
    finally:
        resource.setrlimit(resource.RLIMIT_FSIZE, (soft, hard))
    done = 0
    with host.connect() as other:
        other.sendall(b"GET /?cmd=heads HT")
        while done < 100:
            try:
                want("a reply", host.push(EMPTY)[2], EMPTY_REPLY)
                done += 1
            except (Wrong, ConnectionError):
                break
        want("its status", host.process.wait(10), 3)
        want("another connection", other.recv(100), b"")
    want("what it says", host.process.stderr.read(), b"hg_pushd: the store failed\n")
    host.kill()
    want("the first are stored", 0 < done < 100, True)
    want("all that were told as done, and one more at most", host.start()[0] in (done, done + 1), True)


REFUSED = bundle((b"CHECK:HEADS", (), bytes(19) + b"\x01"))


def fail_writes(host):
    """From now on each write of the server fails, as where another machine took the store over."""
    resource.prlimit(host.process.pid, resource.RLIMIT_FSIZE, (0, 0))


def is_answered(ask):
    try:
        return ask()[0] == 200
    except (Wrong, ConnectionError):
        return False


@case
def answers_of_a_server_that_lost_its_store(host):
    """Its writes fail from a moment on. With --shared nothing that rests on the repository is answered after that: not
    a command that reads, nor the report, nor a push that is refused; and the process ends. Without, all of these are."""
    asked = [lambda: host.ask("/?cmd=heads"), lambda: host.ask("/?cmd=listkeys&namespace=bookmarks"),
             lambda: host.ask("/?cmd=batch", fields=("x-hgarg-1: cmds=heads+",)), lambda: host.ask("/report"),
             lambda: host.push(REFUSED)]
    host.start(ignores_signals=True)
    want("a push", host.push(EMPTY)[2], EMPTY_REPLY)
    fail_writes(host)
    want("answers that need no write", [is_answered(ask) for ask in asked], [True] * len(asked))
    host.kill()
    for ask in asked:
        host.start("--shared", ignores_signals=True)
        want("an answer before", is_answered(ask), True)
        fail_writes(host)
        want("an answer after", is_answered(ask), False)
        want("its status", host.process.wait(10), 3)
        want("what it says", host.process.stderr.read(), b"hg_pushd: the store failed\n")
        host.kill()


@case
def where_others_reach_it(host):
    """In a network of its own, which leads nowhere, it listens everywhere, and says what it does not know."""
    words = ["unshare", "--net", PROGRAM, "host", "--store", host.store, "--listen", "0.0.0.0:0"]
    process = subprocess.Popen(words, stdin=subprocess.DEVNULL, stderr=subprocess.PIPE)
    try:
        said = process.stderr.readline().decode()
        if "unshare" in said:
            print("    a network of its own is not to be had here: it did not listen everywhere")
            return
        want("the first line", bool(re.fullmatch(r"hg_pushd: listening on http://0\.0\.0\.0:\d+/, 0 .*\n", said)), True)
        want("the second", process.stderr.readline(),
             b"hg_pushd: it knows no names, passwords or TLS: a proxy has to bring them\n")
    finally:
        process.kill()
        process.wait()
        process.stderr.close()


# ---- by Mercurial

def is_what_the_client_has(host, client):
    row = "{node} {ifeq(phase, 'public', 0, ifeq(phase, 'draft', 1, 2))}\\n"
    has = sorted(host.hg("log", "--hidden", "-T", row, cwd=client)[1].split("\n"))
    told = host.report().splitlines()
    want("changesets", sorted([" ".join(it.split()[2:4]) for it in told if it[0] == "C"] + [""]), has)
    marks = host.hg("bookmarks", "-T", "{node} {bookmark}\\n", cwd=client)[1].split("\n")
    want("bookmarks", [unquote(" ".join(it.split()[1:3])) for it in told if it[0] == "B"] + [""],
         marks if marks != ["no bookmarks set", ""] else [""])


def commit(host, client, name, text, *words):
    with open(f"{client}/{name}", "a", encoding="utf-8") as file:
        file.write(text)
    want("commit", host.hg("commit", "-A", "-m", text, *words, cwd=client)[0], 0)


@with_hg
def an_unmodified_hg_pushes(host):
    host.start()
    client = f"{host.folder}/client"
    host.hg("init", client)

    def push(status, *words):
        got, said = host.hg("push", *words, host.url(), cwd=client)
        want(f"push {words}: {said}", got, status)

    commit(host, client, "f", "first")
    commit(host, client, "f", "second")
    push(0)
    is_what_the_client_has(host, client)
    push(1)
    commit(host, client, "g", "third")
    host.hg("bookmark", "fix", cwd=client)
    push(0, "-B", "fix")
    is_what_the_client_has(host, client)
    commit(host, client, "g", "amended", "--amend")
    push(0)
    is_what_the_client_has(host, client)
    want("markers", sum(it.startswith("O ") for it in host.report().splitlines()), 1)
    host.hg("phase", "-p", "0", cwd=client)
    push(1)
    is_what_the_client_has(host, client)
    host.hg("branch", "name with ; & ü", cwd=client)
    commit(host, client, "h", "on a branch")
    push(255)
    push(0, "--new-branch")
    is_what_the_client_has(host, client)
    host.kill()
    host.start()
    is_what_the_client_has(host, client)
    want("id", host.hg("id", host.url(), cwd=client)[0], 0)
    want("outgoing", host.hg("outgoing", host.url(), cwd=client)[0], 1)
    status, said = host.hg("clone", host.url(), f"{host.folder}/other")
    want("a clone is refused", (status, "takes pushes alone" in said), (255, True))
    host.hg("init", f"{host.folder}/third")
    status, said = host.hg("pull", host.url(), cwd=f"{host.folder}/third")
    want("a pull is refused", (status, "takes pushes alone" in said), (255, True))


@with_hg
def a_subrepository_is_not_pushed_into_its_parent(host):
    """It is pushed first, below the path of its parent. The store has nothing of it."""
    host.start("--path", "/one")
    client = f"{host.folder}/client"
    host.hg("init", client)
    host.hg("init", f"{client}/sub")
    commit(host, f"{client}/sub", "f", "of the subrepository")
    with open(f"{client}/.hgsub", "w", encoding="utf-8") as file:
        file.write("sub = sub\n")
    commit(host, client, "g", "of the parent")
    status, said = host.hg("push", f"{host.url()}one", cwd=client)
    want(f"push: {said}", (status, "404" in said), (255, True))
    want("report", host.ask("/one/report")[2], b"")


@with_hg
def a_push_that_publishes(host):
    host.start()
    client = f"{host.folder}/client"
    host.hg("init", client)
    commit(host, client, "f", "first")
    want("draft", host.hg("push", host.url(), cwd=client)[0], 0)
    is_what_the_client_has(host, client)
    commit(host, client, "f", "second")
    want("public", host.hg("push", "--publish", host.url(), cwd=client)[0], 0)
    is_what_the_client_has(host, client)
    want("phases", [it.split()[3] for it in host.report().splitlines() if it[0] == "C"], ["0", "0"])


@with_hg
def a_server_that_publishes(host):
    host.start("--publishing")
    client = f"{host.folder}/client"
    host.hg("init", client)
    commit(host, client, "f", "first")
    commit(host, client, "f", "second")
    want("push", host.hg("push", host.url(), cwd=client)[0], 0)
    is_what_the_client_has(host, client)
    want("phases", [it.split()[3] for it in host.report().splitlines() if it[0] == "C"], ["0", "0"])


@with_hg
def an_existing_repository_is_brought_in(host):
    """2,000 changesets with branches, merges and bookmarks."""
    host.start()
    client = f"{host.folder}/client"
    host.hg("init", client)
    dag = "+600:a +400 *a +500 /2 +300 @other +198"
    want("the repository", host.hg("debugbuilddag", dag, cwd=client)[0], 0)
    for number in (0, 700, 1500):
        host.hg("bookmark", "-r", str(number), f"mark-{number}", cwd=client)
    count = int(host.hg("log", "-T", "{rev}\n", "-r", "tip", cwd=client)[1]) + 1
    want("changesets there", count >= 2000, True)
    status, said = host.hg("push", "-f", "--new-branch", host.url(), cwd=client)
    want(f"push: {said}", status, 0)
    for number in (0, 700, 1500):
        want("bookmark", host.hg("push", "-B", f"mark-{number}", host.url(), cwd=client)[0] in (0, 1), True)
    is_what_the_client_has(host, client)
    host.kill()
    want("at the next start", host.start()[1], count)


@with_hg
def a_repository_is_brought_in_by_pieces(host):
    """40 changesets, three at a time, by examples/import.sh; the server is killed once, the script once, and it is run
    again. Then five more of 300 KB each, of which the server takes some three at a time."""
    host.start()
    client, script = f"{host.folder}/client", f"{os.path.dirname(HERE)}/examples/import.sh"
    host.hg("init", client)
    want("the repository", host.hg("debugbuilddag", "+20:a +10 *a +9 @other", cwd=client)[0], 0)
    for name, rev in (("a b", "5"), ("-B", "6"), ("hidden", "39")):
        host.hg("bookmark", "-r", rev, "--", name, cwd=client)
    host.hg("phase", "-f", "-s", "39", cwd=client)

    def bring(size):
        return subprocess.Popen(["bash", script, client, host.url(), size], env=host.environment,
                                stdout=subprocess.PIPE, stderr=subprocess.PIPE, start_new_session=True)

    def changesets():
        return sum(it.startswith("C ") for it in host.report().splitlines())

    with bring("3") as run:
        want("the first line", run.stdout.readline(), b"3 of 39 changesets\n")
        host.kill()
        said = run.communicate(timeout=120)[1].decode()
    want("it stops", (run.returncode, re.search(r"stopped behind \d+ of 39 changesets, before [0-9a-f]{12};", said) is None),
         (1, False))
    before = host.start()[1]
    want("what was done stays", 3 <= before < 39, True)
    with bring("3") as run:
        want("the first line of the next run", run.stdout.readline(), b"%d of 39 changesets\n" % min(39, before + 3))
        os.killpg(run.pid, signal.SIGKILL)
    before = changesets()
    want("what was told stays", before >= 6, True)
    with bring("3") as run:
        lines, said = run.communicate(timeout=120)
    want(f"the last run: {said}", (run.returncode, lines.splitlines()[0]),
         (0, b"%d of 39 changesets" % min(39, before + 3)))
    want("a secret changeset stays", changesets(), 39)
    want("bookmarks", sorted(it.split()[2] for it in host.report().splitlines() if it.startswith("B ")),
         ["%2DB", "a%20b"])
    host.kill()
    host.start("--memory", "1048576")
    for _ in range(5):
        with open(f"{client}/large", "wb") as file:
            file.write(os.urandom(300_000))
        host.hg("commit", "-A", "-m", "large", cwd=client)
    with bring("10") as run:
        lines, said = run.communicate(timeout=120)
    want(f"larger ones: {said}", (run.returncode, changesets(), len(lines.splitlines()) > 3), (0, 44, True))


@with_hg
def two_clients_race(host):
    host.start()
    first, second = f"{host.folder}/first", f"{host.folder}/second"
    host.hg("init", first)
    commit(host, first, "f", "first")
    host.hg("push", host.url(), cwd=first)
    host.hg("clone", first, second)
    commit(host, first, "f", "one")
    commit(host, second, "g", "other")
    want("the first", host.hg("push", host.url(), cwd=first)[0], 0)
    want("the second", host.hg("push", host.url(), cwd=second)[0], 255)
    want("by force", host.hg("push", "-f", host.url(), cwd=second)[0], 0)
    want("changesets", sum(it.startswith("C ") for it in host.report().splitlines()), 3)


def main():
    names, failed = sys.argv[2:], 0
    if not HG:
        print("hg is not installed: an unmodified Mercurial was not tried.")
    for body, needs_hg in CASES:
        if (names and body.__name__ not in names) or (needs_hg and not HG):
            continue
        with tempfile.TemporaryDirectory(prefix="host-") as folder:
            host = Host(folder)
            try:
                body(host)
                print(f"as wanted: {body.__name__}", flush=True)
            except (Wrong, OSError, subprocess.TimeoutExpired) as why:
                failed += 1
                print(f"FAILED: {body.__name__}: {why}", flush=True)
            finally:
                host.kill()
    return 1 if failed else 0


if __name__ == "__main__":
    sys.exit(main())
