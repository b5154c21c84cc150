"""A server with a repository: the plain one, and the program. Each answers events, which may change it, and texts."""
import collections
import re
import socket
import tempfile
import threading

from bundles import CAPS, bundle
from host import Host, answer, request
from parts import aborted, push
from pushes import written
from repository import Repository, branch_of, heads, phase_of, text_of
from rules import CASES, rule, seen
from texts import TEXTS, batch, form, numbers, report

COMMAND, REFUSED = "application/mercurial-0.1", "application/hg-error"
POSTED = f"content-type: {COMMAND}"
FORCED = "x-hgarg-1: heads=666f726365"
REASONS = CASES["aborted"]
PHASES, SHOWN = ("public", "draft", "secret"), ("changesets", "heads", "bookmarks", "markers")
KEY_WORDS = ("namespace", "key", "old", "new")


class Plain:
    """A repository, its pushes, and how many ended in which way since the start."""

    def __init__(self, publishing):
        self.repo, self.pushed, self.ended = Repository(publishing), [], collections.Counter()

    def push(self, data):
        """The reply."""
        self.repo, reason, told = push(self.repo, data)
        self.pushed.append((data, reason))
        self.ended[reason] += 1
        return told

    def done(self):
        return [data for data, reason in self.pushed if reason is None]

    def key(self, words):
        """`1` where the reply to the push that is made of it says so. What does not fit a part is not pushed."""
        if max(map(len, words)) > 255:
            seen("pushkey over HTTP: too long")
            return b"0\n"
        params = tuple((name.encode(), value) for name, value in zip(KEY_WORDS, words))
        return b"1\n" if b"return1" in self.push(bundle(CAPS, (b"pushkey", params, b""))) else b"0\n"

    def event(self, kind, value):
        """The type and the body of an answer. No body stands for one line of any text. A push that is not forced is
        refused, and changes nothing."""
        seen(f"event: {kind}")
        if kind == "not forced":
            return REFUSED, None
        return COMMAND, self.key(value) if kind == "key" else self.push(written(value))

    def text(self, command, query, fields):
        """The answer to a command that reads: the words of the query, and those of the fields joined."""
        words = {**form(query), **form(b"".join(fields))}
        told = batch(self.repo, words) if command == b"batch" else TEXTS[command](self.repo, words)
        return (COMMAND, told) if told is not None else (REFUSED, None)

    def state(self, event, questions):
        """The answers to an event, where there is one, and to questions behind it, and the pages."""
        told = self.event(*event) if event else None
        return told, [self.text(*it) for it in questions], self.pages()

    def rows(self):
        """What the page shows of each head."""
        repo = self.repo
        return [(it.hex(), PHASES[phase_of(repo, it)], plain_name(branch_of(text_of(repo, it)).decode("latin-1")))
                for it in heads(repo) if repo.rows]

    def cut_off(self, data):
        """A body that ends before its length is a connection that was lost: no push comes of it."""
        seen("event: cut off")
        return COMMAND, bundle(aborted("connection lost", "connection lost").part)

    def pages(self):
        """The report, and what the page and the counters show."""
        counted, ended = numbers(self.repo), {it: self.ended[it] for it in REASONS}
        return {"the report": report(self.repo, range(len(self.done()))),
                "the page": {**counted, "rows": self.rows()},
                "the counters": {**counted, **ended, "done": self.ended[None]}}


def plain_name(name):
    """A name that is shown as it is. What becomes of others on the page is not said here."""
    return name if re.fullmatch("[a-z]{1,20}", name) else "another"


@rule
def read_counters(told):
    """What the counters show."""
    def value(name):
        return int(re.search(rf"^hg_pushd_{name} (\d+)$", told, re.M)[1])
    return {**{it: value(f'phase_changesets{{phase="{it}"}}') for it in PHASES}, **{it: value(it) for it in SHOWN},
            **{it: value(f'pushes_aborted_total{{reason="{it}"}}') for it in REASONS}, "done": value("pushes_done_total")}


@rule
def read_page(told):
    """What the page shows, of each head its id, its phase and its branch."""
    def value(name):
        return int(re.search(rf"<b>(\d+)(?:</b>| ){name}<", told)[1])
    rows = re.findall(r"<tr><td><code>(\w+)<i>(\w+)</i></code><td class=p\d>(\w+)<td><bdi>(.*?)</bdi>", told)
    return {**{it: value(it) for it in (*PHASES, *SHOWN)},
            "rows": sorted((first + rest, phase, plain_name(branch)) for first, rest, phase, branch in rows)}


class Program:
    """The program, which serves a store in a folder of its own, asked over one connection."""

    def __init__(self, publishing):
        self.folder = tempfile.TemporaryDirectory(prefix="plain-")
        self.host, self.words = Host(self.folder.name), ["--publishing"] * publishing
        self.line, self.told = None, None

    def __enter__(self):
        self.start()
        return self

    def __exit__(self, *_):
        self.stop()
        self.folder.cleanup()

    def start(self):
        self.host.start(*self.words)
        self.line = self.host.connect()
        self.line.setsockopt(socket.IPPROTO_TCP, socket.TCP_NODELAY, 1)
        self.told = self.line.makefile("rb")

    def stop(self):
        if self.line:
            self.told.close()
            self.line.close()
        self.host.kill()

    def ask(self, requests):
        """The answers to requests that are all sent before the first is awaited."""
        sender = threading.Thread(target=self.line.sendall, args=(b"".join(requests),))
        sender.start()
        told = [answer(self.told) for _ in requests]
        sender.join()
        return told

    def states(self, asked_for):
        """For each event, or none, and its questions: the answers, and the pages."""
        requests = []
        for event, questions in asked_for:
            requests += [changing(*event)] if event else []
            requests += [asked(*it) for it in questions] + [request(it, None, ()) for it in ("/report", "/", "/metrics")]
        told = iter(self.ask(requests))
        for event, questions in asked_for:
            answered = plainly(next(told)) if event else None
            texts = [plainly(next(told)) for _ in questions]
            reported, page, counters = (next(told)[2] for _ in range(3))
            yield answered, texts, {"the report": reported, "the page": read_page(page.decode()),
                                    "the counters": read_counters(counters.decode())}

    def cut_off(self, data):
        """The answer to a body that ends before its length, on a connection of its own."""
        with self.host.connect() as line:
            line.sendall(request("/?cmd=unbundle", data, (POSTED, FORCED))[:-5])
            line.shutdown(socket.SHUT_WR)
            with line.makefile("rb") as told:
                return plainly(answer(told))


def changing(kind, value):
    """The request of an event."""
    if kind == "key":
        words = "&".join(f"{name}={''.join(f'%{it:02X}' for it in word)}" for name, word in zip(KEY_WORDS, value))
        return request("/?cmd=pushkey", b"", (POSTED, f"x-hgarg-1: {words}"))
    return request("/?cmd=unbundle", written(value), (POSTED, FORCED if kind == "push" else "x-hgarg-1: heads=00"))


def asked(command, query, fields):
    """The request of a question."""
    numbered = [f"x-hgarg-{place + 1}: {it.decode()}" for place, it in enumerate(fields)]
    return request(f"/?cmd={command.decode()}{query.decode()}", None, numbered)


def plainly(told):
    """The type and the body of an answer with the status 200; no body where it is one line that refuses."""
    status, kind, body = told
    if status != 200:
        return status, body
    return (kind, None) if kind == REFUSED and b"\n" not in body.rstrip(b"\n") else (kind, body)
