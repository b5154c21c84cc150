"""The clients of tests/cluster.py: who pushes and reads beside a drill, and what they were told."""
import http.client
import os
import random
import threading
import time
import urllib.parse

from ceph_cluster import HUB, MACHINES, PATIENCE, Network, Wrong
from history import Report, Told, pushed, sign_of

# What runs the commands of those who push and pull by hg: CLIENT of the environment may be chg, which takes a quarter
# of the time.
CLIENT = os.environ.get("CLIENT", "hg")
# How long somebody who asks by hand waits for an answer. Those who push at a machine, and one who reads there, wait
# until a holder that stood still has gone on.
SOON, LATE = 5, 170
# how many bookmarks all want
RACES = 3


class Line:
    """A connection that is made anew where it fails."""

    def __init__(self, address, machine=None, patience=SOON):
        self.address, self.patience, self.line = address, patience, None
        if machine:
            Network.enter(machine)

    def ask(self, method, words, who=None, path=""):
        """The status of an answer, and its body; none where there is none."""
        fields = {"content-type": "application/mercurial-0.1"} if method == "POST" else {}
        if who:
            fields["x-user"] = who
        try:
            if self.line is None:
                self.line = http.client.HTTPConnection(self.address, timeout=self.patience)
            target = f"/{path}" + (f"?{urllib.parse.urlencode(words)}" if words else "")
            self.line.request(method, target, b"" if method == "POST" else None, fields)
            answer = self.line.getresponse()
            return answer.status, answer.read()
        except (OSError, http.client.HTTPException):
            self.line.close()
            self.line = None
            return None, b""


class Push:
    """A push: by whom, when and how often it was sent, and when and how it was answered."""

    def __init__(self, by):
        self.by, self.began, self.answered, self.is_set, self.times = by, time.monotonic(), None, None, 1


class Clients:
    """All who push and read, in threads, and what they were told."""

    def __init__(self, trial):
        self.trial, self.lock, self.is_over, self.threads = trial, threading.Lock(), False, []
        self.pushes, self.latest, self.reads, self.counts = {}, None, [], {}
        self.faults = []

    def start(self, does, *words):
        def work():
            try:
                does(*words)
            except Exception as fault:  # pylint: disable=broad-except
                self.faults.append(f"{does.__name__} {words}: {fault!r}")
        self.threads.append(threading.Thread(target=work, daemon=True))
        self.threads[-1].start()

    def end(self):
        self.is_over = True
        for thread in self.threads:
            thread.join(PATIENCE)

    def count(self, what):
        with self.lock:
            self.counts[what] = self.counts.get(what, 0) + 1

    def sent(self, token, by):
        with self.lock:
            self.pushes[token] = Push(by)

    def done(self, tokens, is_set=None):
        with self.lock:
            for token in tokens:
                self.pushes[token].answered, self.pushes[token].is_set = time.monotonic(), is_set

    def is_quiet(self, machine, pause):
        """Whether nobody is to push at that machine; then it waits."""
        if machine and machine == self.trial.quiet:
            time.sleep(pause)
            return True
        return False

    def set_key(self, line, by, token, key, old, new):
        """Whether a bookmark was set; none where there is no answer."""
        self.sent(token, by)
        words = {"cmd": "pushkey", "namespace": "bookmarks", "key": key, "old": old, "new": new}
        status, told = line.ask("POST", words, token)
        if status != 200 or told[:1] not in (b"0", b"1"):
            self.count(f"a key by {'nginx' if by == 'front' else 'a machine'}: {status or 'no answer'}")
            return None
        self.done([token], told[:1] == b"1")
        return told[:1] == b"1"

    def push_keys(self, name, address, machine, pause, patience):
        """Sets bookmarks, one after the other, each of a name of its own."""
        line, number = Line(address, machine, patience), 0
        while not self.is_over:
            if self.is_quiet(machine, pause):
                continue
            number += 1
            token = f"push-{name}-{number}."
            if self.set_key(line, machine or "front", token, token, "", self.trial.nodes[0]):
                with self.lock:
                    self.latest = token
            time.sleep(pause)

    def race(self, name, address, machine, pause, patience):
        """Sets bookmarks that others set too, each from what was told of it last."""
        line, number, known, chance = Line(address, machine, patience), 0, {}, random.Random(name)
        while not self.is_over:
            if self.is_quiet(machine, pause):
                continue
            number += 1
            key = f"race-{chance.randrange(RACES)}"
            old = known.get(key, "")
            new = chance.choice([it for it in self.trial.nodes if it != old])
            if self.set_key(line, machine or "front", f"push-{name}-{number}.", key, old, new):
                known[key] = new
            else:
                known = self.marks(line, machine or "front") or known
            time.sleep(pause)

    def marks(self, line, by):
        """All bookmarks; none where there is no answer."""
        began = time.monotonic()
        status, told = line.ask("GET", {"cmd": "listkeys", "namespace": "bookmarks"})
        if status != 200:
            return None
        marks = dict(it.split("\t") for it in told.decode().splitlines())
        self.noted("bookmarks", by, began, sign_of(marks))
        return marks

    def noted(self, what, by, began, told):
        with self.lock:
            self.reads.append((what, by, began, time.monotonic(), told))

    def read(self, address, machine, pause):
        """Looks up the bookmark that was answered last."""
        line = Line(address, machine)
        while not self.is_over:
            wanted, began = self.latest, time.monotonic()
            if wanted:
                status, told = line.ask("GET", {"cmd": "lookup", "key": wanted})
                if status == 200 and told[:1] in (b"0", b"1"):
                    self.noted("bookmark", machine or "front", began, (wanted, told[:1] == b"1"))
            time.sleep(pause)

    def read_all(self, address, machine, pause):
        line = Line(address, machine)
        while not self.is_over:
            self.marks(line, machine or "front")
            time.sleep(pause)

    def report(self, address, machine, pause):
        line = Line(address, machine, LATE if machine else SOON)
        while not self.is_over:
            began = time.monotonic()
            status, told = line.ask("GET", {}, path="report")
            if status == 200:
                self.noted("report", machine or "front", began, Report(told.decode()))
            time.sleep(pause)

    def work(self, name):
        """Commits, pushes and pulls by the command hg. A push that got no answer may be there or not: the next one
        finds out."""
        number, waiting, own = 0, [], f"push-{name}-"
        with open(f"{self.trial.room}/{name}/.hg/hgrc", "w", encoding="ascii") as file:
            file.write(f"[paths]\ndefault = http://{MACHINES['three']}:8002/\ndefault:pushurl = http://{HUB}:8080/\n")
        while not self.is_over:
            number += 1
            token = f"{own}{number}."
            with open(f"{self.trial.room}/{name}/{name}", "a", encoding="ascii") as file:
                file.write(f"{number} {'x' * 1000 * (number % 7)}\n")
            self.trial.hg("-R", name, "commit", "-A", "-m", token)
            for it in waiting:
                self.pushes[it].times += 1
            self.sent(token, "front")
            waiting.append(token)
            if self.tried(name, "push", "-f"):
                self.done(waiting)
                waiting = []
            began = time.monotonic()
            if self.tried(name, "pull"):
                self.pulled(name, began, own)
            time.sleep(0.3)

    def pulled(self, name, began, own):
        """Notes which changesets of others are there after a pull."""
        ended = time.monotonic()
        tokens = set(self.trial.hg("-R", name, "log", "-r", "all()", "-T", "{desc}\n").split())
        with self.lock:
            self.reads.append(("pull", name, began, ended, (own, {it for it in tokens if not it.startswith(own)})))

    def tried(self, name, *words):
        """Whether a command of hg was done within the time that one waits."""
        try:
            self.trial.hg("-R", name, *words, seconds=20)
        except Wrong as wrong:
            self.count(f"hg {words[0]} not done")
            with self.lock, open(f"{self.trial.room}/log/clients.out", "a", encoding="utf-8") as log:
                log.write(f"{time.monotonic():.1f} {wrong}\n")
            return False
        self.count(f"hg {words[0]}")
        return True

    def told(self, moments):
        """All that was told, with the moments that it fits."""
        found = []
        for token, push in self.pushes.items():
            place = moments.place(token)
            if place is not None:
                found.append(pushed(token, push.by, push.began, push.answered, place))
        for what, by, began, ended, told in self.reads:
            if what == "bookmark":
                place = moments.place(told[0])
                # where an answered push is not there that is told already
                place = moments.last if place is None else place
                fits = [(min(place + 1, moments.last), moments.last)] if told[1] else [(0, place)]
            elif what == "bookmarks":
                fits = moments.of_marks(told)
            elif what == "report":
                fits = moments.of_report(told)
            else:
                own, tokens = told
                fits = moments.of_pull(tokens, lambda it, own=own: it.startswith("push-hg") and not it.startswith(own))
            found.append(Told(what, by, began, ended, fits))
        return found
