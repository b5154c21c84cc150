#!/usr/bin/env python3
"""A day of random pushes by three real clients, beside hostile ones, and a look at all at each of so many moments.

    python3 tests/day.py PROGRAM [--minutes N] [--moments M] [--seed S] [--tell]

Three clients (tests/clients.py) push to `host`, which asks the hook before each push, and pull from hgweb over the
mirror. Beside them two others push what would stop or mislead the mirror (tests/hook.py), whole, cut and changed at
random, and send requests of no form to both servers. Every few seconds the mirror, the push server or the hook is
killed and started again. At each of M moments (100, or as many as the time is enough for) a fresh clone is made:
`hg verify` finds nothing in it and in the mirror, and it has what the server had answered before it began: changesets
that are not obsolete, what is public, bookmarks. All the time hgweb is asked for what the server has just answered. In
the end the mirror has what the server reports, line by line. N is 1440 if left out. With --tell each moment has a line.
It needs the command hg, and ends with a summary and a status.
"""
import argparse
import contextlib
import http.client
import json
import os
import random
import shutil
import socket
import subprocess
import sys
import tempfile
import threading
import time
import urllib.error
import urllib.parse
import urllib.request

import clients
import history
from clients import TOP, Client, Place

UNBUNDLE = "/?cmd=unbundle&heads=666f726365"
# of how many changesets hgweb is asked whether it knows them
LATEST = 500
# how long a pull waits for the mirror on a busy machine, in seconds
PATIENCE = 100


class Day(Place):
    """A push server with its hook, the mirror and hgweb; each may be killed and started again."""

    def __init__(self, folder, program):
        super().__init__(folder, program, False)
        self.running, self.lock, self.faults, self.tells = {}, threading.Lock(), [], False

    def serve(self):
        self.make("mirrored")
        with open(f"{self.folder}/mirrored/.hg/hgrc", "a", encoding="utf-8") as file:
            file.write(f"[mirror]\nstore = {self.folder}/store\npatience = {PATIENCE}\n")
        self.ports = {name: free_port() for name in ("hook", "host", "hgweb")}
        self.push, self.pull = self.ports["host"], self.ports["hgweb"]
        for name in ("hook", "host"):
            self.again(name)
        # the store is there when the mirror looks for it
        self.report()
        for name in ("mirror", "hgweb"):
            self.again(name)

    def words_of(self, name):
        hg = ["hg", "-R", "mirrored"]
        return {
            "mirror": [*hg, "mirror", "--store", "store"],
            "host": [self.program, "host", "--store", "store", "--listen", f"127.0.0.1:{self.ports['host']}", "--hook",
                     f"http://127.0.0.1:{self.ports['hook']}/"],
            "hook": [*hg, "--config", f"extensions.hook={TOP}/mirror/hook.py", "hook", "--wait", "100", "--listen",
                     f"127.0.0.1:{self.ports['hook']}"],
            "hgweb": [*hg, "serve", "-a", "127.0.0.1", "-p", str(self.ports["hgweb"])],
        }[name]

    def again(self, name):
        """Kills a process and starts it again. Until then it may not have ended by itself."""
        with self.lock:
            before = self.running.get(name)
            if before is not None:
                if before.poll() is not None:
                    self.faults.append(f"{name} ended by itself: {self.said(name)}")
                    self.is_over = True
                before.kill()
                before.wait()
                self.kills += 1
            self.running[name] = self.begin(name, *self.words_of(name))

    def said(self, name):
        with open(f"{self.folder}/{name}.log", encoding="utf-8", errors="replace") as log:
            return log.read()[-2000:]

    def verify(self, name):
        """What `hg verify` finds in a repository; nothing where it finds nothing. The mirror is not killed meanwhile,
        and has taken back what was half done when it was killed before: until then Mercurial's readers see it."""
        with self.lock if name == "mirrored" else contextlib.nullcontext():
            journal, end = f"{self.folder}/{name}/.hg/store/journal", time.monotonic() + 2 * PATIENCE
            while os.path.exists(journal) and time.monotonic() < end:
                time.sleep(0.02)
            status, said = self.run("hg", "-R", name, "verify")
        return said if status else ""

    def report(self):
        """The report of the server; it is asked until it answers."""
        end = time.monotonic() + 120
        while True:
            try:
                with urllib.request.urlopen(f"http://127.0.0.1:{self.ports['host']}/report", timeout=60) as told:
                    return told.read().decode().splitlines()
            except (urllib.error.URLError, OSError, http.client.HTTPException):
                if time.monotonic() > end:
                    raise
                time.sleep(0.1)

    def end(self):
        for process in self.running.values():
            process.kill()
            process.wait()


def free_port():
    with socket.create_server(("127.0.0.1", 0)) as found:
        return found.getsockname()[1]


class Watcher:
    """Asks hgweb, as soon as the server has told what there is, whether it knows that too."""

    def __init__(self, day):
        self.day, self.asked, self.refused = day, 0, 0

    def known(self, nodes):
        """What hgweb says of each changeset, a 1 where it knows it; nothing where it says that it is behind."""
        words = urllib.parse.urlencode({"cmd": "known", "nodes": " ".join(nodes)})
        url = f"http://127.0.0.1:{self.day.ports['hgweb']}/?{words}"
        with urllib.request.urlopen(url, timeout=2 * PATIENCE) as told:
            return None if told.headers["content-type"] == "application/hg-error" else told.read().decode()

    def look(self):
        before = rows_of(self.day.report())[0]
        nodes = list(before)[-LATEST:]
        told = self.known(nodes)
        after = rows_of(self.day.report())[0]
        self.asked, self.refused = self.asked + 1, self.refused + (told is None)
        missing = [node for node, is_known in zip(nodes, told or "") if is_known == "0" and node in after]
        if missing:
            self.day.faults.append(f"hgweb did not know {missing[:5]}, which had been pushed before it was asked")

    def work(self):
        while not self.day.is_over:
            self.look()
            time.sleep(0.2)


class Hostile:
    """Somebody who pushes by hand, and asks what nobody asks."""

    def __init__(self, day, rows, seed):
        self.day, self.rows, self.random = day, rows, random.Random(seed)
        self.pushed = self.done = self.asked = 0

    def push(self, data):
        """Whether a push was done."""
        asked = urllib.request.Request(f"http://127.0.0.1:{self.day.ports['host']}{UNBUNDLE}", data,
                                       {"content-type": "application/mercurial-0.1"})
        try:
            with urllib.request.urlopen(asked, timeout=200) as answer:
                told = answer.read()
        except (urllib.error.URLError, OSError, http.client.HTTPException):
            return False
        self.pushed += 1
        is_done = told[:4] == b"HG20" and b"error:" not in told.lower()
        self.done += is_done
        return is_done

    def changed(self, data):
        """A push as it is, cut, with bytes changed, or with a piece of another in it."""
        kind, at = self.random.randrange(4), self.random.randrange(len(data))
        if kind == 1:
            return data[:at]
        if kind == 2:
            return data[:at] + self.random.randbytes(self.random.randrange(1, 4)) + data[at + 1:]
        if kind == 3:
            other = self.random.choice(self.rows)
            return data[:at] + other[self.random.randrange(len(other)):]
        return data

    def ask(self):
        """A request of no form to either server, which is not waited for."""
        port = self.day.ports[self.random.choice(["host", "hgweb"])]
        command = self.random.choice(["getbundle", "batch", "lookup", "listkeys", "unbundle", "pushkey", "heads",
                                      "known", "changegroup", "branchmap", "stream_out", "clonebundles", "x"])
        words = {self.random.choice(["heads", "common", "key", "namespace", "nodes", "cmds", "roots", "bundlecaps"]):
                 self.random.choice(["", "0" * 40, "7" * 40, "zz", "phases", "HG20", "heads ;lookup key=t", "tip"])
                 for _ in range(2)}
        target = f"/?cmd={command}&{urllib.parse.urlencode(words)}"
        body = self.random.randbytes(self.random.randrange(100))
        size = self.random.choice([len(body), len(body) + 1000, 1 << 40])
        method = self.random.choice(["GET", "POST", "PUT"])
        head = f"{method} {target} HTTP/1.1\r\nhost: x\r\ncontent-length: {size}\r\n\r\n"
        try:
            with socket.create_connection(("127.0.0.1", port), timeout=1) as connection:
                connection.sendall(head.encode() + body)
                connection.recv(1000)
        except OSError:
            pass
        self.asked += 1

    def work(self):
        while not self.day.is_over:
            if self.random.random() < 0.6:
                self.push(self.changed(self.random.choice(self.rows)))
            else:
                self.ask()
            time.sleep(self.random.random())


def work(client):
    while not (client.fault or client.place.is_over):
        client.act()


def guarded(day, does, *words):
    """The same; what ends it otherwise is a fault."""
    def run():
        try:
            does(*words)
        except Exception as fault:  # pylint: disable=broad-except
            day.faults.append(f"{does.__qualname__}: {fault!r}")
    return threading.Thread(target=run)


def kill_some(day, choose):
    """Kills one of the three every few seconds."""
    while not day.is_over:
        time.sleep(choose.uniform(5, 20))
        day.again(choose.choices(["mirror", "host", "hook"], [6, 2, 1])[0])


def rows_of(report):
    """Of the changesets that are not obsolete the phase, and the bookmarks, by the lines of a report."""
    changesets = {line.split()[2]: line.split()[3] for line in report if line[:2] == "C " and line.split()[4] == "0"}
    return changesets, {line.split()[2]: line.split()[1] for line in report if line[:2] == "B "}


def set_between(day, first, last):
    """What each bookmark was asked to be on by the pushes from one place to another."""
    words = [day.program, "log", "--store", f"{day.folder}/store", "--from", str(first), "--canonical"]
    told = subprocess.run(words, stdin=subprocess.DEVNULL, stdout=subprocess.PIPE, check=True).stdout
    found = {}
    for bundle in list(history.bundles_in(told))[:last - first]:
        for name, node in history.bookmarks_of(bundle):
            found.setdefault(clients.escaped(name), set()).add(node)
    return found


def lacks(before, after, clone, moved):
    """What a clone lacks of what was there before it, and still is behind it. A bookmark may also be where a push put
    it meanwhile. One on an obsolete changeset may be missing: a clone of Mercurial's own leaves it out too."""
    (was, marks), (still, marks_still), (has, marks_have) = before, after, clone
    return ([node for node in was if node in still and node not in has]
            + [node for node, phase in was.items() if phase == "0" and has.get(node, "0") != "0"]
            + [f"the bookmark {mark} on {node}: it is on {marks_have.get(mark)}" for mark, node in marks.items()
               if node in was and node in still and marks_still.get(mark) == node and marks_have.get(mark) != node
               and marks_have.get(mark, "") not in moved.get(mark, ())])


def look(day, number):
    """A moment: a fresh clone, compared and verified, and the mirror verified; how many changesets it had. Nothing
    where the clone was refused."""
    name, report = f"moment{number}", day.report()
    status, said = day.run("hg", "clone", "-q", "-U", f"http://127.0.0.1:{day.ports['hgweb']}/", name)
    if status:
        print(f"moment {number}: no clone: {said[-200:]}", flush=True)
        return None
    try:
        later, clone = day.report(), rows_of(clients.lines_of(day, name))
        first, last = (sum(line.startswith("J ") for line in it) for it in (report, later))
        missing = lacks(rows_of(report), rows_of(later), clone, set_between(day, first, last))
        if missing:
            day.faults.append(f"moment {number}: a clone made between {first} and {last} pushes lacks {missing[:5]}")
        for repository in (name, "mirrored"):
            if said := day.verify(repository):
                day.faults.append(f"moment {number}: verify of {repository}: {said[-1000:]}")
        return len(clone[0])
    finally:
        if not day.faults:
            shutil.rmtree(f"{day.folder}/{name}", ignore_errors=True)


def look_at_moments(day, minutes, moments):
    """The moments, as evenly as the time allows; of how many there was a clone, and the changesets of the last."""
    start, had, last = time.monotonic(), 0, 0
    for number in range(moments):
        wait = start + 60 * minutes * (number + 1) / moments - time.monotonic()
        if wait < -60 * minutes / moments:
            continue
        time.sleep(max(0, wait))
        if day.is_over or day.faults:
            break
        began, found = time.monotonic(), look(day, number)
        had, last = had + (found is not None), found or last
        if day.tells and found is not None:
            print(f"moment {number}: {found} changesets, {day.count()} pushes are mirrored, {day.kills} kills; it took "
                  f"{time.monotonic() - began:.0f} s, load {os.getloadavg()[0]:.0f}", flush=True)
    return had, last


def start_all(day, seed):
    """The clients and the others at their work."""
    attacks = f"{day.folder}/attacks.json"
    subprocess.run([sys.executable, f"{TOP}/tests/hook.py", "--write", attacks], check=True)
    with open(attacks, encoding="utf-8") as file:
        found = json.load(file)
    rows = [bytes.fromhex(data) for _, _, data in found["rows"]]
    hostile = [Hostile(day, rows, f"{seed}.{number}") for number in range(2)]
    for data in found["before"]:
        if not hostile[0].push(bytes.fromhex(data)):
            sys.exit(f"what the hostile pushes build on is refused\n{day.said('hook')}")
    people = [Client(day, number, seed) for number in range(clients.CLIENTS)]
    watcher = Watcher(day)
    threads = [guarded(day, work, it) for it in people] + [guarded(day, it.work) for it in (*hostile, watcher)]
    threads.append(guarded(day, kill_some, day, random.Random(seed)))
    for it in threads:
        it.start()
    return people, hostile, watcher, threads


def settle(day):
    """Waits for the mirror, and compares it with what the server reports."""
    done = sum(line.startswith("J ") for line in day.run(day.program, "report", "--store", "store")[1].splitlines())
    end = time.monotonic() + 300
    while day.count() < done and time.monotonic() < end:
        time.sleep(0.1)
    if day.count() != done:
        day.faults.append(f"the mirror has {day.count()} pushes of {done}: {day.said('mirror')}")
    elif not clients.compare(day, "mirrored"):
        day.faults.append("the mirror and the report are not the same")
    return done


def main(words):
    if not shutil.which("hg"):
        print("day.py: skipped, the command hg is not installed")
        return 0
    parser = argparse.ArgumentParser(usage=__doc__)
    parser.add_argument("program")
    parser.add_argument("--minutes", type=float, default=1440)
    parser.add_argument("--moments", type=int, default=100)
    parser.add_argument("--seed", default="1")
    parser.add_argument("--tell", action="store_true")
    asked = parser.parse_args(words)
    folder = tempfile.mkdtemp(prefix="day-")
    day = Day(folder, os.path.abspath(asked.program))
    day.tells = asked.tell
    try:
        day.serve()
        people, hostile, watcher, threads = start_all(day, asked.seed)
        try:
            had, changesets = look_at_moments(day, asked.minutes, asked.moments)
        finally:
            day.is_over = True
            for it in threads:
                it.join()
        day.faults += [it.fault for it in people if it.fault]
        done = settle(day)
    finally:
        day.end()
        if day.faults:
            print(f"all of it is in {folder}")
        else:
            # what a command of a client that was ended still writes is no matter
            shutil.rmtree(folder, ignore_errors=True)
    pushed, through = (sum(getattr(it, what) for it in hostile) for what in ("pushed", "done"))
    told = "NOT AS WANTED: " + "\n".join(day.faults) if day.faults or not had else "as wanted"
    print(f"day.py: {asked.minutes:g} minutes, seed {asked.seed}: {done} pushes are done, {changesets} changesets; of "
          f"{pushed} hostile ones {through}, and {sum(it.asked for it in hostile)} requests of no form; "
          f"{day.kills} times one of three was killed; {had} moments, and {watcher.asked} looks at hgweb, of which it "
          f"refused {watcher.refused}: {told}")
    return 1 if day.faults or not had else 0


if __name__ == "__main__":
    sys.exit(main(sys.argv[1:]))
