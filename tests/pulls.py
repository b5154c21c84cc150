#!/usr/bin/env python3
"""Pulls at one address while the mirror is behind: an answer is never less than what was asked for.

    python3 tests/pulls.py PROGRAM

A front stands before `hg_pushd host` and hgweb, and hands on by the command, as nginx does at one address
(contrib/nginx/deqtorap-one.conf). The mirror is stopped at the first, the second and the third of three pushes,
and started again or not. Each clone, pull and clone of one changeset has what was pushed when it began, or ends
with an error. A pull waits for three seconds where the mirror does not come, and as long as a busy machine takes
where it does. It needs the command `hg`, and ends with a summary and a status.
"""
import http.client
import http.server
import os
import re
import shutil
import signal
import socket
import subprocess
import sys
import tempfile
import threading
import time
from urllib.parse import parse_qs, urlsplit

TOP = os.path.dirname(os.path.dirname(os.path.abspath(__file__)))
TO_HOST = {"batch", "branchmap", "capabilities", "heads", "known", "listkeys", "lookup", "pushkey", "unbundle"}
# what tells a client that it may have the store's files as they are; hgweb says it of itself
STREAMED = "streamreqs=generaldelta,revlog-compression-zstd,revlogv1,sparserevlog"
# how long a pull waits where the mirror does not come, and where it does, in seconds
SHORT, LONG = 3, 240
SETTINGS = """\
[ui]
username = somebody
[experimental]
evolution = all
[extensions]
mirror = {top}/mirror/mirror.py
[mirror]
program = {program}
"""


class Front(http.server.BaseHTTPRequestHandler):
    """A request at one address, handed on by its command."""

    protocol_version = "HTTP/1.1"

    def log_message(self, *_words):
        pass

    def handle_request(self):
        body = self.rfile.read(int(self.headers.get("content-length") or 0))
        command = parse_qs(urlsplit(self.path).query).get("cmd", [""])[0]
        if command == "getbundle":
            self.server.seen.append("asked")
        onward = http.client.HTTPConnection(*self.server.host if command in TO_HOST else self.server.hgweb)
        onward.request(self.command, self.path, body or None, {**self.headers, "connection": "close"})
        answer = onward.getresponse()
        told = answer.read()
        onward.close()
        self.server.seen.append(command)
        self.send_response(answer.status)
        self.send_header("content-type", answer.getheader("content-type"))
        self.send_header("content-length", str(len(told)))
        self.end_headers()
        self.wfile.write(told)

    do_GET = do_POST = handle_request


class Place:
    """A folder with a push server, its mirror, hgweb, and the front before them."""

    def __init__(self, folder, program):
        self.folder, self.started = folder, []
        with open(f"{folder}/hgrc", "w", encoding="utf-8") as file:
            file.write(SETTINGS.format(top=TOP, program=program))
        self.environment = {"PATH": os.environ["PATH"], "HGRCPATH": f"{folder}/hgrc", "HGPLAIN": "1", "HOME": folder,
                            "LC_ALL": "C.UTF-8", "PYTHONDONTWRITEBYTECODE": "1"}
        host = self.start(program, "host", "--store", "store", "--listen", "127.0.0.1:0", "--also", STREAMED)
        self.hg("init", "mirrored")
        with open(f"{folder}/mirrored/.hg/hgrc", "w", encoding="utf-8") as file:
            file.write(f"[phases]\npublish = no\n[mirror]\nstore = {folder}/store\n")
        self.mirror = self.begin("hg", "-R", "mirrored", "mirror", "--store", "store")
        self.hgweb = {patience: self.start("hg", "-R", "mirrored", "serve", "-a", "127.0.0.1", "-p", "0", "--print-url",
                                           "--config", f"mirror.patience={patience}") for patience in (SHORT, LONG)}
        self.front = http.server.ThreadingHTTPServer(("127.0.0.1", 0), Front)
        self.front.host, self.front.hgweb, self.front.seen = host, self.hgweb[LONG], []
        threading.Thread(target=self.front.serve_forever, daemon=True).start()
        self.url = f"http://127.0.0.1:{self.front.server_port}/"

    def begin(self, *words):
        self.started.append(subprocess.Popen(words, cwd=self.folder, env=self.environment, stdin=subprocess.DEVNULL,
                                             stdout=subprocess.PIPE, stderr=subprocess.STDOUT))
        return self.started[-1]

    def start(self, *words):
        """Starts a server; its host and port."""
        line = self.begin(*words).stdout.readline().decode()
        return "127.0.0.1", int(re.search(r":(\d+)/", line)[1])

    def run(self, *words):
        done = subprocess.run(["hg", *words], cwd=self.folder, env=self.environment, stdin=subprocess.DEVNULL,
                              stdout=subprocess.PIPE, stderr=subprocess.STDOUT, timeout=600, check=False)
        return done.returncode, done.stdout.decode("utf-8", "replace")

    def hg(self, *words):
        status, said = self.run(*words)
        if status:
            sys.exit(f"hg {' '.join(words)}: status {status}\n{said}")
        return said

    def push(self, name):
        with open(os.path.join(self.folder, "work", name), "w", encoding="utf-8") as file:
            file.write(f"{name}\n")
        self.hg("-R", "work", "commit", "-A", "-m", name)
        self.hg("-R", "work", "push", "-f", self.url)

    def hold(self):
        os.kill(self.mirror.pid, signal.SIGSTOP)

    def go_on(self):
        os.kill(self.mirror.pid, signal.SIGCONT)

    def mirrored(self):
        try:
            with open(f"{self.folder}/mirrored/.hg/store/pushes-mirrored", encoding="ascii") as file:
                return int(file.read().split()[0])
        except (FileNotFoundError, IndexError):
            return 0

    def wait(self, pushes):
        end = time.monotonic() + LONG
        while self.mirrored() < pushes and time.monotonic() < end:
            time.sleep(0.02)

    def names(self, repository):
        """What the changesets of a repository are called, those that are shown."""
        return set(self.hg("-R", repository, "log", "-T", "{desc}\n").split())

    def end(self):
        self.go_on()
        for process in self.started:
            process.terminate()
            process.wait()
            process.stdout.close()
        self.front.shutdown()
        self.front.server_close()


class Results:
    def __init__(self):
        self.passed = self.failed = 0

    def see(self, what, is_good, why=""):
        self.passed += bool(is_good)
        self.failed += not is_good
        print(f"  {'as wanted' if is_good else f'NOT AS WANTED: {why}'}: {what}", flush=True)


def try_behind(results, place, number):
    """The mirror is behind by one push. Pulls wait for it, and end with an error where it does not come."""
    place.hg(*(["clone", "-U", place.url] if number > 1 else ["init"]), f"old{number}")
    place.hold()
    place.push(f"push{number}")
    node = place.hg("log", "-R", "work", "-r", "tip", "-T", "{node}")
    place.front.hgweb, start = place.hgweb[SHORT], time.monotonic()
    status, said = place.run("clone", place.url, f"late{number}")
    results.see(f"push {number}: a clone that the mirror does not come to is an error", status == 255
                and "not mirrored yet" in said, said)
    results.see(f"push {number}: it waits", time.monotonic() - start >= SHORT)
    status, said = place.run("-R", f"old{number}", "pull", place.url)
    results.see(f"push {number}: so is a pull", status == 255 and "not mirrored yet" in said, said)
    place.front.hgweb, place.front.seen = place.hgweb[LONG], []
    threading.Thread(target=go_on_when_asked, args=(place,)).start()
    status, said = place.run("clone", "-U", place.url, f"clone{number}")
    results.see(f"push {number}: a clone gets all where the mirror comes meanwhile", status == 0, said)
    results.see(f"push {number}: all", place.names(f"clone{number}") == place.names("work"),
                place.names(f"clone{number}"))
    for what, words in (("a pull", ["-R", f"old{number}", "pull", place.url]),
                        ("a clone of the changeset", ["clone", "-U", "-r", node, place.url, f"one{number}"])):
        place.wait(number - 1)
        status, said = place.run(*words)
        results.see(f"push {number}: {what}", status == 0, said)
    results.see(f"push {number}: pulled", place.names(f"old{number}") == place.names("work"))
    results.see(f"push {number}: the changeset", f"push{number}" in place.names(f"one{number}"))


def go_on_when_asked(place):
    """Has the mirror go on a second after a pull has begun to wait for it."""
    while "asked" not in place.front.seen:
        time.sleep(0.05)
    time.sleep(1)
    place.go_on()


def try_at_once(results, place):
    """Clones at the moment of a push, while the mirror works: none is less than what was answered before it."""
    for number in range(4, 8):
        place.push(f"push{number}")
        status, said = place.run("clone", "-U", place.url, f"clone{number}")
        results.see(f"push {number}: a clone at once", status == 0 and place.names(f"clone{number}")
                    == place.names("work"), said)


def try_streamed(results, place):
    """A clone of the store's files, which hgweb gives and the push server tells of, waits too."""
    place.hold()
    place.push("streamed")
    place.front.hgweb = place.hgweb[SHORT]
    status, said = place.run("clone", "--stream", "-U", place.url, "too early")
    results.see("streamed: a clone that the mirror does not come to is an error", status == 255
                and not os.path.exists(f"{place.folder}/too early/.hg/store/00changelog.i"), said)
    place.front.hgweb = place.hgweb[LONG]
    threading.Timer(1, place.go_on).start()
    status, said = place.run("clone", "--stream", "-U", place.url, "streamed")
    results.see("streamed: a clone waits", status == 0 and "streaming all changes" in said, said)
    results.see("streamed: all", place.names("streamed") == place.names("work"), place.names("streamed"))


def try_without_changesets(results, place):
    """The mirror is behind by pushes that move a bookmark and publish: pulls wait for these too, at either address."""
    place.hg("clone", place.url, "marks")
    place.hg("-R", "work", "bookmark", "-r", "0", "mark")
    place.hg("-R", "work", "phase", "-p", "-r", "0")
    place.hold()
    place.run("-R", "work", "push", "-B", "mark", place.url)
    for address in (place.url, f"http://127.0.0.1:{place.hgweb[SHORT][1]}/"):
        place.front.hgweb = place.hgweb[SHORT]
        status, said = place.run("-R", "marks", "pull", address)
        results.see(f"bookmarks and phases: a pull from {address} is an error", status == 255
                    and "not mirrored yet" in said, said)
        status, said = place.run("clone", "-U", address, "marks too")
        results.see(f"bookmarks and phases: so is a clone from {address}", status == 255
                    and "not mirrored yet" in said, said)
    place.front.hgweb = place.hgweb[LONG]
    threading.Timer(1, place.go_on).start()
    status, said = place.run("-R", "marks", "pull", "-B", "mark", place.url)
    results.see("bookmarks and phases: a pull waits", status == 0, said)
    told = place.hg("-R", "marks", "log", "-r", "mark", "-T", "{rev} {phase}")
    results.see("bookmarks and phases: it has both", told == "0 public", told)


def try_hidden(results, place):
    """Of an obsolete head comes what is shown below it, also where nothing else is asked for."""
    place.hg("-R", "work", "commit", "--amend", "-m", "amended")
    place.hg("-R", "work", "push", "-f", place.url)
    status, said = place.run("clone", "-U", place.url, "after")
    results.see("after an amend: a clone", status == 0 and place.names("after") == place.names("work"), said)
    hidden = place.hg("-R", "work", "log", "--hidden", "-r", "obsolete()", "-T", "{node}")
    status, said = place.run("clone", "-U", "-r", hidden, place.url, "hidden")
    results.see("a clone of what is obsolete has what is shown below it", status == 0
                and place.names("hidden") == place.names("work") - {"amended"}, f"{said} {place.names('hidden')}")
    status, said = place.run("-R", "after", "pull", place.url)
    results.see("after an amend: a pull", status == 0 and "added" not in said, said)


def try_unknown(results, place):
    """What was never pushed is an error."""
    query = f"?cmd=getbundle&heads={'7' * 40}"
    client = http.client.HTTPConnection(*place.hgweb[SHORT], timeout=120)
    client.request("GET", f"/{query}")
    answer = client.getresponse()
    told = answer.read()
    results.see("a changeset that never was", answer.getheader("content-type") == "application/hg-error"
                and b"not mirrored yet" in told, told)


def main(words):
    if not shutil.which("hg"):
        print("pulls.py: skipped, the command hg is not installed")
        return 0
    results = Results()
    with tempfile.TemporaryDirectory() as folder:
        place = Place(folder, os.path.abspath(words[0]))
        try:
            place.hg("init", "work")
            for number in (1, 2, 3):
                try_behind(results, place, number)
            try_at_once(results, place)
            try_without_changesets(results, place)
            try_streamed(results, place)
            try_hidden(results, place)
            try_unknown(results, place)
            seen = set(place.front.seen)
            results.see("both servers were asked", {"unbundle", "getbundle", "heads"} <= seen or {
                "unbundle", "getbundle", "batch"} <= seen, seen)
        finally:
            place.end()
    print(f"pulls.py: pulls at one address: {results.passed} passed, {results.failed} failed")
    return 1 if results.failed else 0


if __name__ == "__main__":
    sys.exit(main(sys.argv[1:]) if len(sys.argv) > 1 else __doc__)
