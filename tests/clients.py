#!/usr/bin/env python3
"""Random pushes of three real clients to `host`, which pull from hgweb over the mirror.

    python3 tests/clients.py PROGRAM [PUSHES [SEED]]

The clients work at the same time: they commit, on old changesets too, amend, name branches, merge, set
bookmarks and publish, and pull between. 200 pushes (or PUSHES) go to a server that does not publish, and then a
quarter of them to one that does. Meanwhile the mirror is killed every few seconds and started again. In the end
it has to hold what `hg_pushd report` prints, line by line: changesets in their order with phases, bookmarks and
markers. So does a second repository, which is mirrored from `hg_pushd log` through a pipe, in two goes. `hg verify`
has to find nothing in either. Then one client pushes alone, and it is measured how long after a record is whole
the mirror has it. It needs the command hg.
"""
import os
import random
import re
import shutil
import signal
import struct
import subprocess
import sys
import tempfile
import threading
import time

TOP = os.path.dirname(os.path.dirname(os.path.abspath(__file__)))
CLIENTS = 3
# what runs the commands of clients: CLIENT of the environment may be chg, which takes a quarter of the time
CLIENT = os.environ.get("CLIENT", "hg")
LONGEST = 900
# how long one command may take on a busy machine
PATIENCE = 300
# In a trial of so many pushes and more each sort of change has to come, and pushes of one client alone show how
# late the mirror is. In a shorter one there are fewer of these, and it may be later, as on a busy machine.
LONG = 50
# how many pushes are made by one client alone
ALONE = 15
# how soon the middle one of them has to be mirrored, in seconds
SOON = 0.2
SETTINGS = """\
[ui]
username = somebody
merge = :union
[experimental]
evolution = all
[extensions]
rebase =
mirror = {top}/mirror/mirror.py
[mirror]
program = {program}
"""
# The markers of a repository, in the bytes of a report.
MARKERS = """
from mercurial import hg, obsolete, ui
repo = hg.repository(ui.ui.load(), {path!r}).unfiltered()
for marker in repo.obsstore._all:
    print('O ' + obsolete._fm0encodeonemarker(marker).hex())
"""


class Place:
    """A folder with a server, its mirror and hgweb, and the commands that are run there."""

    def __init__(self, folder, program, publishes):
        self.folder, self.program, self.publishes = folder, program, publishes
        self.started, self.mirror, self.kills, self.is_over = [], None, 0, False
        with open(f"{folder}/hgrc", "w", encoding="utf-8") as file:
            file.write(SETTINGS.format(top=TOP, program=program))
        self.environment = {"PATH": os.environ["PATH"], "HGRCPATH": f"{folder}/hgrc", "HGPLAIN": "1",
                            "LC_ALL": "C.UTF-8", "HOME": folder, "PYTHONDONTWRITEBYTECODE": "1", "CHGSOCKNAME": f"{folder}/chg",
                            "CHGTIMEOUT": "120"}

    def run(self, *words):
        """The status of a command, and what it said; one that takes too long is ended, with status 124."""
        words = [CLIENT if words[0] == "hg" else words[0], *words[1:]]
        try:
            done = subprocess.run(words, cwd=self.folder, env=self.environment, stdin=subprocess.DEVNULL,
                                  stdout=subprocess.PIPE, stderr=subprocess.STDOUT, timeout=PATIENCE, check=False)
        except subprocess.TimeoutExpired:
            return 124, f"{words[0]}: not within {PATIENCE} seconds"
        return done.returncode, done.stdout.decode("utf-8", "replace")

    def hg(self, *words):
        status, said = self.run("hg", *words)
        if status:
            sys.exit(f"hg {' '.join(words)}: status {status}\n{said}")
        return said

    def begin(self, name, *words):
        """Starts a process that runs until the end."""
        with open(f"{self.folder}/{name}.log", "ab") as log:
            return subprocess.Popen(words, cwd=self.folder, env=self.environment, stdin=subprocess.DEVNULL,
                                    stdout=log, stderr=log)

    def start(self, name, *words):
        """Starts a server, and gives the port that it names."""
        self.started.append(self.begin(name, *words))
        for _ in range(400):
            with open(f"{self.folder}/{name}.log", encoding="utf-8", errors="replace") as log:
                found = re.search(r"://[\w.]+:(\d+)/", log.read())
            if found:
                return found[1]
            time.sleep(0.05)
        sys.exit(f"{name} does not start")

    def start_mirror(self):
        self.mirror = self.begin("mirror", "hg", "-R", "mirrored", "mirror", "--store", "store")

    def kill_mirror(self):
        """Kills the mirror and starts it again. Until then it may not have ended by itself."""
        if self.mirror.poll() is not None:
            with open(f"{self.folder}/mirror.log", encoding="utf-8", errors="replace") as log:
                sys.exit(f"the mirror ended by itself\n{log.read()[-2000:]}")
        self.mirror.kill()
        self.mirror.wait()
        self.kills += 1
        self.start_mirror()

    def make(self, name):
        """Makes a repository that publishes as the server does."""
        self.hg("init", name)
        with open(f"{self.folder}/{name}/.hg/hgrc", "w", encoding="utf-8") as file:
            file.write(f"[phases]\npublish = {'yes' if self.publishes else 'no'}\n")

    def serve(self):
        host = [self.program, "host", "--store", "store", "--listen", "127.0.0.1:0"]
        self.push = self.start("host", *host, *(["--publishing"] if self.publishes else []))
        self.make("mirrored")
        self.start_mirror()
        hgweb = ["hg", "-R", "mirrored", "serve", "-a", "127.0.0.1", "-p", "0", "--print-url"]
        self.pull = self.start("hgweb", *hgweb)

    def end(self):
        for process in filter(None, [*self.started, self.mirror]):
            process.send_signal(signal.SIGTERM)
            process.wait()

    def follow_log(self, name, first):
        """Mirrors what `log` writes to a pipe, from a place on; whether both ended well."""
        log = subprocess.Popen([self.program, "log", "--store", "store", "--from", str(first)], cwd=self.folder,
                               stdin=subprocess.DEVNULL, stdout=subprocess.PIPE)
        done = subprocess.run(["hg", "-R", name, "mirror", "--log", "-", "--from", str(first)], cwd=self.folder,
                              env=self.environment, stdin=log.stdout, stdout=subprocess.PIPE,
                              stderr=subprocess.STDOUT, timeout=LONGEST, check=False)
        log.stdout.close()
        if log.wait() or done.returncode:
            print(done.stdout.decode("utf-8", "replace")[-2000:])
        return log.returncode == 0 and done.returncode == 0

    def count(self, name="mirrored"):
        """How many pushes a repository has."""
        try:
            with open(f"{self.folder}/{name}/.hg/store/pushes-mirrored", encoding="ascii") as file:
                return int(file.read().split()[0])
        except (FileNotFoundError, IndexError):
            # it is empty for a moment where what was not finished is rolled back
            return 0


class Client:
    """Somebody with a clone, who does what comes to mind."""

    def __init__(self, place, number, seed):
        self.place, self.name = place, f"client{number}"
        self.random, self.count, self.refused = random.Random(f"{seed}.{number}"), 0, 0
        self.fault = None
        place.hg("clone", "-q", f"http://127.0.0.1:{place.pull}/", self.name)
        with open(f"{place.folder}/{self.name}/.hg/hgrc", "w", encoding="utf-8") as file:
            file.write(f"[paths]\ndefault = http://127.0.0.1:{place.pull}/\n"
                       f"default:pushurl = http://127.0.0.1:{place.push}/\n")

    def hg(self, *words):
        return self.place.run("hg", "-R", self.name, *words)

    def pick(self, revisions):
        """One changeset of these, or nothing."""
        _, said = self.hg("log", "-r", revisions, "-T", "{node}\n")
        nodes = [line for line in said.splitlines() if re.fullmatch("[0-9a-f]{40}", line)]
        return self.random.choice(nodes) if nodes else None

    def write(self):
        self.count += 1
        path = f"{self.place.folder}/{self.name}/{self.name}-{self.random.randrange(4)}"
        with open(path, "a", encoding="utf-8") as file:
            file.write(f"{self.count}\n")

    def commit(self):
        if self.random.random() < 0.3:
            self.hg("update", "-C", self.pick("all()") or "null")
        if self.random.random() < 0.1:
            self.hg("branch", "-f", f"branch {self.random.randrange(5)} ü;&")
        self.write()
        self.hg("commit", "-A", "-m", f"{self.name} {self.count}")

    def amend(self):
        node = self.pick("draft() - obsolete()")
        if node:
            self.hg("update", "-C", node)
            self.write()
            self.hg("commit", "-A", "--amend", "-m", f"{self.name} {self.count}, amended")

    def merge(self):
        node = self.pick("heads(all()) - obsolete() - .")
        if node:
            self.hg("update", "-C", self.pick("heads(all()) - obsolete()") or ".")
            status, _ = self.hg("merge", "--tool", ":union", node)
            self.hg("commit", "-m", f"{self.name} merges") if status == 0 else self.hg("update", "-C", ".")

    def mark(self):
        name = f"mark {self.random.randrange(4)} é"
        self.hg("bookmark", "-f", "-r", self.pick("all()") or "null", name)
        self.hg("push", "-f", "--new-branch", "-B", name)

    def publish(self):
        node = self.pick("draft() - obsolete()")
        if node:
            self.hg("phase", "-p", node)

    def pull(self):
        self.hg("pull")
        self.hg("update", "-C")

    def act(self):
        does = self.random.choices([self.commit, self.amend, self.merge, self.mark, self.publish, self.pull],
                                   [8, 3, 1.5, 1, 0.5, 3])[0]
        does()
        status, said = self.hg("push", *(["-f"] if self.random.random() < 0.8 else []), "--new-branch")
        self.refused += status not in (0, 1)
        if "Traceback" in said:
            self.fault = said


def work(client, wanted, end):
    while client.place.count() < wanted and time.time() < end and not (client.fault or client.place.is_over):
        client.act()


def work_together(place, clients, pushes, end):
    """The clients work, and the mirror is killed meanwhile. Half way the log is mirrored to a second repository;
    whether that went well."""
    threads = [threading.Thread(target=work, args=(it, pushes, end)) for it in clients]
    for it in threads:
        it.start()
    followed = None
    try:
        while any(it.is_alive() for it in threads):
            time.sleep(random.uniform(1, 6) if pushes >= LONG else random.uniform(3, 12))
            place.kill_mirror()
            if followed is None and place.count() >= pushes // 2:
                followed = place.follow_log("piped", 0)
    finally:
        place.is_over = True
        for it in threads:
            it.join()
    return followed is not False


class Records:
    """The records of a store, as they become whole."""

    def __init__(self, place):
        self.file, self.end, self.count = open(f"{place.folder}/store/pushes", "rb", buffering=0), 54, 0

    def has_next(self):
        """Whether another record is whole."""
        front = os.pread(self.file.fileno(), 14, self.end)
        if len(front) < 14 or front[0] != 0xff:
            return False
        self.end += 34 + front[13] + struct.unpack(">I", front[1:5])[0]
        self.count += 1
        return True


def lags(place, client, number):
    """How long after its record was whole each push of a client was mirrored, in seconds, in ascending order."""
    records, took = Records(place), []
    while records.has_next():
        pass
    for _ in range(number):
        client.write()
        client.hg("commit", "-A", "-m", f"{client.name} {client.count}, alone")
        push = place.begin("alone", "hg", "-R", client.name, "push", "-f", "--new-branch")
        end = time.time() + 60
        while not records.has_next() and time.time() < end:
            time.sleep(0.001)
        start = time.monotonic()
        while place.count() < records.count and time.time() < end:
            time.sleep(0.001)
        took.append(time.monotonic() - start if time.time() < end else 60)
        push.wait()
    return sorted(took)


def lines_of(place, name):
    """What a repository holds, in the lines of a report."""
    form = ("C {rev} {node} {ifeq(phase, 'public', 0, ifeq(phase, 'draft', 1, 2))} "
            "{ifeq(obsolete, 'obsolete', 1, 0)}\\n")
    lines = place.hg("-R", name, "log", "--hidden", "-r", "all()", "-T", form).splitlines()
    marks = place.hg("-R", name, "bookmarks", "-T", "{node} {bookmark}\\n")
    for line in marks.replace("no bookmarks set\n", "").splitlines():
        node, _, mark = line.partition(" ")
        lines.append(f"B {full(place, name, node)} {escaped(mark)}")
    python = place.hg("debuginstall", "-T", "{pythonexe}")
    _, markers = place.run(python, "-c", MARKERS.format(path=name.encode()))
    return sorted_bookmarks(lines) + markers.splitlines()


def escaped(name):
    """A name as a report has it: of its bytes letters and digits stand for themselves."""
    return "".join(chr(it) if bytes([it]).isalnum() else f"%{it:02X}" for it in name.encode())


def full(place, name, node):
    return place.hg("-R", name, "log", "--hidden", "-r", node, "-T", "{node}")


def sorted_bookmarks(lines):
    marks = sorted((it for it in lines if it.startswith("B ")), key=lambda it: it.split(" ", 2)[2])
    return [it for it in lines if not it.startswith("B ")] + marks


def compare(place, name):
    """Whether the report and a repository are the same; what differs is printed."""
    status, report = place.run(place.program, "report", "--store", "store")
    report = [it for it in report.splitlines() if it[:2] in ("C ", "B ", "O ")]
    report, found = sorted_bookmarks(report), sorted_bookmarks(lines_of(place, name))
    for kind in "CBO":
        wanted, got = ([it for it in lines if it[0] == kind] for lines in (report, found))
        if wanted != got:
            print(f"{name}, {kind}: not the same")
            print("\n".join([f"- {it}" for it in wanted if it not in got][:5]
                            + [f"+ {it}" for it in got if it not in wanted][:5]))
    return status == 0 and report == found


# what has to be among the changesets of each kind of server, and of one that does not publish
ALWAYS = {"changesets": "all()", "off the default branch": "not branch(default)", "public": "public()"}
DRAFTS = {"draft": "draft()", "amended": "obsolete()", "merges": "merge()"}


def variety(place):
    """How many changesets the mirror has of each sort, and how many bookmarks and markers."""
    sorts = ALWAYS if place.publishes else {**ALWAYS, **DRAFTS}
    found = {sort: len(place.hg("-R", "mirrored", "log", "--hidden", "-r", revisions, "-T", "x"))
             for sort, revisions in sorts.items()}
    lines = lines_of(place, "mirrored")
    found["bookmarks"] = sum(it.startswith("B ") for it in lines)
    if not place.publishes:
        found["markers"] = sum(it.startswith("O ") for it in lines)
    return found


def trial(program, publishes, pushes, seed):
    folder = tempfile.mkdtemp(prefix="clients-")
    place = Place(folder, program, publishes)
    try:
        place.serve()
        place.make("piped")
        clients = [Client(place, number, seed) for number in range(CLIENTS)]
        end = time.time() + LONGEST
        seen = {"the log through a pipe, half way": work_together(place, clients, pushes, end)}
        done = place.run(program, "report", "--store", "store")[1].count("\nJ ")
        while place.count() < done and time.time() < end:
            time.sleep(0.05)
        seen["so many pushes"] = place.count() >= pushes
        seen["no traceback of a client"] = not any(it.fault for it in clients)
        together, took = place.count(), lags(place, clients[0], ALONE if pushes >= LONG else ALONE // 3)
        middle, longest = took[len(took) // 2], took[-1]
        seen["in time"] = middle < SOON or pushes < LONG and middle < 5 * SOON
        piped = place.count("piped")
        seen["the log through a pipe, the rest"] = place.follow_log("piped", max(0, piped - 3))
        seen["the mirror never ended by itself"] = place.mirror.poll() is None
        for name in ("mirrored", "piped"):
            seen[f"the report, line by line: {name}"] = compare(place, name)
            status, said = place.run("hg", "-R", name, "verify")
            seen[f"verify: {name}"] = status == 0
            if status:
                print(said[-2000:])
        found = variety(place)
        seen["of each sort some"] = pushes < LONG or all(found.values())
        bad = [what for what, is_good in seen.items() if not is_good]
        print("".join(it.fault for it in clients if it.fault)[-2000:], end="")
        print(f"clients.py: a server that {'publishes' if publishes else 'does not publish'}, seed {seed}: "
              f"{together} pushes of {CLIENTS} clients, {sum(it.refused for it in clients)} not made, and "
              f"{len(took)} of one; {', '.join(f'{number} {sort}' for sort, number in found.items())}; the mirror "
              f"was killed {place.kills} times; {piped} pushes came half way through the pipe; a push alone "
              f"was mirrored after {1000 * middle:.0f} ms (middle), {1000 * longest:.0f} ms (longest): "
              f"{'NOT AS WANTED: ' + '; '.join(bad) if bad else 'as wanted'}", flush=True)
        return not bad
    finally:
        place.end()
        shutil.rmtree(folder)


def main(words):
    if not shutil.which("hg"):
        print("clients.py: skipped, the command hg is not installed")
        return 0
    program = os.path.abspath(words[0])
    pushes = int(words[1]) if len(words) > 1 else 200
    seed = words[2] if len(words) > 2 else "1"
    good = [trial(program, False, pushes, seed), trial(program, True, max(1, pushes // 4), seed)]
    return 0 if all(good) else 1


if __name__ == "__main__":
    sys.exit(main(sys.argv[1:]) if len(sys.argv) > 1 else __doc__)
