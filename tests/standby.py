"""Servers that take a store over from one another: standby.py PROGRAM

Two servers on one store, of which the second follows it; the first is ended in several ways. What each client was told
as done is there after that, and nothing is answered by two servers at one time. A standby of a store of some hundred MB
has run its records before, and serves at once, in memory for one record; where the store is another one at the takeover
than was followed, it is read from its front.
"""
import os
import re
import resource
import shutil
import signal
import subprocess
import sys
import tempfile
import time
import urllib.error
import urllib.request

from bundles import EMPTY, bundle

PROGRAM = os.path.abspath(sys.argv[1])
EMPTY_REPLY = b"HG20" + bytes(8)
TAKEN_OVER = 5  # seconds
AT_ONCE = 3     # the same where all but a few records were run before: it asks once a second, and has two more
SETTLED = 120   # the same until a standby has read what there is
MANY = 150      # pushes of LARGE bytes make a large store
LARGE = bundle((b"output", (), bytes(2_000_000)))
MEMORY = 96     # MiB that a standby has at most, whatever the store has


class Wrong(Exception):
    pass


def want(what, got, wanted):
    if got != wanted:
        raise Wrong(f"{what}: {str(got)[:600]}, not {str(wanted)[:600]}")


class Server:
    """The program on a store; `said` is its first line. A write past a limit is an error for it, and no signal."""

    def __init__(self, store, *words):
        self.file = os.path.realpath(f"{store}/pushes")
        self.process = subprocess.Popen([PROGRAM, "host", "--store", store, "--listen", "127.0.0.1:0", *words],
                                        stderr=subprocess.PIPE, stdin=subprocess.DEVNULL, restore_signals=False)
        self.said = self.line()
        self.url = re.search(r"http://[^,\s]*/", self.said)[0]

    def line(self):
        return self.process.stderr.readline().decode()

    def ask(self, target, body=None):
        """The status and the body of an answer."""
        asked = urllib.request.Request(f"{self.url}{target}", body,
                                       {"content-type": "application/mercurial-0.1", "x-hgarg-1": "heads=666f726365"})
        try:
            with urllib.request.urlopen(asked, timeout=10) as answer:
                return answer.status, answer.read()
        except urllib.error.HTTPError as error:
            return error.code, error.read()

    def push(self, body=EMPTY):
        return self.ask("?cmd=unbundle", body)

    def end(self, by=signal.SIGKILL):
        self.process.send_signal(by)
        self.process.wait()
        self.process.stderr.close()

    def spent(self):
        """The seconds of processor that it took so far."""
        with open(f"/proc/{self.process.pid}/stat", encoding="ascii") as file:
            fields = file.read().rpartition(")")[2].split()
        return (int(fields[11]) + int(fields[12])) / os.sysconf("SC_CLK_TCK")

    def most_memory(self):
        """The MiB that it had at most."""
        with open(f"/proc/{self.process.pid}/status", encoding="ascii") as file:
            return int(re.search(r"VmHWM:\s*(\d+) kB", file.read())[1]) / 1024

    def place(self):
        """Where it reads the store, in bytes."""
        files, found = f"/proc/{self.process.pid}/fd", 0
        for it in os.listdir(files):
            try:
                if os.readlink(f"{files}/{it}") == self.file:
                    with open(f"{files}info/{it}", encoding="ascii") as file:
                        found = max(found, int(re.search(r"pos:\s*(\d+)", file.read())[1]))
            except OSError:
                pass
        return found

    def settles(self):
        """Waits until it has run what there is, all but the last gate."""
        end = time.monotonic() + SETTLED
        while self.place() < os.path.getsize(self.file) - 1:
            if time.monotonic() > end:
                raise Wrong(f"it is at {self.place()} of {os.path.getsize(self.file)} bytes")
            time.sleep(0.1)
        time.sleep(1)


def waits(server):
    """A standby says so, and answers no command."""
    want("the page of a standby", server.ask(""), (200, b"standby\n"))
    for target in ("?cmd=heads", "?cmd=capabilities", "report", "metrics", "?cmd=batch"):
        want(f"{target} of a standby", server.ask(target)[0], 503)
    want("a push to a standby", server.push()[0], 503)


def takes_over(server, pushes, since, within=TAKEN_OVER):
    """It has all pushes, soon."""
    want("what it says then", server.line(), f"hg_pushd: listening on {server.url}, {pushes} pushes, 0 changesets\n")
    took = time.monotonic() - since
    want("a push", server.push(), (200, EMPTY_REPLY))
    if took > within:
        raise Wrong(f"it took the store over after {took:.1f} seconds")


def a_server_is_killed(room):
    """Row after row: each standby takes over from the one before, with all pushes that any of them answered."""
    store = f"{room}/killed"
    Server(store).end()
    holder, pushes = Server(store, "--shared", "--standby"), 0
    want("where nobody has the store", "standby on" in holder.said, True)
    want("it begins", holder.line(), f"hg_pushd: listening on {holder.url}, 0 pushes, 0 changesets\n")
    for _ in range(4):
        standby = Server(store, "--shared", "--standby")
        want("what a standby says", standby.said, f"hg_pushd: standby on {standby.url}\n")
        for _ in range(3):
            want("a push", holder.push(), (200, EMPTY_REPLY))
            pushes += 1
        waits(standby)
        start = time.monotonic()
        holder.end()
        takes_over(standby, pushes, start)
        pushes += 1
        holder = standby
    holder.end()


def a_server_loses_its_store(room):
    """Its writes fail, as those of a server that was evicted: it answers nothing more, and the standby goes on."""
    store = f"{room}/lost"
    Server(store).end()
    for ask in (lambda it: it.ask("?cmd=heads"), lambda it: it.ask("report"), Server.push):
        holder = Server(store, "--shared")
        pushes = int(re.search(r"(\d+) pushes", holder.said)[1])
        want("a push", holder.push(), (200, EMPTY_REPLY))
        standby = Server(store, "--shared", "--standby")
        resource.prlimit(holder.process.pid, resource.RLIMIT_FSIZE, (0, 0))
        try:
            raise Wrong(f"it answered: {ask(holder)}")
        except OSError:
            pass
        start = time.monotonic()
        want("its end", holder.process.wait(10), 3)
        holder.process.stderr.close()
        takes_over(standby, pushes + 1, start)
        standby.end()


def takes_over_at_once(server, pushes, holder):
    """It has all pushes, soon, and runs none of them again: that would take the processor as long as it took before."""
    ran, start = server.spent(), time.monotonic()
    holder.end()
    takes_over(server, pushes, start, AT_ONCE)
    took = server.spent() - ran
    if took > ran / 4:
        raise Wrong(f"the takeover took {took:.2f} seconds of the processor, and all before {ran:.2f}")


def a_large_store_is_followed(room):
    """Its records were run before the server that had it ended: it is served at once, in memory for one record."""
    store = f"{room}/large"
    holder = Server(store)
    for _ in range(MANY):
        want("a push", holder.push(LARGE)[0], 200)
    late = Server(store, "--shared", "--standby")
    late.settles()
    takes_over_at_once(late, MANY, holder)
    if late.most_memory() > MEMORY:
        raise Wrong(f"it had {late.most_memory():.0f} MiB")
    # pushes go on while the next one follows
    holder, late, pushes = late, Server(store, "--shared", "--standby"), MANY + 1
    for at in range(60):
        want("a push", holder.push(LARGE if at % 10 == 0 else EMPTY)[0], 200)
        pushes += 1
        if at % 20 == 0:
            waits(late)
    late.settles()
    want("a push", holder.push()[0], 200)
    takes_over_at_once(late, pushes + 1, holder)
    late.end()


def a_server_stands_still(room):
    """It is ended while it stands still in the midst of pushes: the standby has each push that it answered."""
    store = f"{room}/still"
    holder, standby = Server(store), None
    for _ in range(3):
        want("a push", holder.push(), (200, EMPTY_REPLY))
        standby = standby or Server(store, "--shared", "--standby")
    standby.settles()
    holder.process.send_signal(signal.SIGSTOP)
    time.sleep(2)
    waits(standby)
    start = time.monotonic()
    holder.end()
    takes_over(standby, 3, start, AT_ONCE)
    standby.end()


def cut(store, at):
    done = subprocess.run([PROGRAM, "cut", "--store", store, "--at", str(at)], capture_output=True, timeout=60, check=False)
    want("the status of a cut", (done.returncode, done.stderr[-300:]), (0, done.stderr[-300:]))


def a_store_is_another_one(room):
    """Between the end of a server and the takeover it is cut, or another file is put in its place, or its end is turned:
    it is read from its front."""
    def is_cut(store):
        cut(store, 2)
        return 2

    def is_replaced(store):
        Server(f"{store}.other").end()
        os.rename(f"{store}.other/pushes", f"{store}/pushes")
        return 0

    def is_shortened(store):
        # in its place, as by who puts an older copy there: the last record is gone
        with open(f"{store}/pushes", "r+b") as file:
            file.truncate(os.path.getsize(f"{store}/pushes") - len(EMPTY) - 35)
            file.seek(0, os.SEEK_END)
            file.write(b"\0")
        return 3

    def is_written_anew(store):
        # another store of the same length, in the same file
        other = Server(f"{store}.other")
        for _ in range(4):
            other.push()
        other.end()
        with open(f"{store}.other/pushes", "rb") as file, open(f"{store}/pushes", "r+b") as old:
            old.write(file.read())
        return 4

    def has_a_gate_shut(store):
        # as a crash leaves it where the last gate was not on the disk
        with open(f"{store}/pushes", "r+b") as file:
            file.seek(os.path.getsize(f"{store}/pushes") - len(EMPTY) - 35)
            want("a gate", file.read(1), b"\xff")
            file.seek(-1, os.SEEK_CUR)
            file.write(b"\0")
        return 3

    for change in (is_cut, is_replaced, is_shortened, is_written_anew, has_a_gate_shut):
        store = f"{room}/{change.__name__}"
        holder = Server(store)
        for _ in range(4):
            want("a push", holder.push(), (200, EMPTY_REPLY))
        standby = Server(store, "--standby")
        standby.settles()
        standby.process.send_signal(signal.SIGSTOP)
        holder.end()
        left = change(store)
        start = time.monotonic()
        standby.process.send_signal(signal.SIGCONT)
        said = standby.line()
        while "listening" not in said and said:
            said = standby.line()
        want(f"{change.__name__}: what it says then", said,
             f"hg_pushd: listening on {standby.url}, {left} pushes, 0 changesets\n")
        if time.monotonic() - start > TAKEN_OVER:
            raise Wrong(f"{change.__name__}: it took the store over late")
        want("a push", standby.push(), (200, EMPTY_REPLY))
        standby.end()
        again = Server(store)
        want("what is there then", f", {left + 1} pushes," in again.said, True)
        again.end()
        shutil.rmtree(store)


def standbys_in_a_row(room):
    """Several follow one store: each takes over from the one before, and the others follow on."""
    store = f"{room}/row"
    holder = Server(store)
    row = [Server(store, "--standby") for _ in range(3)]
    pushes = 0
    while row:
        for _ in range(3):
            want("a push", holder.push(), (200, EMPTY_REPLY))
            pushes += 1
        time.sleep(1.5)
        start = time.monotonic()
        holder.end()
        # one of them has it, and the others wait
        ended = time.monotonic() + TAKEN_OVER
        found = None
        while not found and time.monotonic() < ended:
            found = next((it for it in row if it.ask("report")[0] == 200), None)
        if not found:
            raise Wrong("nobody took the store over")
        takes_over(found, pushes, start)
        pushes += 1
        row.remove(found)
        for it in row:
            waits(it)
        holder = found
    holder.end()


def a_standby_without_a_store(room):
    """A folder without a store: nothing is made with --shared, and the status is 3; without it one is made."""
    made = Server(f"{room}/made", "--standby")
    want("where there is none", made.line(), f"hg_pushd: listening on {made.url}, 0 pushes, 0 changesets\n")
    waiting = Server(f"{room}/made", "--standby")
    waiting.settles()
    start = time.monotonic()
    made.end()
    takes_over(waiting, 0, start)
    waiting.end()
    os.mkdir(f"{room}/none")
    done = subprocess.run([PROGRAM, "host", "--store", f"{room}/none", "--listen", "127.0.0.1:0", "--shared", "--standby"],
                          capture_output=True, timeout=30, check=False)
    want("the status", done.returncode, 3)
    want("what is in it", os.listdir(f"{room}/none"), [])


def main():
    signal.alarm(900)
    good, cases = 0, (a_server_is_killed, a_server_loses_its_store, a_standby_without_a_store, a_server_stands_still,
                      a_store_is_another_one, standbys_in_a_row, a_large_store_is_followed)
    with tempfile.TemporaryDirectory() as room:
        for case in cases:
            try:
                case(room)
                good += 1
            except (Wrong, OSError, subprocess.SubprocessError) as error:
                print(f"{case.__name__}: {error}")
    print(f"{good} passed, {len(cases) - good} failed")
    return 0 if good == len(cases) else 1


if __name__ == "__main__":
    sys.exit(main())
