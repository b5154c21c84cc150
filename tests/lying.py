#!/usr/bin/env python3
"""A disk that lies about a sync that failed: lying.py PROGRAM

A sync fails once, and what it was to write is forgotten: the file still shows it, later syncs say Ok, and a power cut
shows that the disk never had it. Linux does so where a device fails. tests/lying.c stands between `host` of the built
program and the system, and has a file with what the disk has. The sync that fails is each of those of a start and of
some pushes in turn, alone and with clients side by side. Each time the server ends with status 3. It starts again, on
the same system, and takes more pushes. Then the power is cut: each push that was answered by either is there, and what
the second one reported. The same is asked where the power is cut at once, and where the system never drops what it
keeps of the file, though a start asks for it.

Then it is tried whether this shows anything: over a disk that says Ok in the place of the failure something is lost. It
needs a compiler of C.
"""
import http.client
import os
import re
import shutil
import subprocess
import sys
import tempfile
import threading

sys.dont_write_bytecode = True
PROGRAM = os.path.abspath(sys.argv[1])
from bundles import bundle
from store import Room, Wrong, store_of, want

HERE = os.path.dirname(os.path.abspath(__file__))
PUSHES, CLIENTS = 5, 4
SOON = 60


def push_of(name):
    return bundle((b"note", (), name.encode()))


class Server:
    """`host` over that disk. Where a sync of its start fails it never listens."""

    def __init__(self, room, library, **disk):
        where = {**os.environ, "LD_PRELOAD": library, "LYING_DISK": room.path("disk"), **disk}
        self.process = subprocess.Popen([PROGRAM, "host", "--store", room.path("store"), "--listen", "127.0.0.1:0"],
                                        stdin=subprocess.DEVNULL, stderr=subprocess.PIPE, env=where)
        self.said, self.port = "", None
        for line in self.process.stderr:
            self.said += line.decode()
            if found := re.search(rb"listening on http://127\.0\.0\.1:(\d+)/", line):
                self.port = int(found[1])
                break

    def ask(self, method, path, body=None):
        """The body of an answer; none where there is none."""
        line = http.client.HTTPConnection("127.0.0.1", self.port, timeout=SOON)
        try:
            line.request(method, path, body, {"content-type": "application/mercurial-0.1"})
            answer = line.getresponse()
            return answer.read() if answer.status == 200 else None
        except (OSError, http.client.HTTPException):
            return None
        finally:
            line.close()

    def push(self, name):
        """Whether a push was answered as done."""
        told = self.ask("POST", "/?cmd=unbundle&heads=666f726365", push_of(name))
        return told is not None and told.startswith(b"HG20")

    def report(self):
        return self.ask("GET", "/report")

    def status(self):
        """It ends by itself."""
        try:
            return self.process.wait(SOON)
        finally:
            self.process.stderr.close()

    def kill(self):
        self.process.kill()
        self.process.wait()
        self.process.stderr.close()


def push_all(server, prefix, clients):
    """Each client pushes one after the other, until one is not answered. Gives those that were."""
    done = []

    def work(client):
        for number in range(PUSHES):
            name = f"{prefix}-{client}-{number}"
            if not server.push(name):
                return
            done.append(name)
    threads = [threading.Thread(target=work, args=(client,)) for client in range(clients)]
    for it in threads:
        it.start()
    for it in threads:
        it.join()
    return done


def cut_power(room):
    """The file has what the disk has."""
    shutil.copyfile(room.path("disk"), room.path("store/pushes"))


def found_in(room):
    """The pushes of the store, as it is opened after a crash, and its report."""
    with open(room.path("more"), "wb") as file:
        file.write(push_of("the last one"))
    done = room.start("import", "--store", "store", "--existing", "more")
    want(f"the opening behind a power cut: {done.stderr}", done.returncode, 0)
    return room.start("log", "--store", "store").stdout, room.start("report", "--store", "store").stdout


def lost(room, library, clients, is_cut_at_once, **disk):
    """Which answered pushes are lost, and whether the first server ended; none where no sync of that number was made.
    What a second server reports and is not there is lost too."""
    for name in ("store", "disk"):
        shutil.rmtree(room.path(name), ignore_errors=True)
        if os.path.exists(room.path(name)):
            os.remove(room.path(name))
    room.store(store_of([push_of("before")])[0])
    first = Server(room, library, **disk)
    done = ["before", *(push_all(first, "first", clients) if first.port else [])]
    is_over = "LYING_LIES" not in disk and (not first.port or len(done) < 1 + PUSHES * clients)
    if is_over:
        want("the status of a server whose sync failed", first.status(), 3)
    else:
        first.kill()
    told = b""
    if not is_cut_at_once:
        second = Server(room, library, **{key: value for key, value in disk.items() if key == "LYING_KEEPS"})
        want(f"whether it serves again: {second.said}", second.port is not None, True)
        told = second.report()
        done += push_all(second, "second", 1)
        second.kill()
    cut_power(room)
    log, report = found_in(room)
    places = [log.find(push_of(it)) for it in done]
    gone = [it for it, place in zip(done, places) if place < 0]
    if log.count(b"note") != len(set(re.findall(rb"(?:first|second|before|the last)[-\w ]*", log))):
        raise Wrong(f"a push is there twice: {log}")
    missing = set((told or b"").splitlines()) - set(report.splitlines())
    return gone + sorted(it.decode() for it in missing), is_over


def each_sync(room, library, clients, is_cut_at_once, **disk):
    """The same with each sync in turn, up to one that is not made: how many failed, and all that was lost."""
    ended, gone = 0, []
    for number in range(1, 10_000):
        found, is_over = lost(room, library, clients, is_cut_at_once, LYING_AT=str(number), **disk)
        gone += found
        ended += is_over
        if not is_over and (number > 2 * PUSHES + 6 or "LYING_LIES" not in disk):
            return ended, gone
    raise Wrong("there is no end of syncs")


def is_seen(room, library, is_cut_at_once, **disk):
    """Whether something was lost, or the store is damaged."""
    try:
        return bool(each_sync(room, library, 1, is_cut_at_once, **disk)[1])
    except Wrong as wrong:
        return "damage" in str(wrong)


def main():
    compiler = shutil.which("cc")
    if compiler is None:
        print("lying.py: skipped, there is no compiler of C")
        return 0
    with tempfile.TemporaryDirectory(prefix="lying-") as folder:
        library, room = f"{folder}/lying.so", Room(folder)
        subprocess.run([compiler, "-shared", "-fPIC", "-O1", "-o", library, f"{HERE}/lying.c"], check=True)
        try:
            counts = []
            for clients in (1, CLIENTS):
                for is_cut_at_once, disk in ((False, {}), (True, {}), (False, {"LYING_KEEPS": "1"})):
                    ended, gone = each_sync(room, library, clients, is_cut_at_once, **disk)
                    want(f"what is lost with {clients} clients", gone, [])
                    want("that syncs failed", ended > 4, True)
                    counts.append(ended)
            want("that a disk which says Ok loses something", is_seen(room, library, True, LYING_LIES="1"), True)
        except (Wrong, OSError, subprocess.TimeoutExpired) as error:
            print(f"lying.py: {error}")
            return 1
    print(f"lying.py: as wanted: {', '.join(map(str, counts))} servers ended by a sync that failed, and nothing that "
          f"was answered was lost")
    return 0


if __name__ == "__main__":
    sys.exit(main())
