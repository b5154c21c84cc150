"""What the disk is sure to have when a reply leaves: synced.py PROGRAM

`host` of the built program runs under strace, with clients that push side by side, and is killed and started again.
No contract sees in which order a process calls the system. Here its calls are played again on a disk that has only
what was synced: a write counts once a sync that began after it came back, a name in a folder once the folder was
synced. That is the least that a crash may leave. So it is shown

- that no reply to a push leaves before its record is on that disk, behind an open commit byte;
- that a commit byte is opened only where the records after it are on that disk already;
- that a new store is whole on that disk, under its name, before a client is served;
- that a start syncs the file, and has the system drop what it kept of it, before it reads the file;
- that with --shared no answer to a read leaves before a write of the file and a sync behind it, both of which began
  after the request had come, and that readers share them.

Then the same calls are played with one left out, or at another place, and each time the fault has to be found.
"""
import os
import re
import shutil
import signal
import subprocess
import sys
import tempfile
import threading

import host
from bundles import CAPS, NULL, bundle, group
from host import Wrong, answer, request, want

HEAD, OPEN = 54, 0xff
CALLS = ("openat", "mkdir", "pwrite64", "write", "ftruncate", "fsync", "fdatasync", "rename", "fadvise64", "read",
         "recvfrom", "sendto", "sendmsg", "writev", "close")
CLIENTS, PUSHES = 6, 8
READERS, READS = 6, 12


# ---- the calls of a trace

class Call:
    """A call of the system: its name, its words, what it gave, and where in the trace it began and came back."""

    def __init__(self, name, words, gave, began, ended):
        self.name, self.words, self.gave, self.began, self.ended = name, words, gave, began, ended

    def path(self):
        """The file of the descriptor that the call is about."""
        found = re.match(r"\d+<([^>]*)>", self.words)
        return bytes_of(found[1]).decode() if found else ""

    def texts(self):
        return [bytes_of(it) for it in re.findall(r'"([^"]*)"', self.words)]

    def numbers(self):
        """The numbers after the last text."""
        return [int(it) for it in re.findall(r"\d+", self.words.rpartition('"')[2])]


def bytes_of(text):
    return bytes.fromhex(text.replace("\\x", ""))


def calls_in(trace):
    """The calls that came back, in the order in which they began."""
    begun, calls = {}, []
    for place, line in enumerate(trace):
        thread, _, rest = line.rstrip("\n").partition(" ")
        rest = rest.lstrip()
        if whole := re.fullmatch(r"(\w+)\((.*?)\)? *= (-?\d+|\?).*", rest):
            calls.append(Call(whole[1], whole[2], whole[3], place, place))
        elif first := re.fullmatch(r"(\w+)\((.*) <unfinished \.\.\.>", rest):
            begun[thread] = (first[1], first[2], place)
        elif last := re.fullmatch(r"<\.\.\. (\w+) resumed>(.*?)\)? *= (-?\d+|\?).*", rest):
            name, words, began = begun.pop(thread)
            if name == last[1]:
                calls.append(Call(name, words + last[2], last[3], began, place))
    return sorted(calls, key=lambda call: call.began)


# ---- the disk that has only what was synced

class Disk:
    """Files as they are, and what of them was synced. A folder has the names that its last sync found."""

    def __init__(self):
        self.files, self.synced, self.names, self.kept = {}, {}, {}, {}

    def write(self, path, at, text):
        file = self.files.setdefault(path, bytearray())
        file.extend(bytes(max(0, at - len(file))))
        file[at:at + len(text)] = text

    def rename(self, old, new):
        self.files[new] = self.files.pop(old)
        self.synced[new] = self.synced.pop(old, b"")
        self.names[new] = True

    def has(self, path):
        """What is sure to be there, under that name."""
        return self.synced.get(path, b"") if self.kept.get(path) else b""


def events_of(calls):
    """Begins and ends of calls, in the order of the trace."""
    events = [(call.began, 0, call) for call in calls] + [(call.ended, 1, call) for call in calls]
    return [(kind, call) for _, kind, call in sorted(events, key=lambda event: event[:2])]


def record_at(text, at):
    """Where the bundle begins and ends of the record whose commit byte is at that place. A name stands before it."""
    size, name = int.from_bytes(text[at + 1:at + 5], "big"), text[at + 13] if len(text) > at + 13 else 0
    return at + 34 + name, at + 34 + name + size


def records_on(text):
    """The records behind open commit bytes, and where the first shut one is."""
    records, at = [], HEAD
    while at < len(text) and text[at] == OPEN:
        begin, end = record_at(text, at)
        if len(text) < end:
            return records, at
        records.append(bytes(text[begin:end]))
        at = end
    return records, at


def whole_behind(text, at):
    """Whether a record stands behind the commit byte at that place, and a byte after it."""
    return len(text) > record_at(text, at)[1]


class Played:
    """The calls of one process, played on such a disk. What is wrong is told at the first call that is."""

    def __init__(self, store, disk, beats=False):
        self.store, self.disk, self.asked, self.replies, self.beats = store, disk, {}, 0, beats
        self.file, self.serves, self.begun = f"{store}/pushes", False, {}
        self.opened, self.fresh = "new", False
        self.reads, self.came, self.wrote, self.beat = 0, {}, -1, -1

    def play(self, calls):
        for ends, call in events_of(calls):
            if call.gave == "?" or call.gave.startswith("-"):
                continue
            if ends:
                self.ended(call)
            else:
                self.began(call)
        return self

    def began(self, call):
        name = call.name
        if name in ("fsync", "fdatasync"):
            path = call.path()
            self.begun[id(call)] = bytes(self.disk.files.get(path, b"")), set(self.disk.names), self.wrote
        elif name in ("sendto", "sendmsg", "writev"):
            self.send(call)
        elif name == "pwrite64" and call.path() == self.file:
            self.opens(call)
        elif name == "read" and call.path() == self.file and not self.fresh:
            raise Wrong("the file is read before it was synced and dropped")

    def ended(self, call):
        name = call.name
        if name == "pwrite64":
            if call.path() == self.file:
                self.wrote = max(self.wrote, call.began)
            self.disk.write(call.path(), call.numbers()[-1], call.texts()[0][:int(call.gave)])
        elif name == "ftruncate":
            path, size = call.path(), int(re.findall(r", (\d+)", call.words)[-1])
            del self.disk.files.setdefault(path, bytearray())[size:]
            self.disk.write(path, size, b"")
        elif name == "rename":
            old, new = (it.decode() for it in call.texts())
            if self.disk.synced.get(old, b"") != bytes(self.disk.files.get(old, b"")):
                raise Wrong("a file gets its name before it is synced")
            self.disk.rename(old, new)
        elif name in ("fsync", "fdatasync"):
            self.sync(call)
        elif name == "fadvise64" and call.path() == self.file:
            self.fresh = self.opened == "synced" and "DONTNEED" in call.words
        elif name == "openat" and call.texts()[-1].decode() == self.file:
            self.opened, self.fresh = "opened", False
        elif name == "recvfrom":
            self.asked[call.path()] = self.asked.get(call.path(), b"") + b"".join(call.texts())
            self.came[call.path()] = call.ended
        elif name == "write" and b"listening on" in b"".join(call.texts()):
            self.listen()

    def sync(self, call):
        path, (text, names, wrote) = call.path(), self.begun[id(call)]
        if path == self.file:
            self.beat = max(self.beat, wrote)
        if path in self.disk.files:
            self.disk.synced[path] = text
            if path == self.file and self.opened == "opened":
                self.opened = "synced"
        for name in names:
            if os.path.dirname(name) == path:
                self.disk.kept[name] = True

    def listen(self):
        if len(self.disk.has(self.file)) <= HEAD:
            raise Wrong("clients are served before the store is on the disk, under its name")
        self.serves = True

    def opens(self, call):
        """A commit byte that is opened has on the disk what stands behind it."""
        at, text = call.numbers()[-1], call.texts()[0]
        if text != bytes([OPEN]) or not self.serves:
            return
        if not whole_behind(self.disk.has(self.file), at):
            raise Wrong("a commit byte is opened before the records behind it are on the disk")

    def send(self, call):
        """A reply to a push has its record on the disk; an answer to a read has a beat that began since it came."""
        asked = self.asked.pop(call.path(), b"")
        head, _, body = asked.partition(b"\r\n\r\n")
        if self.beats and head.startswith(b"GET /?cmd=heads "):
            self.reads += 1
            if self.beat < self.came[call.path()]:
                raise Wrong("an answer leaves before a write and a sync that began after it was asked for")
        if not head.startswith(b"POST /?cmd=unbundle "):
            return
        self.replies += 1
        if body not in records_on(self.disk.has(self.file))[0]:
            raise Wrong("a reply leaves before its record is on the disk")


# ---- the program

def traced(folder):
    """A script that runs the program with its calls noted in files of this folder. Signals meet the program."""
    path, trace = f"{folder}/traced", f"{folder}/trace"
    program = os.path.abspath(sys.argv[1])
    words = f"strace -D -f -q -xx -y -s 65536 -e trace={','.join(CALLS)} -e signal=none"
    with open(path, "w", encoding="utf-8") as file:
        file.write(f"#!/bin/sh\nexec {words} -o {trace}.$$ {program} \"$@\"\n")
    os.chmod(path, 0o755)
    return path


def pushes_of(client, round_of):
    """Bundles that no other client has, each with a changeset of its own."""
    for number in range(PUSHES):
        text = b"%s\nT <t@e>\n0 0\n\nround %d, client %d, push %d" % (b"0" * 40, round_of, client, number)
        yield bundle(CAPS, group((text, NULL)))


def push_all(server, client, round_of, failed):
    kind = ("content-type: application/mercurial-0.1", "x-hgarg-1: heads=666f726365")
    try:
        with server.connect() as line:
            told = line.makefile("rb")
            for body in pushes_of(client, round_of):
                line.sendall(request("/?cmd=unbundle", body, kind))
                status, _, reply = answer(told)
                want("a push", (status, reply[:4]), (200, b"HG20"))
    except (Wrong, OSError) as why:
        failed.append(why)


def read_all(server, failed):
    try:
        with server.connect() as line:
            told = line.makefile("rb")
            for _ in range(READS):
                line.sendall(request("/?cmd=heads", None, ()))
                want("a read", answer(told)[0], 200)
    except (Wrong, OSError) as why:
        failed.append(why)


def serve_round(server, round_of, shared=False):
    """Starts the program, has clients push side by side, and ends it. Where the store is shared, others read meanwhile.
    Gives the number of its process."""
    server.start(*["--shared"] * shared)
    failed = []
    threads = [threading.Thread(target=push_all, args=(server, client, round_of, failed))
               for client in range(CLIENTS)]
    threads += [threading.Thread(target=read_all, args=(server, failed)) for _ in range(READERS * shared)]
    for it in threads:
        it.start()
    for it in threads:
        it.join()
    process = server.process.pid
    server.process.send_signal(signal.SIGTERM)
    server.process.wait(timeout=60)
    server.kill()
    if failed:
        raise failed[0]
    return process


def trace_of(folder, process):
    path = f"{folder}/trace.{process}"
    for _ in range(100):
        with open(path, encoding="ascii") as file:
            lines = file.readlines()
        if lines and "+++" in lines[-1]:
            break
        threading.Event().wait(0.1)
    return [it for it in lines if "+++" not in it]


# ---- faults that have to be found

def without(calls, wrong):
    """The calls without the last one that is as wanted."""
    last = max(place for place, call in enumerate(calls) if wrong(call))
    return calls[:last] + calls[last + 1:]


def is_sync(path, of=("fsync", "fdatasync")):
    return lambda call: call.name in of and call.path() == path


def unsynced(calls, store):
    """A sync of the file that is noted and not made: the first after the server listens."""
    serves = next(call.began for call in calls if call.name == "write" and b"listening" in b"".join(call.texts()))
    first = next(call for call in calls if call.began > serves and is_sync(f"{store}/pushes")(call))
    return [call for call in calls if call is not first]


def early_reply(calls, store):
    """The first reply that leaves before the last sync ahead of it came back."""
    sends = [call for call in calls if call.name == "sendto" and call.texts()[0].startswith(b"HTTP/1.1 200")]
    sync = max((call for call in calls if is_sync(f"{store}/pushes")(call) and call.ended < sends[0].began),
               key=lambda call: call.ended)
    return [Call(it.name, it.words, it.gave, sync.began - 0.5, sync.began - 0.5) if it is sends[0] else it
            for it in calls]


def early_commit(calls, store):
    """The first commit byte that is opened before the sync ahead of it."""
    opens = next(call for call in calls if call.name == "pwrite64" and call.texts()[0] == bytes([OPEN]))
    sync = max((call for call in calls if is_sync(f"{store}/pushes")(call) and call.ended < opens.began),
               key=lambda call: call.ended)
    return [Call(it.name, it.words, it.gave, sync.began - 0.5, sync.began - 0.5) if it is opens else it
            for it in calls]


def early_answer(calls, store):
    """The first answer to a read that leaves as soon as it was asked for."""
    asked = next(call for call in calls if call.name == "recvfrom" and call.texts()[:1]
                 and call.texts()[0].startswith(b"GET /?cmd=heads "))
    send = next(call for call in calls if call.name == "sendto" and call.path() == asked.path()
                and call.began > asked.ended)
    return [Call(it.name, it.words, it.gave, asked.ended + 0.5, asked.ended + 0.5) if it is send else it for it in calls]


FAULTS = {
    "a sync that is not made": (0, unsynced),
    "a reply before the last sync": (0, early_reply),
    "a commit byte before the sync of its records": (0, early_commit),
    "a new file that is not synced": (0, lambda calls, store: without(calls, is_sync(f"{store}/pushes.new"))),
    "folders that are not synced": (
        0, lambda calls, store: [call for call in calls if not is_sync(store)(call)]),
    "a start that does not sync the file": (
        1, lambda calls, store: without(calls, is_sync(f"{store}/pushes", ("fsync",)))),
    "a start that reads what the system kept": (
        1, lambda calls, store: without(calls, lambda call: call.name == "fadvise64")),
    "an answer before its beat": (2, early_answer),
}


def is_found(rounds, store, place, turned):
    """Whether the calls of the rounds are refused where those of one are turned so."""
    disk = Disk()
    for number, calls in enumerate(rounds[:place + 1]):
        try:
            Played(store, disk, number == 2).play(turned(calls, store) if number == place else calls)
        except Wrong:
            return number == place
    return False


def main():
    if not shutil.which("strace"):
        print("synced.py: skipped, the command strace is not installed")
        return 0
    with tempfile.TemporaryDirectory(prefix="synced-") as folder:
        host.PROGRAM, server = traced(folder), host.Host(folder)
        try:
            rounds = [calls_in(trace_of(folder, serve_round(server, number, number == 2))) for number in range(3)]
            disk = Disk()
            for number, calls in enumerate(rounds):
                played = Played(server.store, disk, number == 2).play(calls)
                want(f"replies of round {number}", played.replies, CLIENTS * PUSHES)
            want("answers to reads", played.reads, READERS * READS)
            with open(f"{server.store}/pushes", "rb") as file:
                want("the file", bytes(disk.files[f"{server.store}/pushes"]), file.read())
        except Wrong as why:
            print(f"FAILED: {why}")
            return 1
        finally:
            server.kill()
        print(f"as wanted: {3 * CLIENTS * PUSHES} replies after their records were synced")
        print(f"as wanted: {READERS * READS} reads after a write and a sync that began behind them")
        failed = 0
        for name, (place, turned) in FAULTS.items():
            found = is_found(rounds, server.store, place, turned)
            failed += not found
            print(f"{'as wanted: found' if found else 'FAILED: not found'}: {name}")
    print(f"synced.py: {len(FAULTS) + 2 - failed} as wanted, {failed} not")
    return 1 if failed else 0


if __name__ == "__main__":
    sys.exit(main())
