"""Bundles that are brought into stores by the built program: import.py PROGRAM [NAME..]

Each case runs `import`, and compares the status, the lines, and every byte of the store but the times. One kills it
while it works. Where there is Mercurial's `hg`, some bring in repositories by `examples/import.sh`.
"""
import fcntl
import os
import random
import re
import shutil
import signal
import struct
import subprocess
import sys
import tempfile
import time

sys.dont_write_bytecode = True
PROGRAM = os.path.abspath(sys.argv[1])
import store
from bundles import EMPTY, bundle
from store import EXAMPLES, SHUT, Wrong, found_in, journal, read, row, rows, sha1, store_of, want

SCRIPT = f"{EXAMPLES}/import.sh"
CASES = []


def case(body):
    CASES.append(body)
    return body


def records_in(data):
    """The times, the names and the bundles of a store of version 2, each digest compared."""
    digest, at, found = sha1(data[:54]), 54, []
    while at < len(data) and data[at] == 0xff:
        size, moment, named = struct.unpack_from(">IQB", data, at + 1)
        label, behind = data[at + 1:at + 14 + named], at + 34 + named
        it = data[behind:behind + size]
        digest = sha1(digest + label + sha1(it))
        want("a digest", data[behind - 20:behind], digest)
        found.append((moment, label[13:], it))
        at = behind + size
    want("the end of the store", data[at:], SHUT)
    return found


def lines(count, last=""):
    return "".join(f"{place}\n" for place in range(count)).encode() + last.encode()


def put(room, name, data):
    with open(room.path(name), "wb") as file:
        file.write(data)
    return name


def notes(count):
    """Bundles that differ."""
    return [bundle((b"note", (), b"%d" % number)) for number in range(count)]


@case
def pushes_of_a_client(room):
    """The pushes of each example: those that are done are the records, and the report is what Mercurial's server held.
    At one that is not done it ends; those behind it follow by another run."""
    for it in rows():
        shutil.rmtree(room.path("store"), ignore_errors=True)
        words = ["import", "--store", "store", *(["--publishing"] if it.publishing else [])]
        before = int(time.time() * 1000)
        done = room.start(*words, *it.files)
        want("status", (done.returncode, done.stderr), (0, b""))
        want("lines", done.stdout, lines(len(it.files)))
        found = records_in(read(room.path("store/pushes")))
        want("the bundles", [bundle for _, _, bundle in found], it.bundles)
        want("the names", {name for _, name, _ in found}, {b""} if found else set())
        want("the times", all(before <= moment <= time.time() * 1000 for moment, _, _ in found), True)
        room.run("report --store store", it.report + journal(len(it.files)))


@case
def the_first_that_is_not_done(room):
    """A push that is refused, one that is cut short, a file that is none: the pushes before it are kept, it and those
    behind it changed nothing, and each is named."""
    first, second, raced = (f"{EXAMPLES}/pushes/race/{number:02}.hg20" for number in (1, 2, 3))
    torn = room.path(put(room, "short", read(second)[:-1]))
    for name, words, status, line, told in (
            ("raced", (first, second, raced, torn), 1, "heads changed", "push aborted"),
            ("torn", (first, torn, second), 1, "stream fault 10", "push aborted"),
            ("missing", (first, "none", second), 3, "read failed", "entity not found"),
            ("folder", (first, "/", second), 3, "read failed", "")):
        done = room.start("import", "--store", name, *words)
        count = 2 if name == "raced" else 1
        want(f"status of {name}", done.returncode, status)
        want(f"lines of {name}", done.stdout, lines(count, f"{line}\n"))
        start = f"hg_pushd: {words[count]}: "
        want(f"line on standard error of {name}", done.stderr.decode().startswith(start + told), True)
        want("the bundles", [it for _, _, it in records_in(read(room.path(f"{name}/pushes")))],
             [read(it) for it in words[:count]])
        again = room.start("import", "--store", name, second)
        want("it goes on", again.returncode, 1 if name == "raced" else 0)


@case
def a_store_that_is_there(room):
    """Records come behind those that are there, byte for byte; of one file each, of many, and beside bytes behind a shut
    gate, which are kept."""
    old, new = notes(3), notes(9)[3:]
    files = [put(room, f"{number}", it) for number, it in enumerate(new)]
    data, ends = store_of(old)
    for tail in (b"", b"\0rest"):
        room.store(data + tail)
        done = room.start("import", "--store", "store", *files)
        want("status", done.returncode, 0)
        want("lines", done.stdout, b"".join(b"%d\n" % place for place in range(3, 9)))
        made = read(room.path("store/pushes"))
        want("what was there", made[:ends[-1]], data[:-1])
        want("the bundles", [it for _, _, it in records_in(made)], old + new)
        want("what is kept", [name for name in os.listdir(room.path("store")) if name != "pushes"],
             ["pushes.tail-3"] if tail else [])
    room.run("import --store one " + files[0], lines(1))
    room.run("import --store one " + files[1], b"1\n")
    want("the bundles", [it for _, _, it in records_in(read(room.path("one/pushes")))], new[:2])


@case
def bytes_behind_an_end_mark(room):
    """They are not of the bundle, and no record has them."""
    one, two = notes(2)
    room.run(f"import --store store {put(room, 'one', one + two)} {put(room, 'two', two)}", lines(2))
    want("the bundles", [it for _, _, it in records_in(read(room.path("store/pushes")))], [one, two])


@case
def pushes_that_a_gate_hides(room):
    """A gate has turned to 0, and pushes came since: those that it hides are taken back as docs/operating.md says, and
    the others come behind them."""
    bundles = notes(8)
    data, ends = store_of(bundles[:6])
    since = [put(room, f"since{number}", it) for number, it in enumerate(bundles[6:])]
    room.store(data[:ends[2]] + SHUT + data[ends[2] + 1:])
    done = room.start("import", "--store", "store", *since)
    want("pushes since", (done.returncode, done.stdout), (0, b"2\n3\n"))
    for words in ("log --store store --from 2 --to since", "cut --store store --at 2"):
        room.run(words)
    os.mkdir(room.path("new"))
    joined = "{ head -c -1 store/pushes; printf '\\377'; tail -c +2 store/pushes.tail-2; } > new/pushes"
    subprocess.run(["bash", "-c", joined], cwd=room.folder, check=True)
    want("the bytes of before", read(room.path("new/pushes")), data)
    room.run("report --store new", journal(6))
    room.run("import --store new since/0000000002 since/0000000003", b"6\n7\n")
    want("the bundles", [it for _, _, it in records_in(read(room.path("new/pushes")))], bundles)


@case
def a_store_that_publishes_is_made_of_another(room):
    """The canonical pushes of a store that does not publish, brought into one that does: the same changesets, all of
    them public, and the same bookmarks and markers."""
    for it in (it for it in rows() if not it.publishing):
        for name in ("all", "public"):
            shutil.rmtree(room.path(name), ignore_errors=True)
        room.store(it.store())
        room.run("log --store store --canonical --to all")
        files = sorted(f"all/{name}" for name in os.listdir(room.path("all")))
        room.run(f"import --store public --publishing {' '.join(files)}", lines(len(files)))
        public = [b" ".join([*line.split()[:3], b"0", b"0"]) if line.startswith(b"C ") else line
                  for line in (it.report + journal(len(files))).splitlines()]
        want("the report", room.start("report", "--store", "public").stdout.splitlines(), public)


@case
def stores_that_are_refused(room):
    """Another version, another setting, damage, a torn record, a store that is held, and none where there has to be one:
    nothing is changed or made, and the line names the file."""
    name = put(room, "push", EMPTY)
    data, ends = store_of(notes(2))
    words = f"import --store store {name}"
    room.store(store_of(notes(2), version=1)[0])
    room.looks(words, status=3, line="store/pushes: a store of version 1: upgrade it with `hg_pushd upgrade`")
    room.store(data)
    room.looks(f"import --store none --existing {name}", status=3, line="none/pushes: no store")
    for made, text in ((store_of([], True)[0], "publish"), (data[:ends[1] - 1] + b"x" + data[ends[1]:], "damage"),
                       (data[:ends[1]] + b"\7", "damage"), (data[:ends[1] + 9], "hg_pushd cut"), (b"HGPUSHES", "store")):
        room.store(made)
        before = found_in(room.folder)
        done = room.start(*words.split())
        want(f"status of {text}", (done.returncode, done.stdout), (3, b""))
        want(f"line of {text}", re.fullmatch(rf"hg_pushd: store.*{text}.*\n", done.stderr.decode()) is not None, True)
        want(f"files of {text}", found_in(room.folder), before)
    room.store(data)
    with open(room.path("store/pushes"), "rb") as held:
        fcntl.flock(held, fcntl.LOCK_EX)
        done = room.start(*words.split())
        want("a store that is held", (done.returncode, done.stdout, read(room.path("store/pushes"))), (3, b"", data))
    room.run(words, b"2\n")


@case
def words_that_are_wrong(room):
    """Status 2, and nothing is made."""
    for words in ("import", "import --store store", "import push", "import --store store --bad push"):
        done = room.start(*words.split())
        want(f"status of `{words}`", (done.returncode, done.stdout), (2, b""))
    want("files", list(found_in(room.folder)), ["."])


@case
def outputs_that_fail(room):
    """A full device for the lines: the first push is kept, and it ends."""
    one, two = (put(room, f"{number}", it) for number, it in enumerate(notes(2)))
    with open("/dev/full", "wb") as full:
        done = room.start("import", "--store", "store", one, two, stdout=full)
    want("status", (done.returncode, done.stderr), (3, b"hg_pushd: device fault\n"))
    want("the records", len(records_in(read(room.path("store/pushes")))), 1)


@case
def many_files(room):
    """500 files, more than a process may have open."""
    files = [put(room, f"{number:04}", it) for number, it in enumerate(notes(500))]
    done = subprocess.run(["bash", "-c", f'ulimit -n 64; exec "{PROGRAM}" import --store store [0-9]*'], cwd=room.folder,
                          capture_output=True, check=False, timeout=120)
    want("status", (done.returncode, done.stderr, done.stdout), (0, b"", lines(len(files))))
    want("the records", len(records_in(read(room.path("store/pushes")))), len(files))


@case
def killed_at_any_moment(room):
    """It is killed again and again, and goes on behind what is kept: each line that came out has its record, there is at
    most one record more, and in the end each push is there once."""
    dice, all_notes = random.Random(5), notes(200)
    names = [put(room, f"{number:04}", it) for number, it in enumerate(all_notes)]
    kept = kills = 0
    while kept < len(names):
        with subprocess.Popen([PROGRAM, "import", "--store", "store", *names[kept:]], cwd=room.folder,
                              stdout=subprocess.PIPE, stderr=subprocess.DEVNULL) as running:
            time.sleep(0.02 + dice.random() * 0.3)
            running.send_signal(signal.SIGKILL)
            told = running.stdout.read().count(b"\n")
        kills += 1
        if kills > 400:
            raise Wrong("it does not come to its end")
        if not os.path.exists(room.path("store/pushes")):
            continue
        room.start("log", "--store", "store", "--list")
        done = room.start("report", "--store", "store")
        want("status of the report", done.returncode, 0)
        now = done.stdout.count(b"J ")
        want("lines and records", kept + told <= now <= kept + told + 1, True)
        kept = now
    room.run("import --store store 0000", b"%d\n" % len(names))
    found = [it for _, _, it in records_in(read(room.path("store/pushes")))]
    want("the bundles", found, [*all_notes, all_notes[0]])


class Repository:
    """A repository of Mercurial, what `examples/import.sh` brings in of it, and the store where that comes."""

    def __init__(self, room, dag):
        self.room = room
        self.environment = {**os.environ, "HGPLAIN": "1", "HGRCPATH": "", "HG_PUSHD": PROGRAM, "TMPDIR": room.folder}
        self.hg("init", room.path("old"))
        self.hg("debugbuilddag", "-n", dag)

    def said(self, *words):
        done = subprocess.run(words, cwd=self.room.folder, env=self.environment, capture_output=True, check=False,
                              timeout=240)
        want(f"status of {words[:2]}: {done.stderr[-300:]}", done.returncode, 0)
        return done.stdout

    def hg(self, *words):
        return self.said("hg", "-R", "old", *words)

    def script(self, *words, **how):
        return subprocess.Popen(["bash", SCRIPT, "old", "store", *words], cwd=self.room.folder,
                                env={**self.environment, **how}, stdout=subprocess.PIPE, stderr=subprocess.PIPE,
                                start_new_session=True)

    def bring(self, *words, **how):
        """Its status, its lines, and what it says on standard error."""
        with self.script(*words, **how) as run:
            lines, told = run.communicate(timeout=240)
        return run.returncode, lines, told.decode()

    def is_brought(self, *words):
        status, lines, told = self.bring(*words)
        want("status and lines on standard error", (status, told), (0, ""))
        want("what is left", sorted(os.listdir(self.room.folder)), ["old", "store"])
        return lines

    def count(self):
        return len(self.hg("log", "-r", "all() - secret()", "-T", "x"))

    def report(self):
        """The changesets with their phases, and the bookmarks."""
        rows = [line.split() for line in self.said(PROGRAM, "report", "--store", "store").splitlines()]
        return sorted(it[2:4] for it in rows if it[0] == b"C"), sorted(it[1:] for it in rows if it[0] == b"B")

    def is_all_there(self):
        """The store has what is neither hidden nor secret, and each changeset was brought once."""
        text = self.hg("log", "-r", "all() - secret()", "-T", "{node} {ifeq(phase, 'public', 0, 1)}\n")
        names = "{bookmarks % '{node} {bookmark}\n'}"
        marks = self.hg("log", "-r", "bookmark() - secret()", "-T", names).splitlines()
        wanted = [[node, re.sub(rb"[^0-9A-Za-z]", lambda it: b"%%%02X" % ord(it[0]), name)]
                  for node, name in (it.split(b" ", 1) for it in marks)]
        want("changesets and bookmarks", self.report(), (sorted(it.split() for it in text.splitlines()), sorted(wanted)))
        listed = self.said(PROGRAM, "log", "--store", "store", "--list").splitlines()
        want("how many changesets were brought", sum(int(it.split()[3]) for it in listed), len(text.splitlines()))


def pieces(before, count, size):
    """The lines of pieces of that size."""
    ends = [*range(before + size, count, size), count]
    return "".join(f"{end} of {count} changesets\n" for end in ends).encode()


def with_hg(body):
    return case(body) if shutil.which("hg") else body


@with_hg
def a_repository(room):
    """460 changesets with branches, merges and bookmarks, public, draft and secret ones, in pieces of 50; nothing more
    by a run after that; and more later."""
    old = Repository(room, "+150:a @one +50 <a @two +60 /a +99 @three *a +98")
    old.hg("phase", "-f", "-p", "200")
    old.hg("phase", "-f", "-s", "440")
    for number, name in ((5, "a b"), (300, "b%é\"x"), (7, "-B"), (5, "another"), (445, "secret")):
        old.hg("bookmark", "-r", str(number), "--", name)
    count = old.count()
    want("changesets to bring", 400 < count < 450, True)
    want("lines", old.is_brought("50"), pieces(0, count, 50))
    old.is_all_there()
    before = read(room.path("store/pushes"))
    want("lines of a run after it", old.is_brought("50"), b"")
    want("the store after it", read(room.path("store/pushes")), before)
    old.hg("phase", "-d", "440:")
    old.hg("bookmark", "-f", "-r", "6", "a b")
    want("lines later", old.is_brought(), pieces(count, old.count(), 1000))
    old.is_all_there()
    want("the records", old.said(PROGRAM, "report", "--store", "store").count(b"J "), 12)


@with_hg
def a_repository_that_publishes(room):
    """All of it is public in a store that publishes; a run that goes on does not say so again."""
    old = Repository(room, "+40")
    old.hg("phase", "-f", "-s", "30")
    want("status", old.bring("20", PUBLISHING="yes")[:2], (0, pieces(0, 30, 20)))
    old.hg("phase", "-d", "30:")
    want("lines", old.is_brought(), pieces(30, 40, 1000))
    want("phases", {phase for _, phase in old.report()[0]}, {b"0"})


@with_hg
def a_repository_whose_run_is_stopped(room):
    """Its run is ended at any moment: all its processes, or the script alone, whose children go on for a while. Each
    further one goes on behind what is kept, none brings a changeset again, and in the end all is there."""
    old, dice, seen, stops = Repository(room, "+40:a @one +20 <a @two +30 /a +9"), random.Random(), [0], 0
    old.hg("phase", "-f", "-p", "50")
    old.hg("bookmark", "-r", "5", "mark")
    start = time.time()
    count = old.count()
    one = time.time() - start
    for turn in range(60):
        with old.script("2") as run:
            try:
                # so many of Mercurial's commands, more each time
                lines, told = run.communicate(timeout=one * (3 + (turn + 4) * 1.5 * dice.random()))
            except subprocess.TimeoutExpired:
                stops += 1
                dice.choice((os.kill, os.killpg))(run.pid, dice.choice((signal.SIGKILL, signal.SIGTERM, signal.SIGINT)))
                lines, told = run.communicate(timeout=120)
        ends = [int(it.split()[0]) for it in lines.splitlines() if it.endswith(b" changesets")]
        want("lines go up", ends == sorted({*ends} - {*seen}), True)
        seen += ends
        if os.path.exists(room.path("store/pushes")):
            want("what is told is kept", len(old.report()[0]) >= seen[-1], True)
        if run.returncode == 0:
            break
    want(f"it comes to its end: {told}", (run.returncode, seen[-1]), (0, count))
    want("it was stopped on the way", stops > 1, True)
    old.is_all_there()
    for name in os.listdir(room.folder):
        want(f"what is left: {name}", name in ("old", "store") or name.startswith("tmp."), True)


@with_hg
def a_repository_that_is_refused(room):
    """A piece that is torn is named by its reason, and what stands before it is kept. A store that is held, one of
    version 1, and one that is damaged are not changed. Each run after that goes on."""
    old = Repository(room, "+40")
    tearing = room.path("tearing")
    with open(tearing, "w", encoding="ascii") as file:
        file.write(f'#!/bin/sh\n[ "$1" != import ] || truncate -c -s -1 store.pieces/piece.01\nexec "{PROGRAM}" "$@"\n')
    os.chmod(tearing, 0o755)
    node = old.hg("log", "-r", "20", "-T", "{node|short}").decode()
    again = f"before {node}; run it again to go on from there\n"
    want("a torn piece", old.bring("10", HG_PUSHD=tearing),
         (1, b"10 of 40 changesets\n20 of 40 changesets\n",
          "hg_pushd: store.pieces/piece.01: push aborted\nimport.sh: the next piece is not done: stream fault 10\n"
          f"import.sh: stopped behind 20 of 40 changesets, {again}"))
    os.remove(tearing)
    data = read(room.path("store/pushes"))
    with open(room.path("store/pushes"), "rb") as held:
        fcntl.flock(held, fcntl.LOCK_EX)
        want("a store that is held", old.bring("10"),
             (3, b"", "hg_pushd: store/pushes: another process holds the store\n"
              f"import.sh: stopped behind 20 of 40 changesets, {again}"))
    bundles = [it for _, _, it in records_in(data)]
    for made, line in ((store_of(bundles, version=1)[0], "a store of version 1"), (data[:-2] + b"xx", "damage")):
        room.store(made)
        status, came, told = old.bring("10")
        want(f"{line}: {told}", (status, came, line in told), (3, b"", True))
        want("the store", read(room.path("store/pushes")), made)
    room.store(data)
    want("lines", old.is_brought("10"), pieces(20, 40, 10))
    old.is_all_there()


@with_hg
def words_of_the_script(room):
    """Another number of words, and a number that is none: its use, and nothing is made. No repository: its status."""
    for words in ((), ("old",), ("old", "store", "0"), ("old", "store", "x"), ("old", "store", "-1"), ("a", "b", "1", "c")):
        done = subprocess.run(["bash", SCRIPT, *words], cwd=room.folder, capture_output=True, check=False, timeout=60)
        want(f"its use by {words}", (done.returncode, done.stdout, b"import.sh REPOSITORY URL" in done.stderr), (2, b"", True))
    done = subprocess.run(["bash", SCRIPT, "old", "store"], cwd=room.folder, capture_output=True, check=False, timeout=60)
    want("no repository", (done.returncode, done.stdout, b"old" in done.stderr), (255, b"", True))
    want("files", os.listdir(room.folder), [])


def main():
    failed, names = 0, sys.argv[2:]
    cases = [it for it in CASES if not names or it.__name__ in names]
    for body in cases:
        with tempfile.TemporaryDirectory(prefix="import-") as folder:
            try:
                body(store.Room(folder))
            except (Wrong, OSError, subprocess.TimeoutExpired) as error:
                print(f"{body.__name__}: {error}")
                failed += 1
    print(f"Imports: {len(cases) - failed} of {len(cases)} cases as wanted.")
    return 1 if failed or not cases else 0


if __name__ == "__main__":
    sys.exit(main())
