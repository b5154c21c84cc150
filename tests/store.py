"""Stores made by hand, read and ended by the built program: store.py PROGRAM [NAME..]

Each case writes the file of a store byte by byte, as its format is, and runs `report`, `log`, `cut`, `replay` or
`import`. It compares the status, standard output, the lines on standard error, and every file below the case's own
folder.
"""
import concurrent.futures
import datetime
import fcntl
import glob
import hashlib
import os
import random
import struct
import subprocess
import sys
import tempfile

from bundles import CAPS, EMPTY, NULL, ROOT_PUSH, any_bundle, bundle, changesets_in, chunks, group, header, heads, number

sys.dont_write_bytecode = True
sys.path.append(f"{os.path.dirname(os.path.dirname(os.path.abspath(__file__)))}/mirror")
import canonical

PROGRAM = os.path.abspath(sys.argv[1])
EXAMPLES = f"{os.path.dirname(os.path.dirname(os.path.abspath(__file__)))}/examples"
LIMITS = (65536, 67108864, 268435456, 10000, 16777216, 1024, 2147483647)
HEAD = 54
OLD_HEAD = 38
OPEN = {1: b"\1", 2: b"\xff"}
USER = b"ann"
SHUT = b"\0"
CASES = []


class Wrong(Exception):
    pass


def case(body):
    CASES.append(body)
    return body


def want(what, got, wanted):
    if got != wanted:
        raise Wrong(f"{what}: {str(got)[:400]}, not {str(wanted)[:400]}")


def sha1(data):
    return hashlib.sha1(data).digest()


def head(publishing=False, version=2):
    name = b"the name of this" if version == 2 else b""
    return struct.pack(">8sBB7I", b"HGPUSHES", version, publishing, *LIMITS) + name


def store_of(bundles, publishing=False, end=SHUT, version=2, stamps=None):
    """The bytes of a store, and the places where its head and each of its records end. In version 2 each push is of the
    user, a second behind the one before; or of the stamps, which are a time and a name."""
    made = head(publishing, version)
    digest, ends = sha1(made), [len(made)]
    for number, it in enumerate(bundles):
        time, name = stamps[number] if stamps else (1000 * number, USER)
        length = struct.pack(">I", len(it))
        stamp = struct.pack(">QB", time, len(name)) + name if version == 2 else b""
        digest = sha1(digest + (length + stamp if version == 2 else b"") + sha1(it))
        made += OPEN[version] + length + stamp + digest + it
        ends.append(len(made))
    return made + end, ends


def read(path):
    with open(path, "rb") as file:
        return file.read()


def found_in(folder):
    """Every file and folder below a folder, with its bytes."""
    found = {}
    for place, _, names in os.walk(folder):
        found[os.path.relpath(place, folder)] = None
        found.update((os.path.relpath(f"{place}/{it}", folder), read(f"{place}/{it}")) for it in names)
    return found


class Room:
    """A folder of its own, in which stores are written and the program is run."""

    def __init__(self, folder):
        self.folder = folder

    def path(self, name):
        return f"{self.folder}/{name}"

    def store(self, data, name="store"):
        os.makedirs(self.path(name), exist_ok=True)
        with open(self.path(f"{name}/pushes"), "wb") as file:
            file.write(data)

    def start(self, *words, **how):
        how = {"stdout": subprocess.PIPE, "stderr": subprocess.PIPE, **how}
        return subprocess.run([PROGRAM, *words], cwd=self.folder, stdin=subprocess.DEVNULL, check=False, timeout=60,
                              **how)

    def run(self, words, output=b"", status=0, line=""):
        """Runs the program, which has to write that output, to tell that line, and to end with that status."""
        done, name = self.start(*words.split()), f"`{words}`"
        want(f"status of {name}", (done.returncode, done.stderr.decode()), (status, line and f"hg_pushd: {line}\n"))
        want(f"output of {name}", done.stdout, output)

    def looks(self, words, output=b"", status=0, line=""):
        """The same of a command that changes and makes nothing."""
        before = found_in(self.folder)
        self.run(words, output, status, line)
        want(f"files after `{words}`", found_in(self.folder), before)


class Row:
    """The pushes of an example that are done, and what the repository then holds."""

    def __init__(self, folder):
        self.publishing = os.path.exists(f"{folder}/publishing")
        statuses = read(f"{folder}/statuses").split()
        files = sorted(glob.glob(f"{folder}/*.hg20"))
        self.files = [path for path, status in zip(files, statuses, strict=True) if status == b"0"]
        self.bundles = [read(it) for it in self.files]
        self.report = read(f"{folder}/report")

    def store(self):
        return store_of(self.bundles, self.publishing)[0]

    def words(self):
        return "replay --publishing" if self.publishing else "replay"


def rows():
    return [Row(os.path.dirname(it)) for it in sorted(glob.glob(f"{EXAMPLES}/pushes/*/report"))]


def row(name):
    return Row(f"{EXAMPLES}/pushes/{name}")


def journal(count):
    return b"".join(b"J %d\n" % place for place in range(count))


def replayed(room, words):
    done = room.start(*words.split())
    want(f"status of `{words}`", done.returncode, 0)
    return done.stdout


def root_report():
    return b"C 0 b80de5d138758541c5f05265ad144ab9fa86d1db 1 0\n"


@case
def the_head_of_a_store(room):
    """A head has 54 bytes, and a store without pushes an empty report."""
    data, ends = store_of([], end=b"")
    want("length of a head", (len(data), ends), (HEAD, [HEAD]))
    for end in (b"", SHUT, SHUT + b"what stands there is not looked at"):
        room.store(data + end)
        room.looks("report --store store")
        room.looks("log --store store")


@case
def each_row_is_reported(room):
    """What Mercurial's server held after the pushes of each row, whether it publishes or not."""
    for it in rows():
        room.store(it.store())
        room.looks("report --store store", it.report + journal(len(it.bundles)))


@case
def each_row_is_logged(room):
    """All bundles, and those from each place on; from a place after the last there is none."""
    for it in rows():
        room.store(it.store())
        room.looks("log --store store", b"".join(it.bundles))
        for first in range(len(it.bundles) + 2):
            room.looks(f"log --store store --from {first}", b"".join(it.bundles[first:]))
        room.looks("log --store store --from 18446744073709551615")


@case
def a_log_is_replayed(room):
    """Each bundle in a file of its own, named by its place: these files have the same report."""
    for number, it in enumerate(rows()):
        room.store(it.store())
        before, folder = found_in(room.path("store")), f"log-{number}"
        room.run(f"log --store store --to {folder}")
        named = [f"{place:010}" for place in range(len(it.bundles))]
        want("files of a log", found_in(room.path(folder)), {".": None, **dict(zip(named, it.bundles))})
        want("the store after its log", found_in(room.path("store")), before)
        files = " ".join(f"{folder}/{name}" for name in named)
        want("report of a replayed log", replayed(room, f"{it.words()} {files}"), it.report)


@case
def a_log_goes_on(room):
    """From a place on, into a folder that is there; a file that is there is not written over."""
    it = row("merge")
    room.store(it.store())
    os.mkdir(room.path("log"))
    room.run("log --store store --from 1 --to log")
    wanted = {".": None, **{f"{place:010}": it.bundles[place] for place in range(1, len(it.bundles))}}
    want("files of the log", found_in(room.path("log")), wanted)
    with open(room.path("log/0000000001"), "wb") as file:
        file.write(b"mine")
    wanted |= {"0000000000": it.bundles[0], "0000000001": b"mine"}
    room.run("log --store store --to log", status=3, line="log/0000000001: there is a file already")
    want("files of a refused log", found_in(room.path("log")), wanted)
    room.looks("log --store store --to log", status=3, line="log/0000000000: there is a file already")
    before = found_in(room.folder)
    done = room.start("log", "--store", "store", "--to", "missing/log")
    want("a folder that cannot be made", (done.returncode, done.stderr[:21]), (3, b"hg_pushd: missing/log"))
    want("files after it", found_in(room.folder), before)


@case
def a_canonical_log(room):
    """What the server passes over is left out: parts, parameters, and what interrupts a payload."""
    kind, params, payload = group((b"", NULL))
    dice = random.Random(1)
    output = header(b"output", 9, ()) + chunks(dice, b"to a person")
    text = b"HG20" + number(3) + b"a=b" + header(b"REPLYCAPS", 0, ()) + number(0)
    text += header(b"remote-changegroup", 1, ((True, b"url", b"http://other/"),)) + number(0)
    text += header(b"ChangeGroup", 7, ((True, b"version", b"02"), (False, b"nbchanges", b"x"), (False, b"k", b"v")))
    text += number(5) + payload[:5] + number(-1) + output + number(len(payload) - 5) + payload[5:] + number(0)
    text += header(b"hgtagsfnodes", 2, ()) + chunks(dice, bytes(48)) + number(0)
    wanted = b"HG20" + number(0) + header(b"ChangeGroup", 7, ((True, *params[0]),))
    wanted += number(len(payload)) + payload + number(0) + number(0)
    room.store(store_of((text, EMPTY))[0])
    room.looks("log --store store --canonical", wanted + EMPTY)
    room.looks("log --store store --canonical --from 1", EMPTY)
    room.looks("report --store store", root_report() + journal(2))


def line_of(place, time, name, bundle):
    """The line of a push: when it was pushed, in milliseconds, and by whom."""
    late = time // 1000 >= 253402300800
    when = "-" if time == 0 or late else (datetime.datetime(1970, 1, 1) + datetime.timedelta(milliseconds=time)).strftime(
        "%Y-%m-%dT%H:%M:%SZ").rjust(20, "0")
    who = "".join(chr(it) if chr(it).isascii() and chr(it).isalnum() else f"%{it:02X}" for it in name) or "-"
    return f"{place} {when} {who} {len(list(changesets_in(bundle)))} {len(bundle)}\n".encode()


@case
def each_row_is_listed(room):
    """A line for each push, from each place on."""
    for it in rows():
        room.store(it.store())
        lines = [line_of(place, 1000 * place, USER, text) for place, text in enumerate(it.bundles)]
        room.looks("log --store store --list", b"".join(lines))
        for first in range(len(lines) + 2):
            room.looks(f"log --store store --list --from {first}", b"".join(lines[first:]))


@case
def times_and_names_of_a_list(room):
    """A time that is not known or has no date, one of each year from 1970 to 9999, and each byte in a name."""
    stamps = [(0, b""), (1, b"-"), (253402300799999, bytes(range(128))), (253402300800000, bytes(range(128, 256))),
              (2**64 - 1, b"ann"), (1796016667999, b"ann lee@example.org")]
    dice = random.Random(5)
    stamps += [(1000 * dice.randrange(31556952 * year, 31556952 * (year + 1)), b"%d" % year) for year in range(8029)]
    bundles = [EMPTY] * len(stamps)
    room.store(store_of(bundles, stamps=stamps)[0])
    lines = [line_of(place, *stamp, EMPTY) for place, stamp in enumerate(stamps)]
    want("one of them", lines[5], b"5 2026-11-30T05:31:07Z ann%20lee%40example%2Eorg 0 12\n")
    room.looks("log --store store --list", b"".join(lines))
    room.store(store_of(bundles[:3], version=1)[0])
    room.looks("log --store store --list", b"".join(b"%d - - 0 12\n" % place for place in range(3)))


@case
def a_list_that_stops(room):
    """Torn, damaged, of a record that is no bundle, and with what it excludes."""
    push = bundle(CAPS, group((b"", NULL)))
    lines = [line_of(place, 1000 * place, USER, push) for place in range(3)]
    data, ends = store_of((push, push, push))
    room.store(data[:ends[2] + 5])
    room.looks("log --store store --list", b"".join(lines[:2]), line=torn("store", 2))
    room.store(data[:ends[2] - 1] + b"?" + data[ends[2]:])
    room.looks("log --store store --list", status=3, line="store/pushes: damage at place 1")
    room.store(store_of((push, push[:-1], push))[0])
    room.looks("log --store store --list", lines[0], status=3, line="store/pushes: damage at place 1: no bundle")
    room.looks("log --store store --list --from 2", lines[2])
    for more in ("--canonical", "--to log"):
        done = room.start(*f"log --store store --list {more}".split())
        want(f"--list {more}", (done.returncode, done.stdout), (2, b""))


@case
def a_canonical_log_is_replayed(room):
    """The pushes of each row in their canonical form, as the mirror has them, have the same report."""
    for number_of, it in enumerate(rows()):
        room.store(it.store())
        wanted = [canonical.canonical(text) for text in it.bundles]
        room.looks("log --store store --canonical", b"".join(wanted))
        folder = f"log-{number_of}"
        room.run(f"log --store store --canonical --to {folder}")
        named = [f"{place:010}" for place in range(len(wanted))]
        want("files of a log", found_in(room.path(folder)), {".": None, **dict(zip(named, wanted))})
        files = " ".join(f"{folder}/{name}" for name in named)
        want("report of a replayed log", replayed(room, f"{it.words()} {files}"), it.report)


@case
def canonical_logs_of_any_bundles(room):
    """Bundles of any shape: the program writes what the mirror does, where that does not refuse them."""
    dice, tried = random.Random(58), 0
    while tried < 60:
        kept = []
        for text in (any_bundle(dice) for _ in range(40)):
            try:
                kept.append((text, canonical.canonical(text)))
            except canonical.Fault:
                pass
        tried += 1
        room.store(store_of([text for text, _ in kept])[0])
        room.looks("log --store store --canonical", b"".join(only for _, only in kept))


@case
def a_canonical_log_of_no_bundle(room):
    """A record that is no whole bundle is damage. What stands before it was written."""
    push = bundle(CAPS, group((b"", NULL)))
    for text in (b"", push[:-1], push + b"\0", b"HG19" + push[4:]):
        room.store(store_of((push, text, push))[0])
        line = "store/pushes: damage at place 1: no bundle"
        room.looks("log --store store --canonical", canonical.canonical(push), status=3, line=line)
        room.looks("log --store store --canonical --from 1", status=3, line=line)
        room.looks("log --store store --canonical --from 2", canonical.canonical(push))


@case
def a_cut_at_each_place(room):
    """What is left is the store of the pushes before it, and what is cut is kept beside it."""
    for it in (row("merge"), row("publishing")):
        for place in range(len(it.bundles)):
            name = f"{len(it.bundles)}-{place}"
            room.store(it.store(), name)
            room.run(f"cut --store {name} --at {place}")
            left = store_of(it.bundles[:place], it.publishing)[0]
            kept = b"".join(it.bundles[place:])
            want("files of a cut", found_in(room.path(name)), {".": None, "pushes": left, f"pushes.cut-{place}": kept})
            report = replayed(room, f"{it.words()} {' '.join(it.files[:place])}") if place else b""
            room.looks(f"report --store {name}", report + journal(place))
            room.looks(f"cut --store {name} --at {place}", status=3,
                       line=f"{name}/pushes: no such place behind {place} pushes")


@case
def a_cut_at_no_place(room):
    it = row("merge")
    room.store(it.store())
    count = len(it.bundles)
    for place in (count, count + 1, 2**64 - 1):
        room.looks(f"cut --store store --at {place}", status=3,
                   line=f"store/pushes: no such place behind {count} pushes")


@case
def what_is_kept_is_not_written_over(room):
    it = row("merge")
    room.store(it.store())
    with open(room.path("store/pushes.cut-1"), "wb") as file:
        file.write(b"mine")
    room.looks("cut --store store --at 1", status=3, line="store/pushes.cut-1: there is a file already")


@case
def beside_a_process_that_holds_it(room):
    """A held store is read and not cut. Let go, it is cut."""
    it = row("merge")
    room.store(it.store())
    with open(room.path("store/pushes"), "rb") as file:
        fcntl.flock(file, fcntl.LOCK_EX | fcntl.LOCK_NB)
        room.looks("report --store store", it.report + journal(len(it.bundles)))
        room.looks("log --store store", b"".join(it.bundles))
        room.run("log --store store --to log")
        room.looks("cut --store store --at 1", status=3, line="store/pushes: another process holds the store")
    room.run("cut --store store --at 1")


TWO = (EMPTY, ROOT_PUSH)


def torn(folder, whole):
    return f"{folder}/pushes: torn: {whole} pushes are whole; `hg_pushd cut --store {folder} --at {whole}` ends it there"


@case
def a_store_cut_at_each_of_its_lengths(room):
    """Below 54 bytes it is no store. After that its whole records are given, and it is told where it is torn."""
    data, ends = store_of(TWO)
    refused = "store/pushes: no store: a file that is shorter than a head"
    for length in range(HEAD):
        room.store(data[:length])
        for words in ("report --store store", "log --store store", "cut --store store --at 0"):
            room.looks(words, status=3, line=refused)
    for length in range(HEAD, len(data) + 1):
        room.store(data[:length])
        whole = sum(it <= length for it in ends) - 1
        line = "" if length in (*ends, len(data)) else torn("store", whole)
        room.looks("report --store store", (b"", b"", root_report())[whole] + journal(whole), line=line)
        room.looks("log --store store", b"".join(TWO[:whole]), line=line)


@case
def a_torn_store_is_ended(room):
    """The log of a torn store has its whole pushes, and the cut that its line names mends it and keeps the rest."""
    data, ends = store_of(TWO)
    for number, length in enumerate((ends[0] + 1, ends[1] - 1, ends[1] + 1, ends[2] - 1)):
        whole, name = (0, 0, 1, 1)[number], f"store-{number}"
        room.store(data[:length], name)
        room.run(f"log --store {name} --to log-{number}", line=torn(name, whole))
        wanted = {".": None, **{f"{place:010}": TWO[place] for place in range(whole)}}
        want("log of a torn store", found_in(room.path(f"log-{number}")), wanted)
        room.run(f"cut --store {name} --at {whole}")
        left = {".": None, "pushes": store_of(TWO[:whole])[0], f"pushes.cut-{whole}": b"",
                f"pushes.tail-{whole}": data[ends[whole]:length]}
        want("files of a torn store that was cut", found_in(room.path(name)), left)
        room.looks(f"report --store {name}", journal(whole))


@case
def one_byte_changed(room):
    """Each byte of a time, a name, a digest and a bundle in turn, in the first record and in the last."""
    data, ends = store_of(TWO)
    for place in (0, 1):
        for at in range(ends[place] + 5, ends[place + 1]):
            if at == ends[place] + 13 and place == 1:
                continue  # a longer name is a torn record, where it is the last
            room.store(data[:at] + bytes([data[at] ^ 1]) + data[at + 1:])
            line = f"store/pushes: damage at place {place}"
            room.looks("report --store store", status=3, line=line)
            room.looks("log --store store", status=3, line=line)
    room.run("log --store store --to log", status=3, line="store/pushes: damage at place 1")
    want("files of its log", found_in(room.path("log")), {})


@case
def a_gate_or_a_size_changed(room):
    """A gate that is neither open nor shut, a shorter record, records in another order."""
    data, ends = store_of(TWO)
    line = "store/pushes: damage at place 1"
    for gate in range(1, 255):
        room.store(data[:ends[1]] + bytes([gate]) + data[ends[1] + 1:])
        room.looks("report --store store", status=3, line=line)
    size = len(ROOT_PUSH)
    room.store(data[:ends[1] + 1] + struct.pack(">I", size - 1) + data[ends[1] + 5:])
    room.looks("report --store store", status=3, line=line)
    room.store(data[:ends[1] + 1] + struct.pack(">I", size + 2) + data[ends[1] + 5:])
    room.looks("report --store store", journal(1), line=torn("store", 1))
    room.store(data[:ends[1]] + SHUT + data[ends[1] + 1:])
    room.looks("report --store store", journal(1))
    room.store(data[:HEAD] + data[ends[1]:ends[2]] + data[HEAD:ends[1]] + SHUT)
    room.looks("report --store store", status=3, line="store/pushes: damage at place 0")


# ---- each byte with each value

# what is tried in the place of a byte that no gate, length, digest or name's length has: that and so much more
MORE = (1, 2, 127, 128, 254, 255)


def bytes_changed(data, ends):
    """Each place behind the head, whose record it is, whether it is a gate, and the other bytes that are put there: all
    255 of a gate, a length, a digest and the length of a name."""
    for place, start in enumerate(ends):
        behind = ends[place + 1] if place + 1 < len(ends) else start + 1
        for at in range(start, behind):
            named = start + 14 + (data[start + 13] if behind > start + 1 else 0)
            is_each = at < start + 5 or at == start + 13 or named <= at < named + 20
            values = [it for it in range(256) if it != data[at]] if is_each else [(data[at] + it) % 256 for it in MORE]
            yield at, place, at == start, values


def serve_once(room, data):
    """A store is opened to be served, and gets one push more. What is told, and the files of the store."""
    room.store(data)
    done = room.start("import", "--store", "store", "--existing", "more")
    found = found_in(room.path("store"))
    for name in found:
        if name != ".":
            os.remove(room.path(f"store/{name}"))
    return done.returncode, done.stdout.decode(), done.stderr.decode(), found


def is_kept(told, data, ends, place):
    """It was served from a place on; all that stood behind it stands in a file beside it, and a line says so."""
    status, output, said, found = told
    whole, tail = data[:ends[place]], data[ends[place]:]
    line = (f"hg_pushd: store/pushes: {place} pushes are whole; {len(tail)} bytes behind them are kept in "
            f"store/pushes.tail-{place}\n")
    return ((status, output, said) == (0, f"{place}\n", line) and set(found) == {".", "pushes", f"pushes.tail-{place}"}
            and found[f"pushes.tail-{place}"] == tail and found["pushes"][:len(whole)] == whole)


def is_refused(told, data, place):
    """It was not served, the line names the place, and no byte of the file changed."""
    status, output, said, found = told
    return ((status, output) == (3, "") and found == {".": None, "pushes": data}
            and said in (f"hg_pushd: store/pushes: a store that is not read: damage behind {place} whole records\n",
                         f"hg_pushd: {torn('store', place)}\n"))


def each_value(job):
    """What is wrong where one byte of a store has other values: how it is served, and how it is reported."""
    data, ends, (at, place, is_gate, values) = job
    wrong = []
    with tempfile.TemporaryDirectory(prefix="store-") as folder:
        room = Room(folder)
        with open(room.path("more"), "wb") as file:
            file.write(EMPTY)
        for value in values:
            changed = data[:at] + bytes([value]) + data[at + 1:]
            told = serve_once(room, changed)
            is_shut = is_gate and value == 0
            if not (is_kept(told, changed, ends, place) if is_shut else is_refused(told, changed, place)):
                wrong.append(f"served with {value} at {at}: {told[:3]}")
            room.store(changed)
            done = room.start("report", "--store", "store")
            is_torn = done.stderr.decode() == f"hg_pushd: {torn('store', place)}\n"
            is_damaged = done.stderr.decode() == f"hg_pushd: store/pushes: damage at place {place}\n"
            wanted = (0, journal(place)) if is_shut or is_torn else (3, b"")
            if (done.returncode, done.stdout) != wanted or not (is_damaged or is_torn or is_shut and not done.stderr):
                wrong.append(f"reported with {value} at {at}: {done.returncode} {done.stdout} {done.stderr}")
    return len(values), wrong


@case
def each_byte_with_each_value(_):
    """A store of two pushes, in which one byte behind the head is another: all other values of the gates, the lengths
    and the digests. It is refused, and stays as it is. Where a gate was shut it is served up to there, and what stood
    behind it is kept and told; `report` says nothing of it, since it may stand for a push on its way."""
    data, ends = store_of((bundle((b"note", (), b"one")), bundle((b"note", (), b"two"))))
    jobs = [(data, ends, it) for it in bytes_changed(data, ends)]
    tried, wrong = 0, []
    with concurrent.futures.ProcessPoolExecutor(os.cpu_count()) as workers:
        for count, found in workers.map(each_value, jobs, chunksize=4):
            tried, wrong = tried + count, wrong + found
    want("stores that were not as wanted", wrong, [])
    want("how many were tried", tried, (3 + 2 * (4 + 1 + 20)) * 255 + 2 * (8 + 3 + len(data[ends[1] + 37:-1])) * 6)


@case
def served_at_each_length(_):
    """The same store cut at each of its lengths: behind its head and each of its records it is served with what is
    whole, and else refused, and then it stays as it is."""
    data, ends = store_of((bundle((b"note", (), b"one")), bundle((b"note", (), b"two"))))
    with tempfile.TemporaryDirectory(prefix="store-") as folder:
        room = Room(folder)
        with open(room.path("more"), "wb") as file:
            file.write(EMPTY)
        for length in range(len(data)):
            told = serve_once(room, data[:length])
            if length in ends:
                place = ends.index(length)
                want(f"what is told at {length}", told[:3], (0, f"{place}\n", ""))
                want(f"the store at {length}", (set(told[3]), told[3]["pushes"][:length]), ({".", "pushes"}, data[:length]))
            elif length < HEAD:
                want(f"the status at {length}", (told[0], told[3]["pushes"]), (3, data[:length]))
            elif not is_refused(told, data[:length], sum(it <= length for it in ends) - 1):
                raise Wrong(f"at {length}: {told[:3]}")


@case
def a_damaged_store_is_ended(room):
    """Before its damage, and before a whole record."""
    data, ends = store_of(TWO)
    damaged = data[:ends[2] - 1] + bytes([data[ends[2] - 1] ^ 1]) + SHUT
    room.store(damaged)
    room.looks("cut --store store --at 2", status=3, line="store/pushes: no such place behind 1 pushes")
    room.run("cut --store store --at 1")
    want("the damaged store that was cut", read(room.path("store/pushes")), store_of(TWO[:1])[0])
    room.looks("report --store store", journal(1))


@case
def a_head_changed(room):
    """Another magic, version or publishing byte, and limits that are not allowed."""
    data = store_of(TWO)[0]
    for at, byte, why in ((0, b"h", "another magic"), (8, b"\3", "another version"),
                          (9, b"\2", "a publishing byte that is neither 0 nor 1")):
        room.store(data[:at] + byte + data[at + 1:])
        for words in ("report --store store", "log --store store", "cut --store store --at 0"):
            room.looks(words, status=3, line=f"store/pushes: no store: {why}")
    room.store(data[:14] + bytes([255, 255, 255, 255]) + data[18:])
    room.looks("report --store store", status=3, line="store/pushes: no store: limits that are not allowed")


@case
def a_store_of_version_1(room):
    """It is read, cut and upgraded, and not served. In version 2 it has the same pushes, and the old file is kept."""
    data, ends = store_of(TWO, version=1)
    want("length of a head of version 1", ends[0], OLD_HEAD)
    room.store(data)
    room.looks("report --store store", root_report() + journal(2))
    room.looks("log --store store", b"".join(TWO))
    room.looks("host --store store --listen 127.0.0.1:0", status=3,
               line="store/pushes: a store of version 1: upgrade it with `hg_pushd upgrade`")
    room.store(data, "other")
    room.run("cut --store other --at 1")
    want("a store of version 1 that was cut", read(room.path("other/pushes")), store_of(TWO[:1], version=1)[0])
    for length in range(OLD_HEAD, len(data)):
        room.store(data[:length], "torn")
        whole = sum(it <= length for it in ends) - 1
        room.looks("report --store torn", (b"", b"", root_report())[whole] + journal(whole),
                   line="" if length in ends else torn("torn", whole))
    room.run("upgrade --store store")
    made = read(room.path("store/pushes"))
    name = made[OLD_HEAD:HEAD]
    wanted, _ = store_of(TWO, stamps=[(0, b""), (0, b"")])
    want("the head of version 2", made[:OLD_HEAD], wanted[:OLD_HEAD])
    want("the length of the store of version 2", len(made), len(wanted))
    want("files of an upgrade", sorted(found_in(room.path("store"))), [".", "pushes", "pushes.1"])
    want("the old store", read(room.path("store/pushes.1")), data)
    room.looks("report --store store", root_report() + journal(2))
    room.looks("log --store store", b"".join(TWO))
    room.looks("upgrade --store store", status=3, line="store/pushes: a store of version 2 already")
    room.run("upgrade --store other")
    want("names of two stores", read(room.path("other/pushes"))[OLD_HEAD:HEAD] != name, True)
    room.store(data)
    room.looks("upgrade --store store", status=3, line="store/pushes.1: there is a file already")
    room.store(data[:ends[1] + 1], "torn")
    room.looks("upgrade --store torn", status=3,
               line="torn/pushes: torn behind 1 pushes: end it there by `hg_pushd cut`")
    room.looks("upgrade --store missing", status=3, line="missing/pushes: no store")


@case
def a_record_that_is_not_done(room):
    """A push that is refused when it is run again, and one that is no bundle: logged, and not reported."""
    raced = bundle(CAPS, heads(b"\1" * 20))
    room.store(store_of((ROOT_PUSH, raced))[0])
    room.looks("log --store store", ROOT_PUSH + raced)
    room.looks("report --store store", status=3,
               line="store/pushes: damage at place 1: a push that is not done when it is run again")
    room.store(store_of((ROOT_PUSH, ROOT_PUSH[:-1]))[0])
    room.looks("report --store store", status=3, line="store/pushes: damage at place 1: no bundle")


@case
def no_store(room):
    """No folder, and a folder without the file: nothing is made."""
    for name in ("missing", "empty"):
        line = f"{name}/pushes: no store"
        for words in (f"report --store {name}", f"log --store {name}", f"log --store {name} --to log",
                      f"cut --store {name} --at 0"):
            room.looks(words, status=3, line=line)
        os.makedirs(room.path("empty"), exist_ok=True)
    room.store(b"")
    room.looks("report --store store", status=3, line="store/pushes: no store: a file that is shorter than a head")


@case
def a_publishing_store(room):
    """Its head says that it publishes: what is draft in one store is public in the other."""
    push = bundle(CAPS, group((b"", NULL)))
    for publishes, phase in ((False, b"1"), (True, b"0")):
        room.store(store_of((push,), publishes)[0])
        room.looks("report --store store", root_report()[:-4] + phase + b" 0\n" + journal(1))


@case
def outputs_that_fail(room):
    """A full device for the output, and closed descriptors: no line gets into the store."""
    it = row("merge")
    room.store(it.store())
    before = found_in(room.folder)
    for command in ("report", "log"):
        with open("/dev/full", "wb") as full:
            done = room.start(command, "--store", "store", stdout=full)
        want("a full device", (done.returncode, done.stderr),
             (3, b"hg_pushd: standard output: the output failed\n"))
    for closing in ("2>&-", "<&- 2>&-", "1>&- 2>&-", "0>&- 1>&- 2>&-"):
        for words in ("cut --store store --at 99", "report --store none", "log --store none"):
            done = subprocess.run(["sh", "-c", f'exec "$0" {words} {closing}', PROGRAM], cwd=room.folder, check=False,
                                  timeout=60)
            want(f"status of `{words} {closing}`", done.returncode, 3)
    want("files after them", found_in(room.folder), before)
    done = subprocess.run(["sh", "-c", 'exec "$0" cut --store store --at 1 <&- 1>&- 2>&-', PROGRAM], cwd=room.folder,
                          check=False, timeout=60)
    want("status of a cut without descriptors", done.returncode, 0)
    want("the store after it", read(room.path("store/pushes")), store_of(it.bundles[:1])[0])


EACH = 1_024


def index_of(data, ends, places):
    """The bytes of the index of a store, with the marks of these places."""
    first = sha1(data[:HEAD])
    text = b"HGPLACES"
    for place in places:
        before = first if place == 0 else record_digest(data, ends, place - 1)
        text += struct.pack(">QQ", place, ends[place]) + before
    return text + sha1(first + text)


def record_digest(data, ends, place):
    """The digest of a record of version 2 whose user is USER."""
    at = ends[place] + 14 + len(USER)
    return data[at:at + 20]


@case
def an_index(room):
    """A log from a place behind 1,024 records begins at a mark, and writes the index anew where it does not fit."""
    bundles = [bundle((b"note", (), b"%d" % number)) for number in range(2 * EACH + 60)]
    data, ends = store_of(bundles)
    room.store(data)
    path, wanted = room.path("store/pushes.index"), index_of(data, ends, (0, EACH, 2 * EACH))
    half = index_of(data, ends, (0, EACH))
    room.looks("log --store store", b"".join(bundles))
    room.looks(f"log --store store --from {EACH - 1}", b"".join(bundles[EACH - 1:]))
    room.run(f"log --store store --from {EACH + 5}", b"".join(bundles[EACH + 5:]))
    want("the index up to a place", found_in(room.path("store")), {".": None, "pushes": data, "pushes.index": half})
    for said in (None, b"", half, half[:-1], half + b"\0", b"\0" * 36, bytes(1_000_000), wanted[:70] + b"?" + wanted[71:],
                 index_of(store_of(bundles, True)[0], ends, (0, EACH, 2 * EACH))):
        if said is None:
            os.remove(path)
        else:
            with open(path, "wb") as file:
                file.write(said)
        room.run(f"log --store store --from {2 * EACH + 7}", b"".join(bundles[2 * EACH + 7:]))
        want("the index anew", read(path), wanted)
    for first in (EACH, EACH + 1, 2 * EACH - 1, 2 * EACH, 2 * EACH + 59, 2 * EACH + 60, 10 * EACH, (1 << 64) - 1):
        room.looks(f"log --store store --from {first}", b"".join(bundles[first:]))
    lines = b"".join(b"%d %s ann 0 %d\n" % (at, when(1000 * at), len(bundles[at])) for at in (2 * EACH + 58, 2 * EACH + 59))
    room.looks(f"log --store store --list --from {2 * EACH + 58}", lines)
    room.run(f"log --store store --from {2 * EACH + 58} --to log")
    want("files of a log", found_in(room.path("log")),
         {".": None, **{f"{at:010}": bundles[at] for at in (2 * EACH + 58, 2 * EACH + 59)}})


def when(milliseconds):
    """The date of a time, as a line has it."""
    if milliseconds == 0:
        return b"-"
    date = datetime.datetime.fromtimestamp(milliseconds // 1000, datetime.timezone.utc)
    return date.strftime("%Y-%m-%dT%H:%M:%SZ").encode()


@case
def an_index_of_a_store_that_was_cut(room):
    """Pushes behind a cut do not go on from the marks of the index: they are not used."""
    bundles = [bundle((b"note", (), b"%d" % number)) for number in range(2 * EACH + 60)]
    data, ends = store_of(bundles)
    others = bundles[:2 * EACH - 5] + [bundle((b"note", (), b"other %d" % number)) for number in range(60)]
    room.store(data)
    room.run(f"log --store store --from {2 * EACH + 50}", b"".join(bundles[2 * EACH + 50:]))
    for kept in (bundles[:EACH - 5], bundles[:EACH], bundles[:2 * EACH - 5], others):
        with open(room.path("store/pushes"), "wb") as file:
            file.write(store_of(kept)[0])
        for first in (EACH + 3, 2 * EACH + 3):
            room.run(f"log --store store --from {first}", b"".join(kept[first:]))
    other, ends = store_of(others)
    want("the index anew", read(room.path("store/pushes.index")), index_of(other, ends, (0, EACH, 2 * EACH)))


@case
def damage_and_an_index(room):
    """Damage from the mark on is told at its place. What is before the mark is not read."""
    bundles = [bundle((b"note", (), b"%d" % number)) for number in range(EACH + 60)]
    data, ends = store_of(bundles)
    room.store(data)
    room.run(f"log --store store --from {EACH + 50}", b"".join(bundles[EACH + 50:]))
    for place in (EACH, EACH + 1, EACH + 59):
        room.store(data[:ends[place + 1] - 1] + b"?" + data[ends[place + 1]:])
        room.looks(f"log --store store --from {EACH + 50}", status=3, line=f"store/pushes: damage at place {place}")
    room.store(data[:-3])
    room.looks(f"log --store store --from {EACH + 50}", b"".join(bundles[EACH + 50:-1]),
               line=f"store/pushes: torn: {EACH + 59} pushes are whole; `hg_pushd cut --store store --at {EACH + 59}` "
                    "ends it there")
    room.store(data[:ends[6] - 1] + b"?" + data[ends[6]:])
    room.looks(f"log --store store --from {EACH + 50}", b"".join(bundles[EACH + 50:]))
    room.looks("log --store store", status=3, line="store/pushes: damage at place 5")
    os.remove(room.path("store/pushes.index"))
    room.looks(f"log --store store --from {EACH + 50}", status=3, line="store/pushes: damage at place 5")


@case
def an_index_that_is_no_file(room):
    """No link is followed to an index. A folder under its name stays, and a log is none the worse."""
    bundles = [bundle((b"note", (), b"%d" % number)) for number in range(EACH + 60)]
    data, ends = store_of(bundles)
    room.store(data)
    path, words = room.path("store/pushes.index"), f"log --store store --from {EACH + 50}"
    for name in ("pushes.index", "pushes.index.new"):
        with open(room.path("mine"), "wb") as file:
            file.write(b"mine")
        os.symlink(room.path("mine"), room.path(f"store/{name}"))
        room.run(words, b"".join(bundles[EACH + 50:]))
        want("what the link names", read(room.path("mine")), b"mine")
        if os.path.islink(room.path(f"store/{name}")):
            os.remove(room.path(f"store/{name}"))
    if os.path.exists(path):
        os.remove(path)
    os.mkdir(path)
    room.looks(words, b"".join(bundles[EACH + 50:]))
    os.rmdir(path)
    os.mkfifo(path)
    room.run(words, b"".join(bundles[EACH + 50:]))
    want("the index in its place", read(path), index_of(data, ends, (0, EACH)))


def main():
    failed, names = 0, sys.argv[2:]
    cases = [it for it in CASES if not names or it.__name__ in names]
    for body in cases:
        with tempfile.TemporaryDirectory(prefix="store-") as folder:
            try:
                body(Room(folder))
            except (Wrong, OSError, subprocess.TimeoutExpired) as error:
                print(f"{body.__name__}: {error}")
                failed += 1
    print(f"Stores: {len(cases) - failed} of {len(cases)} cases as wanted.")
    return 1 if failed or not cases else 0


if __name__ == "__main__":
    sys.exit(main())
