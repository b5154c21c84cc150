#!/usr/bin/env python3
"""Tries the mirror on stores that this script writes.

    python3 mirror/check.py PROGRAM [--short | --only scenes|publishing|following|bad|starts|killed|SCENE]

Scenes of pushes are recorded from a real `hg push` to a real `hg serve`. Each is mirrored, from a store and
from a log, and what the mirror holds is compared with what `hg serve` held, line by line. Then the mirror is
ended by SIGKILL at random moments and started again, it follows a store that grows, and it is given stores
that it has to refuse. PROGRAM is the built hg_pushd, which follows the stores. It needs the command `hg`, and some
minutes. With --short some scenes are left out, it is
killed less often, and may be later with a push, as on a busy machine.
"""

import os
import random
import subprocess
import sys
import tempfile
import time
from concurrent.futures import ThreadPoolExecutor

import stores
from recorder import recorded
from refused import plain
from stores import FRONT, Place, Results, head, sha1, store, write

# How often the mirror is killed at its work, until it has all pushes; and how often to look at the front that it has.
KILLS = 25
FRONTS = 10
# how soon the middle one of some pushes has to be mirrored, in seconds
SOON = 0.2
# how many scenes run at the same time
AT_ONCE = 4
# what is tried with --short
SHORT = {"KILLS": 6, "FRONTS": 3, "SOON": 1}
SHORT_SCENES = ("merges", "bookmarks", "amends", "orphans")


class Client:
    """A repository that pushes to a recorded server."""

    def __init__(self, place, url, name):
        self.place, self.url, self.name, self.clock = place, url, name, 0
        place.hg("init", name)

    def hg(self, *words, statuses=(0,)):
        return self.place.hg("--cwd", self.name, *words, statuses=statuses)

    def write(self, name, text):
        path = f"{self.place.folder}/{self.name}/{name}"
        os.makedirs(os.path.dirname(path), exist_ok=True)
        with open(path, "a", encoding="utf-8") as file:
            file.write(text)

    def commit(self, name, text=None, *more):
        self.clock += 1
        self.write(name, f"{text or name} {self.clock}\n")
        self.hg("commit", "-A", "-m", text or f"{name} {self.clock}", "-d", f"{self.clock} 0", *more)

    def amend(self, name):
        self.clock += 1
        self.write(name, f"amended {self.clock}\n")
        self.hg("commit", "-A", "--amend", "-m", f"amended {self.clock}", "-d", f"{self.clock} 0")

    def push(self, *more):
        self.hg("push", self.url, *more, statuses=(0, 1))

    def pull(self):
        self.hg("pull", "-u", f"../{'server'}")


def first(a, _b):
    for name in ("a", "b", "folder/c"):
        a.commit(name)
    a.push()


def later(a, _b):
    for number in range(4):
        a.commit("a")
        a.commit(f"file{number}")
        a.push()


def merges(a, b):
    a.commit("a")
    a.push()
    b.pull()
    a.commit("b")
    a.push()
    b.commit("c")
    b.push("-f")
    a.pull()
    a.hg("merge", "-r", "tip")
    a.hg("commit", "-m", "merged", "-d", "50 0")
    a.push()


def branches(a, _b):
    a.commit("a")
    a.push()
    for name in ("side", "with blank; & more", "größer"):
        a.hg("branch", name)
        a.commit("a", f"on {name}")
        a.push("--new-branch")
    a.hg("commit", "--close-branch", "-m", "closed", "-d", "60 0")
    a.push()


def bookmarks(a, _b):
    a.commit("a")
    a.hg("bookmark", "one")
    a.push("-B", "one")
    a.commit("a")
    a.push()
    a.hg("bookmark", "two words", "-r", "0")
    a.push("-B", "two words")
    a.hg("bookmark", "-d", "two words")
    a.push("-B", "two words")


def phases(a, _b):
    for _ in range(3):
        a.commit("a")
    a.push()
    a.hg("phase", "-p", "-r", "0")
    a.push()
    a.hg("phase", "-p", "-r", "tip")
    a.push()


def publish(a, _b):
    a.commit("a")
    a.push()
    a.commit("a")
    a.push("--publish")
    a.commit("a")
    a.push()


def amends(a, b):
    a.commit("a")
    a.commit("a")
    a.push()
    a.amend("a")
    a.push()
    a.amend("b")
    a.amend("b")
    a.push()
    b.pull()
    b.commit("c")
    b.push("-f")


def prunes(a, _b):
    for name in ("a", "b", "c"):
        a.commit(name)
    a.push()
    node = a.hg("log", "-r", "tip", "-T", "{node}")
    a.hg("update", "-r", "1")
    a.hg("debugobsolete", "--record-parents", node)
    a.push()
    a.commit("d")
    a.push("-f")


def orphans(a, b):
    a.commit("a")
    a.commit("b")
    a.push()
    b.pull()
    b.commit("c")
    b.push()
    a.amend("b")
    a.push("-f")
    b.commit("c")
    b.push("-f")


def secrets(a, _b):
    a.commit("a")
    a.commit("hidden", None, "--secret")
    a.push()
    a.hg("phase", "-d", "-f", "-r", "tip")
    a.push()


def files(a, _b):
    a.commit("a")
    a.hg("copy", "a", "b c")
    a.hg("commit", "-m", "copied", "-d", "10 0")
    a.hg("rename", "a", "größer/Aux.i")
    a.hg("commit", "-m", "renamed\n\nwith more lines", "-d", "11 3600")
    a.push()
    a.hg("remove", "b c")
    a.hg("commit", "-m", "removed", "-d", "12 0", "-u", "someone else <other@example.com>")
    a.push()


def many(a, _b):
    for number in range(25):
        a.commit(f"file{number % 5}")
    a.push("-r", "10")
    a.push()


def two(a, b):
    a.commit("a")
    a.push()
    b.pull()
    for _ in range(3):
        a.commit("a")
        a.push("-f")
        b.commit("b")
        b.push("-f")
    b.hg("bookmark", "b", "-r", "tip")
    b.push("-f", "-B", "b")


SCENES = [first, later, merges, branches, bookmarks, phases, publish, amends, prunes, orphans, secrets, files,
          many, two]
PUBLISHED = [first, merges, publish, two]


def record(folder, scene, publishing=False):
    """The place, the pushes of a scene, and what the server held behind them."""
    os.mkdir(folder)
    place = Place(folder)
    place.repository("server", publishing)
    with recorded(place, "server") as (url, bundles):
        scene(Client(place, url, "a"), Client(place, url, "b"))
    return place, bundles, place.state("server")


def try_scene(results, folder, scene, publishing=False):
    name = scene.__name__ + (", publishing" if publishing else "")
    place, bundles, wanted = record(folder, scene, publishing)
    results.see(f"{name}: recorded", len(bundles) > 0)
    write(f"{folder}/store", store(bundles, publishing, b"\0what stands behind a shut gate"))
    place.repository("mirror", publishing)
    status, said = place.mirror("mirror", "store")
    results.see(f"{name}: mirrored", status == 0 and place.count("mirror") == len(bundles), said)
    results.same(f"{name}: state", place.state("mirror"), wanted)
    status, said = place.run("verify", "-R", "mirror")
    results.see(f"{name}: verify", status == 0, said)
    status, said = place.mirror("mirror", "store")
    results.see(f"{name}: again", status == 0 and said.startswith("0 pushes"), said)
    place.repository("logged", publishing)
    status, said = place.run("mirror", "-R", "logged", "--log", "-", given=b"".join(bundles))
    results.see(f"{name}: log", status == 0, said)
    results.same(f"{name}: state of the log", place.state("logged"), wanted)
    return place, bundles, wanted


def all_kinds(a, b):
    """Pushes of many kinds, for a mirror that is killed."""
    amends(a, b)
    a.pull()
    phases(a, b)
    bookmarks(a, b)
    a.hg("branch", "side")
    a.commit("z")
    a.push("--new-branch")


def try_without_phases(results, folder):
    """Pushes that say nothing of phases: the server makes them public where it publishes, and so does the mirror."""
    os.mkdir(folder)
    place = Place(folder)
    bundles = [push.bundle() for push in plain(3)]
    for publishes, phase in ((True, "public"), (False, "draft")):
        name = place.repository(phase, publishes)
        write(f"{folder}/store", store(bundles, publishes))
        status, said = place.mirror(name, "store")
        results.see(f"without phases, {phase}: mirrored", status == 0, said)
        found = place.hg("log", "-R", name, "-T", "{phase} ")
        results.see(f"without phases, {phase}", found == 3 * f"{phase} ", found)


def try_killed(results, folder):
    """Ended by SIGKILL at random moments, the mirror has a front of the pushes, and goes on."""
    place, bundles, wanted = record(folder, all_kinds)
    states = fronts(place, bundles)
    results.same("killed: all of them", states[-1], wanted)
    write(f"{folder}/store", store(bundles))
    choose, killed, name = random.Random(4), 0, None
    for start in range(12 * KILLS):
        if name is None:
            name = place.repository(f"killed{start}")
        before = settled(place, name)
        killed += kill_in_work(place.start("mirror", "-R", name, "--store", "store", "--once"), place, name, before,
                               choose)
        kept = settled(place, name)
        results.see("killed: it does not go back", kept >= before - 1, f"{before}, then {kept}")
        if kept == len(bundles):
            place.mirror(name, "store")
            results.same("killed: state at the end", place.state(name), wanted)
            name = None
            if killed >= KILLS:
                break
    results.see("killed: it comes to the end each time", name is None and killed >= KILLS)
    return killed + try_front(results, place, bundles, states, choose)


def settled(place, name):
    """How many pushes a repository has; if it was killed while it rolled back, that is finished first."""
    if place.count(name) is None:
        place.run("recover", "-R", name)
    return place.count(name)


def kill_in_work(run, place, name, before, choose):
    """Kills it some time after it applied a push; whether it was at work then."""
    until = time.monotonic() + 10
    while run.poll() is None and place.count(name) == before and time.monotonic() < until:
        time.sleep(0.001)
    time.sleep(choose.uniform(0, 0.08))
    was_at_work = run.poll() is None
    run.kill()
    run.wait()
    run.stdout.close()
    return was_at_work


def try_front(results, place, bundles, states, choose):
    """Killed once and started on a store that ends where it is, it has that front and no more."""
    killed = 0
    for number in range(FRONTS):
        name = place.repository(f"front{number}")
        killed += kill_in_work(place.start("mirror", "-R", name, "--store", "store", "--once"), place, name, 0, choose)
        kept = settled(place, name)
        # The number may be one of a transaction that was at its end and is rolled back.
        place.run("recover", "-R", name)
        count = place.count(name)
        results.see("killed: the front", count in (kept, kept - 1), f"{kept}, then {count}")
        write(f"{place.folder}/front", store(bundles[:count]))
        status, said = place.mirror(name, "front")
        results.see("killed: starts again", status == 0 and said.startswith("0 pushes"), said)
        results.same("killed: state of the front", place.state(name), states[count])
    return killed


def fronts(place, bundles):
    """What is held after no push, after one, and so on."""
    place.repository("fronts")
    states = [place.state("fronts")]
    for number, bundle in enumerate(bundles):
        status, said = place.run("mirror", "-R", "fronts", "--log", "-", "--from", str(number), given=bundle)
        if status:
            sys.exit(said)
        states.append(place.state("fronts"))
    return states


def try_following(results, folder, place, bundles, wanted):
    """Records are written as a server writes them; how long each takes to be mirrored."""
    write(f"{folder}/grows", head() + b"\0")
    place.repository("follows")
    run = place.start("mirror", "-R", "follows", "--store", "grows", "--metrics", "follows.prom")
    digest, took = sha1(head()), []
    try:
        with open(f"{folder}/grows/pushes", "r+b", buffering=0) as file:
            time.sleep(1)
            end = len(head())
            for number, bundle in enumerate(bundles):
                digest = sha1(digest + sha1(bundle))
                record_bytes = len(bundle).to_bytes(4, "big") + digest + bundle + b"\0"
                for start in range(0, len(record_bytes), 1000):
                    os.pwrite(file.fileno(), record_bytes[start:start + 1000], end + 1 + start)
                time.sleep(0.1)
                results.see("following: a shut gate is waited for", place.count("follows") == number)
                os.pwrite(file.fileno(), b"\1", end)
                end += len(record_bytes)
                took.append(waited(place, "follows", number + 1))
        used = processor_time(run.pid)
        time.sleep(2)
        results.see("following: no busy loop", processor_time(run.pid) - used < 0.1)
    finally:
        run.terminate()
        said = run.communicate()[0].decode()
    results.see("following: ended by a signal", run.returncode != 0, said)
    results.same("following: state", place.state("follows"), wanted)
    with open(f"{folder}/follows.prom", encoding="ascii") as file:
        results.same("following: told a monitor", file.read().splitlines()[-1], f"hg_mirror_pushes {len(bundles)}")
    middle = sorted(took)[len(took) // 2]
    results.see("following: in time", middle < SOON and max(took) < 10 * SOON,
                f"{middle:.3f} s, longest {max(took):.3f} s")
    try_replaced(results, place)
    return max(took), middle


def try_replaced(results, place):
    """A store that is cut gets another file: the mirror that follows ends, and says so."""
    run = place.start("mirror", "-R", "follows", "--store", "grows")
    wait_until_open(run.pid, os.path.realpath(f"{place.folder}/grows/pushes"))
    write(f"{place.folder}/new", head() + b"\0")
    os.rename(f"{place.folder}/new/pushes", f"{place.folder}/grows/pushes")
    try:
        said = run.communicate(timeout=20)[0].decode()
    except subprocess.TimeoutExpired:
        run.kill()
        said = run.communicate()[0].decode()
    results.see("following: another file", run.returncode == 255 and "another file" in said, said)
    status, said = place.mirror("follows", "grows")
    results.see("following: a cut store", status == 255 and "has 0" in said, said)


def wait_until_open(pid, path):
    """Waits until a process has a file open, twenty seconds at most."""
    fds = f"/proc/{pid}/fd"
    for _ in range(400):
        if path in [os.path.realpath(f"{fds}/{it}") for it in os.listdir(fds)]:
            return
        time.sleep(0.05)


def waited(place, name, count):
    start = time.monotonic()
    while (place.count(name) or 0) < count and time.monotonic() < start + 20:
        time.sleep(0.001)
    return time.monotonic() - start


def processor_time(pid):
    with open(f"/proc/{pid}/stat", encoding="ascii") as file:
        fields = file.read().rsplit(")", 1)[1].split()
    return (int(fields[11]) + int(fields[12])) / os.sysconf("SC_CLK_TCK")


def try_bad_stores(results, folder, place, bundles):
    """Stores of both versions that are refused, or read up to their fault, each with the words that say so."""
    tried = sum(try_bad_store(results, folder, place, bundles, version) for version in (1, 2))
    return tried + try_other_stores(results, folder, place, bundles)


def try_bad_store(results, folder, place, bundles, version):
    whole = store(bundles, version=version)
    start, front = len(head(version=version)), FRONT[version]
    second = start + front + len(bundles[0])
    digest = second + front - 20

    def changed(place_of, byte):
        return whole[:place_of] + bytes([byte]) + whole[place_of + 1:]

    rows = [
        ("empty file", b"", 0, "too short"),
        ("short head", whole[:start - 1], 0, "too short"),
        ("other magic", changed(0, 0), 0, "is no store"),
        ("version", changed(8, 3), 0, "version 3"),
        ("publishing byte", changed(9, 2), 0, "publishes nor"),
        ("limit of 0", whole[:10] + bytes(4) + whole[14:], 0, "limits"),
        ("limit above the standard", whole[:10] + b"\0\1\0\1" + whole[14:], 0, "limits"),
        ("other gate", changed(second, 2), 1, "damage at place 1"),
        ("gate of the other version", changed(second, stores.OPEN[3 - version][0]), 1, "damage at place 1"),
        ("byte of a bundle", changed(digest + 25, whole[digest + 25] ^ 1), 1, "damage at place 1"),
        ("byte of a digest", changed(digest + 1, whole[digest + 1] ^ 1), 1, "damage at place 1"),
        ("damaged length", changed(second + 1, 255), 1, "torn behind 1"),
        ("gate alone", whole[:second + 1], 1, "torn behind 1"),
        ("cut in a length", whole[:second + 3], 1, "torn behind 1"),
        ("cut in a digest", whole[:digest + 15], 1, "torn behind 1"),
        ("cut in a bundle", whole[:digest + 35], 1, "torn behind 1"),
        ("no gate at the end", whole[:second], 1, None),
        ("shut gate", changed(second, 0), 1, None),
        ("head alone", whole[:start], 0, None),
        ("of a server that publishes", store(bundles, True, version=version), 0, "publish = yes"),
    ]
    if version == 2:
        rows += [("byte of a time", changed(second + 6, 7), 1, "damage at place 1"),
                 ("byte of a name", changed(second + 14, 65), 1, "damage at place 1"),
                 ("length of a name", changed(second + 13, 0), 1, "damage at place 1"),
                 ("cut in a name", whole[:second + 15], 1, "torn behind 1")]
    for number, (what, data, count, words) in enumerate(rows):
        what, name = f"version {version}: {what}", place.repository(f"bad{version}-{number}")
        write(f"{folder}/bad", data)
        status, said = place.mirror(name, "bad")
        results.see(f"bad store: {what}: said", status == (255 if words else 0) and (words or "") in said, said)
        results.see(f"bad store: {what}: count", place.count(name) == count)
        results.see(f"bad store: {what}: no traceback", "Traceback" not in said, said)
        write(f"{folder}/bad", whole)
        status, said = place.mirror(name, "bad")
        results.see(f"bad store: {what}: whole again", status == 0, said)
    return len(rows)


def try_other_stores(results, folder, place, bundles):
    """A mirror that is given another store than before, a shorter one, none, or a log that it cannot use."""
    place.repository("before")
    write(f"{folder}/other", store(bundles))
    place.mirror("before", "other")
    before = place.state("before")
    write(f"{folder}/other", store(bundles[1:2] + bundles[1:]))
    rows = [("another store", ["--store", "other", "--once"], b"", "not those mirrored"),
            ("no store", ["--store", "nowhere", "--once"], b"", "no store in"),
            ("neither", [], b"", "has to be given"),
            ("both", ["--store", "other", "--log", "-"], b"", "has to be given"),
            ("log behind", ["--log", "-", "--from", "99"], b"", "begins behind"),
            ("log from below 0", ["--log", "-", "--from", "-1"], b"", "below 0"),
            ("log of other pushes", ["--log", "-"], bundles[-1] * len(bundles), "not those mirrored"),
            ("log cut short", ["--log", "-"], bundles[0][:-1], "in the middle"),
            ("log of something else", ["--log", "-"], b"HG10UN..", "something else")]
    for what, words, given, wanted in rows:
        status, said = place.run("mirror", "-R", "before", *words, given=given)
        results.see(f"bad store: {what}", status in (10, 255) and wanted in said and "Traceback" not in said, said)
    write(f"{folder}/other", store(bundles[:1]))
    for more in (["--once"], []):
        done = subprocess.run(["hg", "mirror", "-R", "before", "--store", "other", *more], cwd=folder, timeout=20,
                              env=place.environment, capture_output=True, text=True, check=False)
        results.see("bad store: a shorter one", done.returncode == 255 and "has 1" in done.stderr, done.stderr)
    results.same("bad store: nothing changed", place.state("before"), before)
    return len(rows) + 1


def try_starts(results, folder, version):
    """A start does not read what was mirrored before, where its last record is at its place."""
    os.mkdir(folder)
    place, bundles = Place(folder), [push.bundle() for push in plain(5)]
    name = place.repository("starts")

    def start(what, data, words, count):
        write(f"{folder}/store", data)
        status, said = place.mirror(name, "store")
        results.see(f"starts of version {version}: {what}", words in said and (status == 0) == ("in all" == words), said)
        results.see(f"starts of version {version}: {what}: count", place.count(name) == count)

    def store(bundles, end=b"\0"):
        return stores.store(bundles, end=end, version=version)

    whole, first = store(bundles), len(head(version=version)) + FRONT[version]
    spoilt = bytearray(whole)
    spoilt[first] ^= 1
    last = len(store(bundles[:2], end=b""))
    start("three pushes", store(bundles[:3]), "in all", 3)
    start("damage in what was mirrored", bytes(spoilt), "damage at place 0", 3)
    start("five pushes", whole, "in all", 5)
    spoilt = bytearray(store(bundles[:3]))
    spoilt[last + FRONT[version] - 19] ^= 1
    start("another digest of the last record", bytes(spoilt), "has 3", 5)
    start("a store that ends before it", store(bundles[:4]), "has 4", 5)
    start("other pushes before it", store(bundles[1:2] + bundles[1:]), "not those mirrored", 5)
    status, said = place.run("mirror", "-R", name, "--log", "-", given=b"".join(bundles))
    results.see("starts: the log of the same pushes", status == 0 and said.startswith("0 pushes"), said)
    more = [*bundles, plain(6)[-1].bundle()]
    status, said = place.run("mirror", "-R", name, "--log", "-", "--from", "5", given=more[5])
    results.see("starts: one more from a log", status == 0 and place.count(name) == 6, said)
    spoilt = bytearray(store(more))
    spoilt[first] ^= 1
    start("after a log all is read", bytes(spoilt), "damage at place 0", 6)
    start("after a log all is compared", store(more), "in all", 6)


def try_two(results, folder):
    """A mirror that finds that another one has applied a push meanwhile ends, and applies nothing."""
    os.mkdir(folder)
    place, bundles = Place(folder), [push.bundle() for push in plain(2)]
    name = place.repository("two")
    write(f"{folder}/store", store(bundles[:1]))
    run = place.start("mirror", "-R", name, "--store", "store")
    waited(place, name, 1)
    status, said = place.run("mirror", "-R", name, "--log", "-", "--from", "1", given=bundles[1])
    results.see("two mirrors: the other", status == 0 and place.count(name) == 2, said)
    whole = store(bundles)
    end = len(store(bundles[:1])) - 1
    with open(f"{folder}/store/pushes", "r+b", buffering=0) as file:
        os.pwrite(file.fileno(), whole[end + 1:], end + 1)
        os.pwrite(file.fileno(), whole[end:end + 1], end)
    try:
        said = run.communicate(timeout=60)[0].decode()
    except subprocess.TimeoutExpired:
        run.kill()
        said = run.communicate()[0].decode()
    results.see("two mirrors: the first", run.returncode == 255 and "another mirror has" in said, said)
    results.see("two mirrors: the count", place.count(name) == 2)


def all_at_once(results, tried):
    """Tries some scenes, each with a folder of its own, several of them at the same time."""
    with ThreadPoolExecutor(AT_ONCE) as pool:
        for done in [pool.submit(try_scene, results, *words) for words in tried]:
            done.result()


def scenes(results, folder, only):
    wanted = SHORT_SCENES if only == "short" else (only,)
    chosen = [it for it in SCENES if only in (None, "scenes") or it.__name__ in wanted]
    all_at_once(results, [(f"{folder}/{it.__name__}", it) for it in chosen])
    if chosen:
        yield f"{len(chosen)} scenes"


def publishing(results, folder, only):
    """The scenes in which nothing is rewritten, on a server that publishes."""
    if only in (None, "publishing", "short"):
        chosen = PUBLISHED[1:2] if only == "short" else PUBLISHED
        all_at_once(results, [(f"{folder}/{it.__name__}-publishing", it, True) for it in chosen])
        try_without_phases(results, f"{folder}/plain")
        yield f"{len(chosen)} scenes on a server that publishes"


def starts(results, folder, only):
    if only in (None, "short", "starts"):
        for version in (1, 2):
            try_starts(results, f"{folder}/starts-{version}", version)
        try_two(results, f"{folder}/two-mirrors")
        yield "18 starts"


def bad(results, folder, only):
    if only in (None, "short", "bad"):
        place, bundles, _ = record(f"{folder}/bad", amends)
        yield f"{try_bad_stores(results, place.folder, place, bundles)} bad stores and logs"


def killed(results, folder, only):
    if only in (None, "short", "killed"):
        yield f"killed at its work {try_killed(results, f'{folder}/killed')} times"


def following(results, folder, only):
    if only in (None, "short", "following"):
        place, bundles, wanted = record(f"{folder}/follow", all_kinds)
        longest, middle = try_following(results, place.folder, place, bundles, wanted)
        yield f"a push mirrored after {1000 * middle:.0f} ms (middle), {1000 * longest:.0f} ms (longest)"


def main():
    stores.skip_without_hg("check.py")
    if len(sys.argv) < 2:
        sys.exit(__doc__)
    stores.PROGRAM = os.path.abspath(sys.argv[1])
    only = sys.argv[3] if sys.argv[2:3] == ["--only"] else None
    if sys.argv[2:] == ["--short"]:
        only = "short"
        globals().update(SHORT)
    results = Results("check.py")
    with tempfile.TemporaryDirectory() as folder, ThreadPoolExecutor() as pool:
        beside = [pool.submit(lambda it: list(it(results, folder, only)), it)
                  for it in (scenes, publishing, starts, bad, killed)]
        seen = [words for it in beside for words in it.result()]
        # times are taken when all else is over
        seen += following(results, folder, only)
    if not seen:
        sys.exit(__doc__)
    results.end("; ".join(seen))


if __name__ == "__main__":
    main()
