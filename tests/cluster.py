#!/usr/bin/env python3
"""A store on a Ceph cluster of one machine, and the end of each of its parts.

    python3 tests/cluster.py PROGRAM [--short] [--drills NAME,..] [--count N] [--results FILE] [--alone] [--keep]
    python3 tests/cluster.py --table FILE..

It makes the cluster of tests/ceph_cluster.py: three nodes, each with a monitor and an OSD on a file, and two MDSs. Of
three machines with its CephFS two are for `host`, of which one holds the store, and one for the mirror and hgweb. nginx
is before the two, by the lines of docs/cluster.md. While clients push and pull, a part ends:

    death    the holder's process, by kill -9          osd, mds, mon   one of that sort, by kill -9
    machine  the holder with its mount, for good       two             two at once
    cut      the holder's network, and heals           power           all, by kill -9, and all begins again
    freeze   the holder's machine, and goes on

Where the holder is the one, a second `host` on the other machine is tried each second until it gets the lock. Where
the program has `--shared` and `--standby` both hosts have them, and the second one waits by itself; --alone leaves them
off.

The clients are two with the command hg, who push to nginx and pull from hgweb, and some who ask by hand, nginx and each
machine: they set bookmarks of their own, set three that all of them want, each from what it had seen of it, and read
one, all, and the report. After each drill

- every push that was answered is in the store, once, and with the answer that it has there;
- all that was told stands in one order, that of the store (tests/history.py): pushes, what was read, and what was
  pulled;
- the deposed holder answered nothing that was asked after the other one served, and ended with status 3;
- the mirror and a fresh clone have what the store has, and `hg verify` finds nothing in either.

Without `--shared` a deposed holder may answer reads out of its memory; these are counted. It prints how long no push
was answered, and for how long that may be where the holder is the one that ends (LIMITS).

--short has the three drills of SHORT, in less than five minutes. Without it there are as many of each as DRILLS says,
or N of each. What they found is added to the FILE of --results, and what stands there already is not played again;
--table prints it. --keep leaves the logs. It needs root, Debian's packages ceph-mon, ceph-osd, ceph-mds and ceph-fuse,
hg and nginx. Where one is not there, or where namespaces or FUSE are refused, it says so in a line; the status is 0.
All runs in namespaces of its own and goes away with them. It ends with a table and a status.
"""
import argparse
import contextlib
import glob
import json
import os
import re
import sys
import time

from ceph_cluster import HUB, MACHINES, NODES, PATIENCE, SESSION, TOOLS, Network, Process, Refused, Wrong
from ceph_cluster import alone, missing, ready, run, until
from cluster_clients import CLIENT, LATE, SOON, Clients, Line
from history import Damaged, Moments, disorder

TOP = os.path.dirname(os.path.dirname(os.path.abspath(__file__)))
# Whether both hosts run with --shared --standby: then the successor waits by itself, and reads that are late are
# faults. It is as the help of the program says that it has them.
SHARED = False

# how many of each drill there are, in this order
DRILLS = {"death": 20, "machine": 5, "cut": 20, "freeze": 20, "osd": 10, "mds": 10, "mon": 10, "two": 5, "power": 5}
SHORT = ("death", "cut", "mds")
# within how many seconds pushes are to go on: the lock is free at once, or when the session is over
LIMITS = {"death": 3, "machine": SESSION + 3, "cut": SESSION + 3, "freeze": SESSION + 3}
# how long a part stays away, and how long there are clients before and after
AWAY, BEFORE, AFTER = 25, 3, 3
# how many changesets there are for bookmarks
TARGETS = 12
MERCURIAL = """\
[ui]
username = somebody
[extensions]
mirror = {top}/mirror/mirror.py
[mirror]
program = {program}
[phases]
publish = no
[experimental]
evolution = all
"""
FRONT = """\
daemon off; master_process off; pid {room}/nginx.pid; error_log {room}/log/nginx.log;
events {{ }}
http {{
    access_log off; client_max_body_size 300m; client_body_temp_path {room}/run; proxy_temp_path {room}/run;
    fastcgi_temp_path {room}/run; uwsgi_temp_path {room}/run; scgi_temp_path {room}/run;
    {upstream}
    server {{
        listen {hub}:8080;
        location / {{
            {handing}
            {again}
            proxy_pass http://deqtorap_host;
        }}
        {location}
    }}
}}
"""


class Trial:
    """One drill: a new store, its mirror, and clients."""

    def __init__(self, room, cluster, machines, number, name, turn):
        self.room, self.cluster, self.name, self.turn = f"{room}/trial-{number}", cluster, name, turn
        self.third = machines["three"]
        self.holder, self.other = (machines[it] for it in (("one", "two") if number % 2 else ("two", "one")))
        self.store, self.began, self.over, self.deposed, self.since = f"store-{number}", None, None, None, None
        self.ends_by_itself, self.mirror, self.hgweb, self.lost, self.quiet = False, None, None, [], None
        self.stale = {}
        os.makedirs(f"{self.room}/log")
        with open(f"{self.room}/hgrc", "w", encoding="utf-8") as file:
            file.write(MERCURIAL.format(top=TOP, program=self.third.program))
        self.environment = {"PATH": os.environ["PATH"], "HGRCPATH": f"{self.room}/hgrc", "HGPLAIN": "1",
                            "LC_ALL": "C.UTF-8", "HOME": self.room, "PYTHONDONTWRITEBYTECODE": "1",
                            "CHGSOCKNAME": f"{self.room}/chg", "CHGTIMEOUT": "120"}
        self.clients = Clients(self)

    def hg(self, *words, seconds=PATIENCE):
        return run(CLIENT, *words, cwd=self.room, env=self.environment, seconds=seconds)

    # ---- the beginning and the end

    def begin(self):
        # the first opening makes the store
        self.holder.serve(self.store)
        until("the first host serves", self.holder.serves)
        if SHARED:
            self.holder.host.kill()
            self.serve(self.holder)
            until("the first host serves", self.holder.serves)
            self.serve(self.other)
        self.hg("init", "mirrored")
        with open(f"{self.room}/mirrored/.hg/hgrc", "w", encoding="utf-8") as file:
            file.write(f"[mirror]\nstore = {self.third.at}/{self.store}\n")
        self.follow()
        self.hg("init", "first")
        for number in range(TARGETS):
            with open(f"{self.room}/first/file", "w", encoding="ascii") as file:
                file.write(f"{number}\n")
            self.hg("-R", "first", "commit", "-A", "-m", f"first {number}")
        self.nodes = self.hg("-R", "first", "log", "-r", "all()", "-T", "{node}\n").split()
        until("the first push", lambda: self.clients.tried("first", "push", f"http://{HUB}:8080/"), pause=1)
        for name in ("hg1", "hg2"):
            self.hg("clone", f"http://{MACHINES['three']}:8002/", name)
        self.load()
        time.sleep(BEFORE)

    def serve(self, machine):
        """Starts a host that has to find the store."""
        flags = ("--shared", "--standby") if SHARED else ("--existing",)
        machine.serve(self.store, *flags, "--user-header", "x-user")

    def follow(self):
        """The mirror and hgweb, on the third machine."""
        os.environ.update(self.environment)
        hg = ("hg", "-R", f"{self.room}/mirrored")
        self.mirror = Process(self.room, "three", "mirror", *hg, "mirror", "--store", f"{self.third.at}/{self.store}")
        self.hgweb = Process(self.room, "three", "hgweb", *hg, "serve", "-a", MACHINES["three"], "-p", "8002")
        line = Line(f"{MACHINES['three']}:8002")
        until("hgweb", lambda: line.ask("GET", {"cmd": "capabilities"})[0] == 200)

    def load(self):
        clients, front = self.clients, f"{HUB}:8080"
        for number in (1, 2):
            clients.start(clients.push_keys, f"k{number}", front, None, 0.1, SOON)
            clients.start(clients.race, f"race{number}", front, None, 0.2, SOON)
            clients.start(clients.work, f"hg{number}")
        clients.start(clients.read, front, None, 0.1)
        clients.start(clients.read_all, front, None, 0.5)
        clients.start(clients.report, front, None, 1)
        for machine in (self.holder, self.other):
            own = ("127.0.0.1:8000", machine.name)
            clients.start(clients.push_keys, f"at-{machine.name}", *own, 0.2, LATE)
            clients.start(clients.race, f"race-at-{machine.name}", *own, 0.4, LATE)
            clients.start(clients.read, *own, 0.1)
            clients.start(clients.report, *own, 1)

    def end(self):
        self.clients.end()
        for name in glob.glob(f"{self.room}/chg*"):
            # without its socket the server of chg ends
            os.remove(name)
        for process in filter(None, (self.mirror, self.hgweb)):
            process.kill()
        for machine in (self.holder, self.other):
            if machine.host:
                machine.host.kill()
                machine.host = None

    # ---- what drills do

    def strike(self, *lost):
        """It begins. Machines that are lost have to mount their file system again afterwards."""
        self.began, self.lost = time.monotonic(), lost

    def take_over(self):
        """The other machine serves: its host is tried until it gets the lock."""
        end = time.monotonic() + PATIENCE
        while time.monotonic() < end:
            tried = time.monotonic()
            if self.other.host is None or self.other.host.status() is not None:
                self.serve(self.other)
            while not self.other.serves() and self.other.host.status() is None and time.monotonic() < end:
                time.sleep(0.02)
            if self.other.serves():
                self.over = self.since = time.monotonic()
                self.deposed = self.holder
                return
            said = self.other.host.said().strip()
            if self.other.host.status() is not None and "another process holds the store" not in said:
                raise Wrong(f"the successor ended with status {self.other.host.status()}: {said[-400:]}")
            time.sleep(max(0, tried + 1 - time.monotonic()))
        raise Wrong(f"no successor within {PATIENCE} seconds: {self.other.host.said()[-400:]}")

    def goes_on(self):
        """Waits until a push is answered that was sent after the successor served, or what ended was back."""
        def is_answered():
            with self.clients.lock:
                return any(it.answered and it.began > self.since for it in self.clients.pushes.values())
        until("pushes go on", is_answered)
        time.sleep(AFTER)

    def hush(self):
        """Every second time nobody pushes at the holder's machine from now on until the holder is back: a push that
        waits there makes reads wait too, and without one the deposed holder reads out of its memory."""
        if self.turn % 2:
            self.quiet = self.holder.name
            time.sleep(0.5)

    def fenced(self):
        """The deposed holder, which is back, is asked to read and to push, and ends by itself."""
        time.sleep(1)
        self.quiet = None
        until("the deposed holder ends", lambda: self.deposed.host.status() is not None)
        host = self.deposed.host
        if host.status() != 3:
            raise Wrong(f"the deposed holder ended with status {host.status()}: {host.said()}")
        self.ends_by_itself = True

    # ---- what is found

    def stall(self):
        """The longest time without an answered push, from the strike on."""
        with self.clients.lock:
            times = sorted(it.answered for it in self.clients.pushes.values() if it.answered)
        times = [self.began, *(it for it in times if it > self.began)]
        return max((after - before for before, after in zip(times, times[1:])), default=float("inf"))

    def serving(self):
        return self.other if self.deposed else self.holder

    def moments(self):
        """What the store has."""
        file = f"{self.room}/pushes"
        run("cp", f"{self.serving().at}/{self.store}/pushes", file)
        with open(file, "rb") as store:
            return Moments(store.read())

    def faults(self):
        """What is not as it has to be, in lines, and how many records there are."""
        try:
            moments = self.moments()
        except Damaged as damage:
            return [f"the store: {damage}"], 0
        faults = [*self.clients.faults, *self.pushed_wrong(moments), *self.told_wrong(moments)]
        if self.serving().host.status() is not None:
            faults.append(f"the host that serves ended by itself: {self.serving().host.said()[-400:]}")
        return [*faults, *self.mirrored(moments)], moments.last

    def pushed_wrong(self, moments):
        """Of pushes: each that was answered is there, as often as it was sent at most, and as it was answered."""
        pushes = self.clients.pushes
        lost = [it for it, push in pushes.items() if push.answered and it not in moments.places]
        often = [it for it, places in moments.places.items() if len(places) > (pushes[it].times if it in pushes else 0)]
        other = [it for it, push in pushes.items() if push.is_set is not None and it in moments.places
                 and push.is_set != moments.set[moments.place(it)]]
        told = (("that were answered are not there", lost), ("are there more often than they were sent", often),
                ("were answered otherwise than they are there", other))
        return [f"{len(found)} pushes {what}: {found[:5]}" for what, found in told if found]

    def told_wrong(self, moments):
        """Of all that was told: it stands in one order, and nothing was told by a holder that was deposed."""
        told, faults = self.clients.told(moments), []
        late = [it for it in told if self.deposed and it.by == self.deposed.name and it.ended
                and (it.began > self.over or it.is_push and it.ended > self.over)]
        if not SHARED:
            # out of its memory it may read
            self.stale = {"reads of the deposed holder": sum(not it.is_push for it in late)}
            old = {id(it) for it, _ in disorder(told) if not it.is_push and it in late}
            self.stale["of them old"] = len(old)
            told = [it for it in told if it.is_push or it not in late]
            late = [it for it in late if it.is_push]
        if late:
            faults.append(f"the deposed holder answered {len(late)} times: {[it.what for it in late[:5]]}")
        wrong = disorder(told)
        for it, before in wrong[:3]:
            faults.append(f"{self.told_at(it)} is older than {self.told_at(before) if before else 'all'}")
        if wrong:
            faults.append(f"{len(wrong)} of {len(told)} answers do not stand in one order")
        return faults

    def told_at(self, it):
        """An answer in words; its times count from the strike on."""
        ended = "never" if it.ended is None else f"{it.ended - self.began:.2f}"
        return f"{it.what} by {it.by}, of {it.fits}, asked at {it.began - self.began:.2f} and answered at {ended},"

    def mirrored(self, moments):
        """Of the mirror and a fresh clone."""
        def is_mirrored():
            if self.mirror.status() is not None:
                raise Wrong(f"the mirror ended by itself: {self.mirror.said()[-600:]}")
            with contextlib.suppress(FileNotFoundError, IndexError):
                with open(f"{self.room}/mirrored/.hg/store/pushes-mirrored", encoding="ascii") as file:
                    return int(file.read().split()[0]) == moments.last
            return False
        try:
            until("the mirror has all", is_mirrored)
            self.hg("clone", "-U", f"http://{MACHINES['three']}:8002/", "fresh")
            for name in ("mirrored", "fresh"):
                self.hg("-R", name, "verify")
                nodes = self.hg("-R", name, "log", "-r", "all()", "-T", "{node}\n").split()
                if nodes != moments.nodes if name == "mirrored" else set(nodes) != set(moments.nodes):
                    raise Wrong(f"{name} has {len(nodes)} changesets, and not those {len(moments.nodes)} of the store")
            marks = self.hg("-R", "mirrored", "bookmarks", "-T", "{bookmark} {node|formatnode}\n")
            marks = {it.split(" ")[0]: it.split(" ")[1] for it in marks.splitlines() if it[:3] != "no "}
            wanted = {key: value for key, value in moments.values.items() if value}
            if {key: value[:12] for key, value in wanted.items()} != {key: value[:12] for key, value in marks.items()}:
                raise Wrong(f"the mirror has {len(marks)} bookmarks, and not those {len(wanted)} of the store")
        except Wrong as wrong:
            return [str(wrong)]
        return []


# ---- the drills

def death(trial):
    trial.strike()
    trial.holder.host.kill()
    trial.take_over()


def machine(trial):
    trial.strike(trial.holder)
    Network.link(trial.holder.name, False)
    trial.holder.off()
    trial.take_over()


def cut(trial):
    trial.hush()
    trial.strike(trial.holder)
    Network.link(trial.holder.name, False)
    trial.take_over()
    trial.goes_on()
    Network.link(trial.holder.name, True)
    trial.fenced()


def freeze(trial):
    """A machine that stands still answers its network nothing either."""
    trial.hush()
    trial.strike(trial.holder)
    Network.link(trial.holder.name, False)
    for process in (trial.holder.host, trial.holder.fuse):
        process.stop()
    trial.take_over()
    trial.goes_on()
    Network.link(trial.holder.name, True)
    for process in (trial.holder.fuse, trial.holder.host):
        process.go_on()
    trial.fenced()


def away(trial, *names):
    trial.strike()
    trial.cluster.end(*names)
    time.sleep(AWAY)
    trial.cluster.begin(*names)
    trial.since = time.monotonic()


def osd(trial):
    away(trial, f"osd.{trial.turn % 3}")


def mds(trial):
    away(trial, trial.cluster.active())


def mon(trial):
    away(trial, f"mon.{list(NODES)[trial.turn % 3]}")


def two(trial):
    """Two at once, another two each time."""
    active, turn = trial.cluster.active(), trial.turn % 5
    ends = ([active, "osd.2"], ["mon.a", "osd.1"], [active], ["osd.0"], ["mon.b", active])[turn]
    if turn not in (2, 3):
        return away(trial, *ends)
    trial.strike()
    trial.cluster.end(*ends)
    trial.holder.host.kill()
    trial.take_over()
    return trial.cluster.begin(*ends)


def power(trial):
    trial.strike()
    machines = (trial.holder, trial.other, trial.third)
    here = [it for machine in machines for it in (machine.host, machine.fuse) if it]
    processes = [*trial.cluster.running.values(), *here, trial.mirror, trial.hgweb]
    for process in processes:
        process.process.kill()
    for process in processes:
        process.kill()
    trial.cluster.begin(*trial.cluster.on)
    for it in machines:
        it.again()
    trial.take_over()
    trial.follow()


PLAYS = {it.__name__: it for it in (death, machine, cut, freeze, osd, mds, mon, two, power)}


class Found:
    """What a drill found, as it is kept."""

    @staticmethod
    def of(trial, records, faults, seconds):
        counts, clients = trial.clients.counts, trial.clients
        pushes = list(clients.pushes.values())
        limit = LIMITS.get(trial.name)
        stall = round(trial.stall(), 2)
        return {"drill": trial.name, "turn": trial.turn, "good": not faults, "faults": faults, "stall": stall,
                "limit": limit, "seconds": round(seconds), "load": round(os.getloadavg()[0], 1), "records": records,
                "shared": SHARED, "answered": sum(bool(it.answered) for it in pushes),
                "unanswered": sum(it.by == "front" and not it.answered for it in pushes), "reads": len(clients.reads),
                "fenced": trial.ends_by_itself, "stale": trial.stale,
                "hg": [counts.get(it, 0) for it in ("hg push", "hg push not done", "hg pull", "hg pull not done")],
                "keys": {key[9:]: count for key, count in counts.items() if key.startswith("a key by")}}

    @staticmethod
    def line(it):
        is_in_time = it["limit"] is None or it["stall"] <= it["limit"]
        limit = "" if it["limit"] is None else f" ({'within' if is_in_time else 'NOT WITHIN'} {it['limit']})"
        push, no_push, pull, no_pull = it["hg"]
        parts = [f"no push was answered for {it['stall']:.1f} s{limit}",
                 f"{it['answered']} pushes answered in {it['records']} records",
                 f"{it['unanswered']} sent to nginx and not answered",
                 f"hg: {push} of {push + no_push} pushes, {pull} of {pull + no_pull} pulls done",
                 f"{it['reads']} reads and pulls"]
        parts += [f"{count} {what}" for what, count in it["stale"].items() if count]
        if it["fenced"]:
            parts.append("the deposed holder ended with status 3")
        parts += [f"load {it['load']}", f"{it['seconds']} s in all"]
        return (f"{it['drill']} {it['turn'] + 1}: {'; '.join(parts)}: "
                f"{'as wanted' if it['good'] else 'NOT AS WANTED: ' + '; '.join(it['faults'])}")

    @staticmethod
    def table(found):
        rows = [("drill", "times", "as wanted", "seconds without an answered push", "in time", "pushes", "reads",
                 "load")]
        for name in DRILLS:
            of = [it for it in found if it["drill"] == name]
            if of:
                took = sorted(it["stall"] for it in of)
                limit = of[0]["limit"]
                in_time = "" if limit is None else f"{sum(it <= limit for it in took)} within {limit}"
                loads = [it["load"] for it in of]
                rows.append((name, str(len(of)), str(sum(it["good"] for it in of)),
                             f"{took[0]:.1f} to {took[-1]:.1f}, {took[len(took) // 2]:.1f} in the middle", in_time,
                             str(sum(it["answered"] for it in of)), str(sum(it["reads"] for it in of)),
                             f"{min(loads):.0f} to {max(loads):.0f}"))
        wide = [max(len(row[k]) for row in rows) for k in range(len(rows[0]))]
        return "\n".join("  ".join(it.ljust(size) for it, size in zip(row, wide)).rstrip() for row in rows)


def drill(room, cluster, machines, number, name, turn):
    """Plays a drill, and gives what it found."""
    trial, faults, records, start = Trial(room, cluster, machines, number, name, turn), [], 0, time.monotonic()
    try:
        trial.begin()
        PLAYS[name](trial)
        trial.goes_on()
        trial.clients.end()
        faults, records = trial.faults()
    except Exception as fault:  # pylint: disable=broad-except
        faults = [str(fault) if isinstance(fault, Wrong) else repr(fault)]
    with contextlib.suppress(Wrong):
        trial.end()
    trial.began = trial.began or time.monotonic()
    found = Found.of(trial, records, faults, time.monotonic() - start)
    print(Found.line(found), flush=True)
    mend(cluster, machines, trial.lost, bool(faults))
    return found


def mend(cluster, machines, lost, is_wrong):
    """What was lost begins again; where something went wrong, all."""
    for name in cluster.dead():
        print(f"{name} ended by itself", flush=True)
        cluster.begin(name)
    for it in machines.values():
        if it in lost or is_wrong or it.fuse is None or it.fuse.status() is not None:
            try:
                it.again()
            except Wrong as wrong:
                print(f"once more, for {wrong}", flush=True)
                cluster.end(*cluster.on)
                cluster.begin(*cluster.on)
                cluster.wait()
                it.again()
    cluster.wait()


# ---- what there is

def block_of(words):
    """The lines of docs/cluster.md for nginx that begin with these words."""
    with open(f"{TOP}/docs/cluster.md", encoding="utf-8") as file:
        found = re.search(rf"```nginx\n({re.escape(words)}.*?)```", file.read(), re.S)
    if not found:
        raise Wrong(f"docs/cluster.md has no lines of nginx that begin with {words}")
    text = found[1]
    for name, machine in (("host1", "one"), ("host2", "two")):
        text = text.replace(f"{name}:8000", f"{MACHINES[machine]}:8000")
    return text


def front(room):
    """nginx, by the lines of docs/cluster.md; those that send a push once more are for a host that waits."""
    again, location = ("proxy_intercept_errors", "location @deqtorap_again") if SHARED else (None, None)
    with open(f"{room}/nginx.conf", "w", encoding="utf-8") as file:
        file.write(FRONT.format(room=room, hub=HUB, upstream=block_of("upstream"), handing=block_of("proxy_connect"),
                                again=again and block_of(again) or "", location=location and block_of(location) or ""))
    return Process(room, None, "nginx", "nginx", "-c", f"{room}/nginx.conf", "-e", f"{room}/log/nginx.log")


def inside(room, given, drills, kept):
    began = time.monotonic()
    try:
        cluster, machines = ready(room, os.path.abspath(given.program), given.set)
    except Refused as refused:
        print(f"cluster.py: skipped, {refused}".replace("\n", " "))
        return 0
    proxy = front(room)
    print(f"cluster.py: the cluster is there after {time.monotonic() - began:.0f} s; hosts run "
          f"{'with --shared --standby' if SHARED else 'without --standby'}", flush=True)
    number, had = 0, {(it["drill"], it["turn"]) for it in kept}
    found = list(kept)
    for name, count in drills.items():
        for turn in range(count):
            if (name, turn) in had:
                continue
            number += 1
            found.append(drill(room, cluster, machines, number, name, turn))
            if given.results:
                with open(given.results, "a", encoding="ascii") as file:
                    file.write(json.dumps(found[-1]) + "\n")
    print(Found.table(found))
    if proxy.status() is not None:
        print(f"nginx ended by itself: {proxy.said()}")
    bad = sum(not it["good"] for it in found[len(kept):])
    print(f"cluster.py: {number} drills in {time.monotonic() - began:.0f} s, {number - bad} as wanted, {bad} not")
    return 1 if bad or proxy.status() is not None else 0


def kept_in(files):
    """What the files of --results have."""
    found = []
    for name in files:
        with contextlib.suppress(FileNotFoundError):
            with open(name, encoding="ascii") as file:
                found += [json.loads(line) for line in file]
    return found


def main(words):
    asked = argparse.ArgumentParser(usage="cluster.py PROGRAM [--short] [--drills NAME,..] [--count N] "
                                          "[--results FILE] [--alone] [--keep] [--set LINE]\n"
                                          "       cluster.py --table FILE..")
    asked.add_argument("program", nargs="?")
    asked.add_argument("--short", action="store_true")
    asked.add_argument("--drills", default="")
    asked.add_argument("--count", type=int)
    asked.add_argument("--results")
    asked.add_argument("--table", nargs="+")
    asked.add_argument("--alone", action="store_true")
    asked.add_argument("--keep", action="store_true")
    asked.add_argument("--set", action="append", default=[])
    asked.add_argument("--inside", help=argparse.SUPPRESS)
    given = asked.parse_args(words)
    if given.table:
        print(Found.table(kept_in(given.table)))
        return 0
    if not given.program:
        asked.error("which program?")
    names = given.drills.split(",") if given.drills else SHORT if given.short else list(DRILLS)
    if unknown := [it for it in names if it not in DRILLS]:
        asked.error(f"there are no drills {', '.join(unknown)}, but {', '.join(DRILLS)}")
    drills = {it: given.count or (1 if given.short else DRILLS[it]) for it in names}
    if given.inside:
        global SHARED
        SHARED = not given.alone and "--standby" in run(os.path.abspath(given.program), "host", "--help")
        return inside(given.inside, given, drills, kept_in([given.results] if given.results else []))
    if why := missing((*TOOLS, "hg", "nginx")):
        print(f"cluster.py: skipped, {why}")
        return 0
    return 1 if alone(__file__, words, given.keep) else 0


if __name__ == "__main__":
    sys.exit(main(sys.argv[1:]) if len(sys.argv) > 1 else __doc__)
