#!/usr/bin/env python3
"""Pushes a second to a store on CephFS, with somebody who follows it on another machine and without.

    python3 bench/cluster/run.py PROGRAM [--rounds N] [--seconds S] [--size BYTES] [--connections N] [--set LINE]..

On the cluster of tests/ceph_cluster.py, `host` runs on one machine, and pushes of 2 KiB (or BYTES) come there over 64
connections (or N) for S seconds (5). In each of N rounds (5) they take turns:

    local        the store is on a disk of that machine
    shared       it is on CephFS, with --shared
    followed     and `log --follow` runs on another machine, over its own mount
    mirrored     and a mirror of Mercurial there, which follows it too

It prints the middle of the rounds, the least and the most, and how long after the last answer the follower had all.
For each push it prints how many operations the OSDs and the MDS were asked for by the host's machine and the
follower's, and how many rights the MDS took back. It needs what the cluster needs, and a compiler of C; the mirror needs
hg.
"""
import argparse
import glob
import json
import os
import shutil
import statistics
import subprocess
import sys
import time

TOP = os.path.dirname(os.path.dirname(os.path.dirname(os.path.abspath(__file__))))
sys.path.insert(0, f"{TOP}/tests")
from ceph_cluster import Process, Refused, Wrong, alone, missing, ready, run, until

KINDS = ("local", "shared", "followed", "mirrored")
PORT = 8000
# what a frame has beside a bundle whose push has no name
FRAME = 41
# the counters of a mount and of the MDS that are told
COUNTERS = {"OSD reads": ("objecter", "op_r"), "OSD writes": ("objecter", "op_w"), "asked of the MDS": ("client", "reply")}


class Bench:
    def __init__(self, room, given, cluster, machines):
        self.room, self.given, self.cluster, self.machines = room, given, cluster, machines
        self.program, self.number = os.path.abspath(given.program), 0
        run("cc", "-O2", "-pthread", "-o", f"{room}/push", f"{TOP}/bench/store/push.c")

    def counters(self):
        """Those of both mounts and of the MDS."""
        found = {}
        for name in ("one", "three"):
            told = self.dump(f"client.{name}.*.asok")
            for what, (part, counter) in COUNTERS.items():
                value = told.get(part, {}).get(counter, 0)
                found[f"{what} by {'the host' if name == 'one' else 'the follower'}"] = (
                    value["avgcount"] if isinstance(value, dict) else value)
        told = self.dump(f"{self.cluster.active()}.*.asok").get("mds", {})
        found["rights taken back"] = told.get("ceph_cap_op_revoke", 0)
        return found

    def dump(self, name):
        sockets = glob.glob(f"{self.room}/run/{name}")
        return json.loads(run("ceph", "--admin-daemon", sockets[0], "perf", "dump")) if sockets else {}

    def host(self, folder, *flags):
        process = Process(self.room, "one", f"host-{self.number}", self.program, "host", *flags, "--store", folder,
                          "--listen", f"127.0.0.1:{PORT}", "--connections", "100")
        until("the host serves", lambda: process.status() is not None or "listening on" in process.said())
        if process.status() is not None:
            raise Wrong(process.said())
        return process

    def push(self, seconds):
        """How many pushes a second were answered."""
        words = [f"{self.room}/push", str(PORT), str(self.given.size), str(self.given.connections), str(seconds)]
        said = run("nsenter", "--net=/run/netns/one", *words, seconds=60 + seconds)
        return float(said.split()[-1])

    def follow(self, kind, folder):
        """What follows the store, and how many pushes it has."""
        out = f"{self.room}/followed-{self.number}"
        inside = ["nsenter", "--net=/run/netns/three", "--"]
        if kind == "followed":
            words = [self.program, "log", "--store", folder, "--follow"]
            with open(out, "wb") as file:
                process = subprocess.Popen([*inside, *words], stdin=subprocess.DEVNULL, stdout=file)
            return process, lambda: os.path.getsize(out) // (FRAME + self.given.size)
        run("hg", "init", out)
        hg = ["hg", "--config", f"extensions.mirror={TOP}/mirror/mirror.py", "--config", f"mirror.program={self.program}",
              "-R", out, "--config", "phases.publish=no", "mirror", "--store", folder]
        process = subprocess.Popen([*inside, *hg], stdin=subprocess.DEVNULL, stdout=subprocess.DEVNULL,
                                   stderr=subprocess.DEVNULL)

        def count():
            try:
                with open(f"{out}/.hg/store/pushes-mirrored", encoding="ascii") as file:
                    return int(file.read().split()[0])
            except (FileNotFoundError, IndexError):
                return 0
        return process, count

    def measure(self, kind, seconds):
        """Pushes a second, how late the follower was, and the operations of each push."""
        self.number += 1
        name = f"store-{self.number}"
        folder = f"{self.room if kind == 'local' else self.machines['one'].at}/{name}"
        self.host(folder).kill()
        host = self.host(folder, *([] if kind == "local" else ["--shared"]))
        follower = None
        if kind in ("followed", "mirrored"):
            follower, count = self.follow(kind, f"{self.machines['three'].at}/{name}")
            time.sleep(1)
        was = self.counters()
        rate = self.push(seconds)
        now = self.counters()
        done = rate * seconds
        late = None
        if follower:
            late = self.lag(name, host, follower, count)
            follower.kill()
            follower.wait()
        host.kill()
        shutil.rmtree(folder, ignore_errors=True)
        return rate, late, {what: (now[what] - was[what]) / done for what in now}

    def lag(self, name, host, follower, count):
        """How long after the last answer the follower has all; none where it ended, or is not done in a minute."""
        start = time.monotonic()
        with open(f"{self.machines['one'].at}/{name}/pushes", "rb") as file:
            size = os.fstat(file.fileno()).st_size
        whole = (size - 54) // (34 + self.given.size)
        while time.monotonic() < start + 60:
            if follower.poll() is not None or host.status() is not None:
                return None
            if count() >= whole:
                return time.monotonic() - start
            time.sleep(0.005)
        return None


def show(found):
    for kind, rows in found.items():
        rates, lates = [row[0] for row in rows], [row[1] for row in rows]
        line = f"{kind}: {statistics.median(rates):.0f} pushes a second ({min(rates):.0f} to {max(rates):.0f})"
        if kind in ("followed", "mirrored"):
            there = [it for it in lates if it is not None]
            line += f"; all was there {1000 * statistics.median(there):.0f} ms later" if there else "; it was not there"
            line += f", and {len(lates) - len(there)} times not" if there and len(there) < len(lates) else ""
        print(line)
        if kind != "local":
            print("    " + ", ".join(f"{what}: {statistics.median([row[2][what] for row in rows]):.2f}" for what in rows[0][2]))


def inside(room, given):
    try:
        cluster, machines = ready(room, None, given.set)
    except Refused as refused:
        print(f"run.py: skipped, {refused}")
        return 0
    bench, found = Bench(room, given, cluster, machines), {}
    kinds = given.kinds.split(",")
    for number in range(given.rounds):
        for kind in kinds:
            row = bench.measure(kind, given.seconds)
            found.setdefault(kind, []).append(row)
            print(f"round {number + 1}, {kind}: {row[0]:.0f}", file=sys.stderr, flush=True)
    print(f"{given.connections} connections, {given.size} bytes; load {os.getloadavg()[0]:.1f}")
    show(found)
    return 0


def main(words):
    asked = argparse.ArgumentParser()
    asked.add_argument("program")
    asked.add_argument("--rounds", type=int, default=5)
    asked.add_argument("--seconds", type=float, default=5)
    asked.add_argument("--size", type=int, default=2048)
    asked.add_argument("--connections", type=int, default=64)
    asked.add_argument("--kinds", default="local,shared,followed")
    asked.add_argument("--set", action="append", default=[])
    asked.add_argument("--inside", help=argparse.SUPPRESS)
    given = asked.parse_args(words)
    if given.inside:
        return inside(given.inside, given)
    if why := missing():
        print(f"run.py: skipped, {why}")
        return 0
    return alone(__file__, words, False)


if __name__ == "__main__":
    sys.exit(main(sys.argv[1:]))
