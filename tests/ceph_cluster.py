#!/usr/bin/env python3
"""A Ceph cluster of one machine, for what is tried or measured over it.

    python3 tests/ceph_cluster.py [--set LINE].. COMMAND..

It makes a cluster in network namespaces: three nodes, each with a monitor and an OSD on a file, and two MDSs. Three
machines, `one`, `two` and `three`, have its CephFS, by ceph-fuse. COMMAND runs beside them, in the folder in which
each mount has the name of its machine; `nsenter --net=/run/netns/one` runs a command on a machine. Each LINE is one
more of `ceph.conf`. tests/cluster.py ends parts of such a cluster, and bench/cluster measures pushes over it.

It needs root, Debian's packages ceph-mon, ceph-osd, ceph-mds and ceph-fuse, and the command ip. Where one is not there,
or where namespaces or FUSE are refused, it says so in a line; the status is 0. All runs in namespaces of its own, and
goes away with them.
"""
import contextlib
import ctypes
import json
import os
import shutil
import signal
import subprocess
import sys
import tempfile
import time
import uuid

TOOLS = ("ceph", "ceph-mon", "ceph-osd", "ceph-mds", "ceph-fuse", "monmaptool", "ip", "unshare", "nsenter")
ALONE = ["unshare", "--mount", "--net", "--pid", "--ipc", "--fork", "--kill-child", "--mount-proc"]

HUB = "10.77.0.1"
NODES = {"a": "10.77.0.11", "b": "10.77.0.12", "c": "10.77.0.13"}
MACHINES = {"one": "10.77.0.21", "two": "10.77.0.22", "three": "10.77.0.23"}
# after how many seconds without a word a mount loses its session; the shortest that Ceph takes
SESSION = 30
# how long something may take that has no bound of its own, on a busy machine
PATIENCE = 180
SETTINGS = f"""\
[global]
fsid = {{fsid}}
mon_host = {",".join(NODES.values())}
mon_initial_members = {",".join(NODES)}
auth_cluster_required = none
auth_service_required = none
auth_client_required = none
public_network = 10.77.0.0/24
run_dir = {{room}}/run
admin_socket = {{room}}/run/$name.$pid.asok
pid_file = {{room}}/run/$name.pid
log_file = {{room}}/log/$name.log
mon_cluster_log_file = {{room}}/log/cluster.log
crash_dir = {{room}}/run
mon_data = {{room}}/mon.$id
osd_data = {{room}}/osd.$id
mds_data = {{room}}/mds.$id
osd_pool_default_size = 3
osd_pool_default_min_size = 2
osd_pool_default_pg_num = 8
osd_pool_default_pg_autoscale_mode = off
osd_crush_chooseleaf_type = 0
osd_objectstore = bluestore
bluestore_block_size = 4294967296
bluestore_block_create = true
osd_memory_target = 939524096
osd_heartbeat_interval = 3
osd_heartbeat_grace = 10
mon_osd_min_down_reporters = 1
mon_osd_down_out_interval = 6000
mds_tick_interval = 1
client_reconnect_stale = false
fuse_disable_pagecache = true
fuse_multithreaded = false
"""
# the machine that only reads: docs/cluster.md says why
READER = """\
[client.three]
client_oc = false
"""


class Wrong(Exception):
    pass


class Refused(Exception):
    """What this machine does not let one do."""


def until(what, is_so, seconds=PATIENCE, pause=0.1):
    """Waits until something is so, and gives what it gave."""
    end = time.monotonic() + seconds
    while True:
        found = is_so()
        if found:
            return found
        if time.monotonic() > end:
            raise Wrong(f"not within {seconds} seconds: {what}")
        time.sleep(pause)


def run(*words, seconds=60, **more):
    """What a command writes, which has to go well. One that waits for a file system may stay when it was killed."""
    process = subprocess.Popen(words, stdin=subprocess.DEVNULL, stdout=subprocess.PIPE, stderr=subprocess.STDOUT,
                               **more)
    try:
        said = process.communicate(timeout=seconds)[0].decode("utf-8", "replace")
    except subprocess.TimeoutExpired as late:
        process.kill()
        raise Wrong(f"{' '.join(words)}: not within {seconds} seconds") from late
    if process.returncode:
        raise Wrong(f"{' '.join(words)}: status {process.returncode}: {said[-600:]}")
    return said


class Network:
    """A bridge, and a namespace for each node and machine, named by their names."""

    @staticmethod
    def make():
        for words in ("link set lo up", "link add hub type bridge", f"addr add {HUB}/24 dev hub", "link set hub up"):
            run("ip", *words.split())
        for name, address in {**NODES, **MACHINES}.items():
            run("ip", "netns", "add", name)
            run("ip", "link", "add", f"to-{name}", "type", "veth", "peer", "name", "net", "netns", name)
            run("ip", "link", "set", f"to-{name}", "master", "hub", "up")
            for words in (f"addr add {address}/24 dev net", "link set net up", "link set lo up"):
                run("ip", "-n", name, *words.split())

    @staticmethod
    def link(name, is_up):
        run("ip", "link", "set", f"to-{name}", "up" if is_up else "down")

    @staticmethod
    def enter(name):
        """The thread that asks is in that namespace from now on."""
        with open(f"/run/netns/{name}", "rb") as file:
            if ctypes.CDLL(None, use_errno=True).setns(file.fileno(), 0x40000000):
                raise OSError(ctypes.get_errno(), "setns")


class Process:
    """A process that this script started, in the network of a node or a machine."""

    def __init__(self, room, network, name, *words):
        self.log, self.name = f"{room}/log/{name}.out", name
        inside = ["nsenter", f"--net=/run/netns/{network}", "--"] if network else []
        with open(self.log, "ab") as log:
            self.from_here = log.tell()
            self.process = subprocess.Popen([*inside, *words], stdin=subprocess.DEVNULL, stdout=log, stderr=log,
                                            cwd=room)

    def status(self):
        return self.process.poll()

    def said(self):
        with open(self.log, "rb") as log:
            log.seek(self.from_here)
            return log.read().decode("utf-8", "replace")

    def kill(self):
        """Ends it. A process that waits for a file system ends with that."""
        self.process.kill()
        with contextlib.suppress(subprocess.TimeoutExpired):
            self.process.wait(10)

    def stop(self):
        self.process.send_signal(signal.SIGSTOP)

    def go_on(self):
        self.process.send_signal(signal.SIGCONT)


class Cluster:
    """Monitors, OSDs and MDSs, each a process on a node."""

    def __init__(self, room, more=()):
        self.room, self.settings, self.running, self.more = room, f"{room}/ceph.conf", {}, more
        nodes = list(NODES)
        self.on = {**{f"mon.{it}": it for it in nodes}, **{f"osd.{k}": nodes[k] for k in range(3)},
                   "mds.m0": nodes[0], "mds.m1": nodes[1]}

    def ask(self, *words):
        return run("ceph", "-c", self.settings, "--connect-timeout", "20", *words)

    def make(self):
        os.makedirs(f"{self.room}/run")
        fsid = str(uuid.uuid4())
        with open(self.settings, "w", encoding="ascii") as file:
            file.write(SETTINGS.format(fsid=fsid, room=self.room) + "".join(f"{it}\n" for it in self.more) + READER)
        places = [word for name, ip in NODES.items() for word in ("--addv", name, f"[v2:{ip}:3300,v1:{ip}:6789]")]
        run("monmaptool", "--create", "--fsid", fsid, *places, f"{self.room}/monmap")
        for name in NODES:
            os.makedirs(f"{self.room}/mon.{name}")
            run("ceph-mon", "-c", self.settings, "--mkfs", "-i", name, "--monmap", f"{self.room}/monmap")
        self.begin(*(it for it in self.on if it.startswith("mon")))
        until("a quorum of monitors", lambda: len(self.state().get("quorum_names", ())) == 3)
        for number in range(3):
            os.makedirs(f"{self.room}/osd.{number}")
            own = str(uuid.uuid4())
            self.ask("osd", "new", own, str(number))
            run("ceph-osd", "-c", self.settings, "-i", str(number), "--mkfs", "--osd-uuid", own, seconds=PATIENCE)
        self.begin(*(it for it in self.on if it.startswith("osd")))
        self.ask("osd", "pool", "create", "metadata")
        self.ask("osd", "pool", "create", "data")
        self.ask("fs", "new", "store", "metadata", "data")
        # the second: a dead mount of which nobody wants anything back keeps its locks up to there, 300 seconds if left out
        for name in ("session_timeout", "session_autoclose"):
            self.ask("fs", "set", "store", name, str(SESSION))
        for name in ("m0", "m1"):
            os.makedirs(f"{self.room}/mds.{name}")
        self.begin("mds.m0", "mds.m1")
        self.wait()

    def begin(self, *names):
        for name in names:
            sort, own = name.split(".")
            words = (f"ceph-{sort}", "-c", self.settings, "-i", own, "-f")
            self.running[name] = Process(self.room, self.on[name], name, *words)

    def end(self, *names):
        for name in names:
            self.running[name].process.kill()
        for name in names:
            self.running[name].kill()

    def state(self):
        try:
            return json.loads(self.ask("-s", "-f", "json").strip().splitlines()[-1])
        except (Wrong, ValueError, IndexError):
            return {}

    def is_whole(self):
        """Whether all monitors, all OSDs, an MDS and one that waits are there."""
        state = self.state()
        files = state.get("fsmap", {})
        return (len(state.get("quorum_names", ())) == 3 and state["osdmap"]["num_up_osds"] == 3
                and [it["status"] for it in files.get("by_rank", ())] == ["up:active"] and files.get("up:standby") == 1)

    def wait(self):
        until("all parts of the cluster are there", self.is_whole, pause=1)
        if dead := self.dead():
            raise Wrong(f"ended by themselves: {', '.join(dead)}")

    def dead(self):
        """What ended by itself."""
        return [it.name for it in self.running.values() if it.status() is not None]

    def active(self):
        """The MDS that answers."""
        return "mds." + until("an MDS", lambda: self.state().get("fsmap", {}).get("by_rank"))[0]["name"]


class Machine:
    """A machine with the file system mounted, where `host` may run."""

    def __init__(self, cluster, program, name):
        self.cluster, self.program, self.name, self.address = cluster, program, name, MACHINES[name]
        self.at, self.fuse, self.host = f"{cluster.room}/{name}", None, None
        os.makedirs(self.at)

    def mount(self):
        words = ("ceph-fuse", "-c", self.cluster.settings, "-n", f"client.{self.name}", "-f", self.at)
        self.fuse = Process(self.cluster.room, self.name, f"fuse-{self.name}", *words)
        until(f"{self.name} has the file system", self.is_mounted)

    def is_mounted(self):
        if self.fuse.status() is not None:
            raise Wrong(f"ceph-fuse ended: {self.fuse.said()[-600:]}")
        with open("/proc/self/mounts", encoding="utf-8") as file:
            return f" {self.at} fuse" in file.read()

    def off(self):
        """Ends all that runs there, and the mount."""
        for process in filter(None, (self.host, self.fuse)):
            process.process.kill()
        for process in filter(None, (self.host, self.fuse)):
            process.kill()
        self.host = self.fuse = None
        with contextlib.suppress(Wrong):
            run("umount", "-l", self.at)

    def again(self):
        """Mounts it again, where it was off or is not to be trusted any more."""
        self.off()
        Network.link(self.name, True)
        self.mount()

    def serve(self, store, *flags):
        self.host = Process(self.cluster.room, self.name, f"host-{self.name}", self.program, "host", *flags, "--store",
                            f"{self.at}/{store}", "--listen", "0.0.0.0:8000", "--idle", "60")

    def serves(self):
        return "listening on" in self.host.said() and self.host.status() is None


def missing(tools=TOOLS):
    """What is not there, in words; nothing where all is."""
    for tool in tools:
        if not shutil.which(tool):
            return f"the command {tool} is not installed"
    if os.geteuid():
        return "it needs root, for namespaces and mounts"
    tried = "mount -t tmpfs none /run && ip netns add x && ip link add x type veth peer name y netns x && " \
            "ip link add z type bridge"
    if subprocess.run([*ALONE, "sh", "-c", tried], stdin=subprocess.DEVNULL, stdout=subprocess.DEVNULL,
                      stderr=subprocess.DEVNULL, check=False).returncode:
        return "namespaces of processes, mounts and networks are refused here"
    return None


def try_fuse(at):
    """Mounts a file system of FUSE that nobody serves, and takes it off."""
    system = ctypes.CDLL(None, use_errno=True)
    try:
        device = os.open("/dev/fuse", os.O_RDWR)
    except OSError as fault:
        raise Refused(f"/dev/fuse cannot be opened ({fault.strerror})") from fault
    told = f"fd={device},rootmode=40000,user_id=0,group_id=0".encode()
    if system.mount(b"none", at.encode(), b"fuse", 0, told):
        raise Refused(f"FUSE cannot be mounted ({os.strerror(ctypes.get_errno())})")
    system.umount2(at.encode(), 2)
    os.close(device)


def ready(room, program, more=()):
    """The cluster, and the machines with its file system. Where they cannot be had nothing is said of the program."""
    try:
        run("mount", "-t", "tmpfs", "none", "/run")
        os.makedirs(f"{room}/log")
        os.makedirs(f"{room}/tried")
        try_fuse(f"{room}/tried")
        Network.make()
        cluster = Cluster(room, more)
        cluster.make()
        machines = {name: Machine(cluster, program, name) for name in MACHINES}
        for it in machines.values():
            it.mount()
        return cluster, machines
    except Wrong as wrong:
        raise Refused(f"the cluster does not start: {wrong}") from wrong


def alone(script, words, keep):
    """Runs a script once more in namespaces of its own, with the word --inside and a folder behind its words. With it
    all that runs there ends."""
    room = tempfile.mkdtemp(prefix="cluster-", dir="/var/tmp")
    inner = subprocess.Popen([*ALONE, sys.executable, os.path.abspath(script), "--inside", room, *words])
    for it in (signal.SIGTERM, signal.SIGINT, signal.SIGHUP):
        signal.signal(it, lambda *_: inner.kill())
    try:
        return inner.wait()
    finally:
        if keep:
            print(f"the logs are in {room}")
        else:
            shutil.rmtree(room, ignore_errors=True)


def main(words):
    room, more = None, []
    if words[:1] == ["--inside"]:
        room, words = words[1], words[2:]
    command = words
    while command[:1] == ["--set"]:
        more, command = [*more, command[1]], command[2:]
    if not command:
        sys.exit(__doc__)
    try:
        if room:
            ready(room, None, more)
            return subprocess.run(command, cwd=room, check=False).returncode
    except Refused as refused:
        print(f"ceph_cluster.py: skipped, {refused}".replace("\n", " "))
        return 0
    if why := missing():
        print(f"ceph_cluster.py: skipped, {why}")
        return 0
    return alone(__file__, words, False)


if __name__ == "__main__":
    sys.exit(main(sys.argv[1:]))
