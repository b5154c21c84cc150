"""What `hg_pushd host` costs in use; run.sh starts it: run.py PROGRAM FOLDER

FOLDER has the programs `push` of bench/store and `load` of bench/wire, and takes all that is made.
"""
import http.client
import os
import re
import shutil
import signal
import statistics
import subprocess
import sys
import time

HERE = os.path.dirname(os.path.abspath(__file__))
sys.path[:0] = [f"{HERE}/../../tests", f"{HERE}/../store", f"{HERE}/../wire"]
from bundles import CAPS, NULL, bundle, group, node_of  # noqa: E402
import make  # noqa: E402
import many  # noqa: E402

PROGRAM, FOLDER = sys.argv[1:]
# all together end within so many seconds, and one push or one run of clients within so many
WHOLE, ONE = 600, 60
TURNS, PUSHES, STORED = 5, 3, 100_000
SETTINGS = "[ui]\nusername = a <b@c>\n[web]\nallow-push = *\npush_ssl = no\n[phases]\npublish = no\n"
ENVIRONMENT = {"PATH": os.environ["PATH"], "HGRCPATH": f"{FOLDER}/hgrc", "HGPLAIN": "1", "HOME": FOLDER,
               "LC_ALL": "C.UTF-8"}


def hg(*words):
    return subprocess.run(["hg", *words], env=ENVIRONMENT, check=True, capture_output=True, encoding="utf-8",
                          timeout=ONE).stdout


class Host:
    name = "hg_pushd host"

    def __init__(self, store, *words):
        start = time.perf_counter()
        self.process = subprocess.Popen([PROGRAM, "host", "--store", store, "--listen", "127.0.0.1:0", *words],
                                        stderr=subprocess.PIPE, stdin=subprocess.DEVNULL)
        self.pid = self.process.pid
        said = self.process.stderr.readline().decode()
        self.seconds = time.perf_counter() - start
        self.port = int(re.search(r"127\.0\.0\.1:(\d+)/", said)[1])

    def spent(self):
        """The processor seconds that the server took so far, with all of its threads."""
        return time.clock_gettime(~self.pid << 3 | 2)

    def resident(self):
        with open(f"/proc/{self.pid}/status", encoding="ascii") as status:
            return int(re.search(r"^VmRSS:\s+(\d+) kB", status.read(), re.M)[1]) * 1024

    def push(self, body):
        line = http.client.HTTPConnection("127.0.0.1", self.port, timeout=ONE)
        line.request("POST", "/?cmd=unbundle", body,
                     {"content-type": "application/mercurial-0.1", "x-hgarg-1": "heads=666f726365"})
        if b"reply:changegroup" not in line.getresponse().read():
            sys.exit("a push was not done")
        line.close()

    def end(self):
        self.process.kill()
        self.process.wait()
        self.process.stderr.close()


class Mercurial(Host):
    """Mercurial's own server, in one process."""
    name = "hg serve"

    def __init__(self, store):
        hg("init", store)
        said = f"{FOLDER}/said"
        with open(said, "w", encoding="utf-8") as out:
            subprocess.run(["hg", "-R", store, "serve", "-a", "127.0.0.1", "-p", "0", "-d", "--pid-file",
                            f"{FOLDER}/pid", "-E", os.devnull, "-A", os.devnull],
                           env=ENVIRONMENT, check=True, stdin=subprocess.DEVNULL, stdout=out, stderr=out, timeout=ONE)
        with open(f"{FOLDER}/pid", encoding="ascii") as file:
            self.pid = int(file.read())
        with open(said, encoding="utf-8") as file:
            self.port = int(re.search(r"127\.0\.0\.1:(\d+)", file.read())[1])

    def end(self):
        os.kill(self.pid, signal.SIGTERM)
        while os.path.exists(f"/proc/{self.pid}"):
            time.sleep(0.01)


# ---- whole pushes of a real client

def make_clients(folder, count):
    """Copies of a repository of one changeset, to each of which changesets of its own are added, that are to be pushed
    one after the other."""
    hg("init", f"{folder}/first")
    with open(f"{folder}/first/f", "w", encoding="utf-8") as file:
        file.write("first")
    hg("-R", f"{folder}/first", "commit", "-A", "-m", "first", f"{folder}/first/f")
    for number in range(count):
        client, patches = f"{folder}/{number}", f"{folder}/patches"
        shutil.copytree(f"{folder}/first", client)
        with open(patches, "w", encoding="utf-8") as file:
            for place in range(PUSHES):
                name = f"change{place}"
                file.write(f"# HG changeset patch\n# User a <b@c>\n# Date 0 0\n{name} of {number}\n\n"
                           f"diff --git a/{name} b/{name}\nnew file mode 100644\n--- /dev/null\n+++ b/{name}\n"
                           f"@@ -0,0 +1,1 @@\n+client {number}, change {place}\n")
        hg("-R", client, "import", patches)


def push_all(clients, url, place):
    """Each client pushes its changeset of that place, all at one time: the seconds of each, the processor seconds of
    each, and the seconds until the last was done."""
    start, running, spent = time.perf_counter(), {}, []
    for client in clients:
        words = ["timeout", str(ONE), "hg", "-R", client, "push", "-f", "-r", str(place + 1), url]
        child = subprocess.Popen(words, env=ENVIRONMENT, stdout=subprocess.DEVNULL, stderr=subprocess.DEVNULL)
        running[child.pid] = child
    while running:
        pid, status, usage = os.wait4(-1, 0)
        if pid not in running:
            continue
        running.pop(pid).returncode = os.waitstatus_to_exitcode(status)
        if status:
            sys.exit(f"a push to {url} was not done: {status}")
        spent.append((time.perf_counter() - start, usage.ru_utime + usage.ru_stime))
    return spent, time.perf_counter() - start


def start_of_a_client():
    """The seconds that Mercurial takes to begin and to end."""
    times = []
    for _ in range(10):
        start = time.perf_counter()
        hg("version", "-q")
        times.append(time.perf_counter() - start)
    return statistics.median(times)


def turn_of(kind, count):
    """One server, and clients that push to it: what each push took and used, pushes a second, and the processor
    seconds that the server took for a push."""
    room = f"{FOLDER}/turn"
    shutil.copytree(f"{FOLDER}/clients", room, symlinks=True)
    clients = [f"{room}/{number}" for number in range(count)]
    server = kind(f"{room}/store")
    try:
        url = f"http://127.0.0.1:{server.port}/"
        # Mercurial's server loads modules at its first requests
        hg("-R", clients[0], "push", "-r", "0", url)
        pushes, rates, before = [], [], server.spent()
        for place in range(PUSHES):
            spent, last = push_all(clients, url, place)
            pushes += spent
            rates.append(count / last)
        return pushes, rates, (server.spent() - before) / len(pushes)
    finally:
        server.end()
        shutil.rmtree(room)


def real_clients():
    with open(f"{FOLDER}/hgrc", "w", encoding="utf-8") as file:
        file.write(SETTINGS)
    own = start_of_a_client()
    print(f"Mercurial {hg('version', '-q').split()[-1].strip('()')}; `hg version` takes {own * 1e3:.0f} ms", flush=True)
    make_clients(f"{FOLDER}/clients", 8)
    print("server         clients   ms a push   of these the client's processor   the rest   pushes/s"
          "   the server's processor, ms a push")
    for count in (1, 8):
        pushes = {kind: [] for kind in (Host, Mercurial)}
        rates = {kind: [] for kind in (Host, Mercurial)}
        used = {kind: [] for kind in (Host, Mercurial)}
        for _ in range(TURNS):
            for kind in (Host, Mercurial):
                spent, rate, processor = turn_of(kind, count)
                pushes[kind] += spent
                rates[kind] += rate
                used[kind].append(processor)
        for kind, spent in pushes.items():
            took = statistics.median(it for it, _ in spent)
            client = statistics.median(it for _, it in spent)
            rest = statistics.median(it - its for it, its in spent)
            print(f"{kind.name:14} {count:7} {took * 1e3:11.0f} {client * 1e3:33.0f} {rest * 1e3:10.0f}"
                  f" {statistics.median(rates[kind]):10.1f} {statistics.median(used[kind]) * 1e3:35.1f}", flush=True)


# ---- durable pushes a second

def syncs(size, seconds=2.0):
    """How often that many bytes are written at the end of a file and synced, a second."""
    path, count, data = f"{FOLDER}/synced", 0, bytes(size)
    file = os.open(path, os.O_WRONLY | os.O_CREAT | os.O_TRUNC)
    start = time.perf_counter()
    while time.perf_counter() - start < seconds:
        os.write(file, data)
        os.fdatasync(file)
        count += 1
    spent = time.perf_counter() - start
    os.close(file)
    os.remove(path)
    return count / spent


def durable():
    """Pushes of one part that is passed over, by connections that stay, and writes that are synced, in turns."""
    size, rates = 2048, {8: [], 64: [], "syncs": []}
    for _ in range(TURNS):
        for count in (8, 64):
            server = Host(f"{FOLDER}/store", "--connections", "100")
            try:
                words = [f"{FOLDER}/push", str(server.port), str(size), str(count)]
                told = subprocess.run(words, check=True, capture_output=True, encoding="ascii", timeout=ONE).stdout
            finally:
                server.end()
                shutil.rmtree(f"{FOLDER}/store")
            rates[count].append(float(told.split()[4]))
        rates["syncs"].append(syncs(size, 1.0))
    few, many_at_once, alone = (statistics.median(it) for it in rates.values())
    print(f"durable pushes of {size} bytes a second: {few:.0f} with 8 connections, {many_at_once:.0f} with 64;"
          f" writes that are synced one by one: {alone:.0f}", flush=True)


def runs():
    """Whole runs of the clients of bench/wire, each with a push of a changeset, on a repository of 1,001."""
    make.main(f"{FOLDER}/made", 1001, 10)
    with open(f"{FOLDER}/made/bundle", "rb") as file:
        first = file.read()
    rates, used = {8: [], 64: []}, {8: [], 64: []}
    for turn in range(TURNS):
        for count in (8, 64):
            server = Host(f"{FOLDER}/store", "--connections", "100")
            try:
                server.push(first)
                before = server.spent()
                words = [f"{FOLDER}/load", str(server.port), str(count), "1000", "3", f"{turn}", f"{FOLDER}/made/heads"]
                told = subprocess.run(words, check=True, capture_output=True, encoding="ascii", timeout=ONE).stdout
                used[count].append((server.spent() - before) / int(told.split()[0]))
            finally:
                server.end()
                shutil.rmtree(f"{FOLDER}/store")
            rates[count].append(float(told.split()[2]))
    for count, told in rates.items():
        print(f"runs of {count} clients with a durable push of a changeset each: {statistics.median(told):.0f} a second;"
              f" the server's processor, ms a run: {statistics.median(used[count]) * 1e3:.2f}", flush=True)


# ---- the start, and memory

def line_of(count):
    """The text of each changeset, and the one before it."""
    before = NULL
    for number in range(count):
        text = b"0" * 40 + b"\na <b@c>\n0 0\nf\n\nchangeset %d" % number
        yield text, before
        before = node_of(text, before)


def changesets(count):
    """Pushes of one changeset each, on the one before."""
    for entry in line_of(count):
        yield bundle(CAPS, group(entry))


def together(count):
    """One push of all of them."""
    groups = (group(entry) for entry in line_of(count))
    chunks = b"".join(payload[:-12] for _, _, payload in groups)
    kind, params, _ = group()
    return bundle(CAPS, (kind, params, chunks + bytes(12)))


def markers(count):
    for number in range(count):
        yield many.bundle(number)


def starts():
    empty = Host(f"{FOLDER}/empty")
    before = empty.resident()
    print(f"start of an empty store: {empty.seconds * 1e3:.0f} ms, {before / 2 ** 20:.1f} MiB", flush=True)
    empty.end()
    for what, pushes in (("changeset", changesets), ("marker", markers)):
        store = f"{FOLDER}/{what}"
        os.makedirs(store)
        many.write_store(f"{store}/pushes", pushes(STORED))
        seconds = []
        for _ in range(TURNS):
            server = Host(store)
            seconds.append(server.seconds)
            held = server.resident() - before
            server.end()
        size = os.path.getsize(f"{store}/pushes")
        print(f"start of a store of {STORED:,} pushes of one {what} each ({size / 1e6:.1f} MB):"
              f" {statistics.median(seconds):.2f} s; it holds {held / STORED:.0f} bytes for each", flush=True)
        shutil.rmtree(store)
    # what the repository itself takes: the same changesets by one push
    server = Host(f"{FOLDER}/one")
    before = server.resident()
    whole = together(STORED)
    server.push(whole)
    pushed = server.resident() - before
    server.end()
    server = Host(f"{FOLDER}/one")
    print(f"{STORED:,} changesets by one push of {len(whole) / 1e6:.1f} MB: {pushed / STORED:.0f} bytes for each after"
          f" it, {(server.resident() - before) / STORED:.0f} after the next start, which takes {server.seconds:.2f} s",
          flush=True)
    server.end()


def main():
    signal.signal(signal.SIGALRM, lambda *_: sys.exit(f"not done in {WHOLE} seconds"))
    signal.alarm(WHOLE)
    load, processors = os.getloadavg(), os.cpu_count()
    print(f"load of the machine: {load[0]:.1f} {load[1]:.1f} {load[2]:.1f}, {processors} processors", flush=True)
    durable()
    runs()
    starts()
    if shutil.which("hg"):
        real_clients()
    else:
        print("hg is not installed: no real client pushed")
    print(f"load of the machine at the end: {os.getloadavg()[0]:.1f}")


if __name__ == "__main__":
    main()
