"""Measures the program beside the plain one: measure.py PROGRAM FOLDER TURNS [SHA1], from run.sh, with what it made.

Each row has the figure of the program, that of the plain one, the first by the second, and what was wanted: of that
ratio, or of the program's figure by itself.
"""
import os
import re
import resource
import shutil
import struct
import subprocess
import sys
import time

BENCH = os.path.dirname(os.path.dirname(os.path.abspath(__file__)))
sys.path += [f"{BENCH}/push", f"{BENCH}/store"]
import make
import many

program, folder, turns = sys.argv[1], sys.argv[2], int(sys.argv[3])
BOTH = (program, f"{folder}/plain")
SINGLES = sorted(os.listdir(f"{folder}/pushes/single"))[:1000]
SECONDS = 1800
# changesets a push, connections, pushes of each
LOADS = ((1, 1, 4000), (1, 8, 4000), (20, 1, 2000), (20, 8, 1000), (1, 64, 1000), (20, 64, 100))
# changesets a push, and how many pushes of one connection are counted beyond the first ones
COUNTED = ((1, 500, 1000), (20, 100, 200))
# how many pushes the store has that is opened
STORED = 100_000
# the functions that run while the lock is held, as callgrind names them
LOCKED = {program: "hg_serve::desk::Desk::turn", f"{folder}/plain": "main::repo::Repo::run"}
# of which rows what is wanted: the ratio at most or at least, or the program's own figure at most
AT_MOST, AT_LEAST, ITSELF = "at most {} times", "at least {} times", "at most {}"
AIMS = (
    ("`one`, 20,000 changesets: ms of the processor", AT_MOST, 1.1),
    ("`one`, page faults", AT_MOST, 1.2),
    ("`one`, calls of malloc a changeset", ITSELF, 1.2),
    ("`replay`, 1,000 pushes of one changeset: ms of the processor", AT_MOST, 1.2),
    ("8 connections, 1 changesets a push: pushes a second", AT_LEAST, 1.0),
    ("8 connections, 20 changesets a push: pushes a second", AT_LEAST, 0.9),
    ("64 connections, 1 changesets a push: pushes a second", AT_LEAST, 0.9),
    ("64 connections, 20 changesets a push: pushes a second", AT_LEAST, 0.9),
    ("64 connections, 1 changesets a push: the 99th of 100 replies, µs", AT_MOST, 1.5),
    ("64 connections, 20 changesets a push: the 99th of 100 replies, µs", AT_MOST, 1.5),
    ("a push of 1 changesets: instructions under the lock", ITSELF, 5_000),
    ("a push of 20 changesets: instructions under the lock", ITSELF, 45_000),
    ("a push of 1 changesets: calls of malloc", ITSELF, 8),
    (f"a store of {STORED:,} pushes is opened, ms of the processor", AT_MOST, 1.5),
)


def usage_of(words, source=None, cwd=None):
    with open(source or os.devnull, "rb") as given, open(os.devnull, "wb") as sink:
        child = subprocess.Popen(words, stdin=given, stdout=sink, cwd=cwd)
        _, status, usage = os.wait4(child.pid, 0)
    if status != 0:
        sys.exit(f"{words[:3]}: status {os.waitstatus_to_exitcode(status)}")
    return usage


def spent(usage):
    return usage.ru_utime + usage.ru_stime


def one(binary):
    usage = usage_of([binary, "one"], f"{folder}/pushes/line.hg20")
    return {
        "`one`, 20,000 changesets: ms of the processor": spent(usage) * 1e3,
        "`one`, page faults": usage.ru_minflt,
        "`one`, most memory, MB": usage.ru_maxrss / 1024,
    }


def replay(binary):
    usage = usage_of([binary, "replay", *SINGLES], cwd=f"{folder}/pushes/single")
    return {
        "`replay`, 1,000 pushes of one changeset: ms of the processor": spent(usage) * 1e3,
        "`replay`, page faults": usage.ru_minflt,
    }


def serve(words, changesets, connections, pushes, environment=None):
    """What the clients tell, and what the server took."""
    words = [*words, "serve", "--listen", "127.0.0.1:0", "--connections", str(connections), "--bundles", "10000"]
    server = subprocess.Popen([*words, "--report", f"{folder}/report"], stdout=subprocess.PIPE,
                              stderr=subprocess.DEVNULL, env=environment)
    try:
        port = server.stdout.readline().rpartition(b":")[2].strip().decode()
        load = [f"{folder}/load", port, str(connections), str(pushes), str(changesets)]
        told = subprocess.run(load, capture_output=True, encoding="ascii", check=True, timeout=SECONDS).stdout
        _, status, usage = os.wait4(server.pid, 0)
        server.returncode = status
    finally:
        if server.returncode is None:
            server.kill()
            server.wait()
        server.stdout.close()
    return [float(it) for it in told.split()], usage


def loaded(binary, changesets, connections, pushes):
    (rate, _, late, _), usage = serve([binary], changesets, connections, pushes)
    name = f"{connections} connections, {changesets} changesets a push:" if connections > 1 else \
        f"1 connection, {changesets} changesets a push:"
    return {
        f"{name} pushes a second": rate,
        f"{name} the 99th of 100 replies, µs": late,
        f"{name} the server's processor, µs a push": spent(usage) * 1e6 / (connections * pushes),
    }


def in_turns(measure, *what):
    """The best of each figure: the greatest rate, and the least of all others."""
    figures = {binary: {} for binary in BOTH}
    for turn in range(turns):
        for binary in BOTH if turn % 2 == 0 else BOTH[::-1]:
            for name, figure in measure(binary, *what).items():
                figures[binary].setdefault(name, []).append(figure)
    for name, first in figures[BOTH[0]].items():
        best = max if name.endswith("a second") else min
        tell(name, best(first), best(figures[BOTH[1]][name]))


def tell(name, ours, plain):
    ratio = ours / plain if plain else float("nan")
    digits = 0 if max(ours, plain) >= 1000 else 1
    figures = f"{ours:,.{digits}f} | {plain:,.{digits}f} | {ratio:.2f}"
    print(f"| {name} | {figures} | {verdict(name, ours, ratio)} |", flush=True)


def verdict(name, ours, ratio):
    """What is wanted of the row, and whether it is so."""
    for row, how, aim in AIMS:
        if row == name:
            is_met = ratio >= aim if how == AT_LEAST else (ours if how == ITSELF else ratio) <= aim
            return f"{how.format(f'{aim:,}')}: {'met' if is_met else 'not met'}"
    return ""


def within(path, function):
    """The instructions of all calls of a function, with what these called, by a profile of callgrind."""
    names, called, cost, awaited = {}, "", 0, False
    with open(path, encoding="utf-8") as told:
        for line in told:
            if awaited:
                cost, awaited = cost + int(line.split()[1]), False
            elif named := re.match(r"cfn=\((\d+)\)(?: (.*))?", line):
                called = names.setdefault(named[1], named[2])
            elif named := re.match(r"fn=\((\d+)\) (.*)", line):
                names[named[1]] = named[2]
            elif line.startswith("calls="):
                awaited = called == function or called.startswith(f"{function}::<")
    return cost


def instructions(binary, changesets, pushes):
    words = ["valgrind", "--tool=callgrind", f"--callgrind-out-file={folder}/callgrind", binary]
    serve(words, changesets, 1, pushes)
    with open(f"{folder}/callgrind", encoding="utf-8") as told:
        whole = int(next(line for line in told if line.startswith("totals:")).split()[1])
    return [whole, within(f"{folder}/callgrind", LOCKED[binary])]


def counting(run):
    """How often malloc, realloc and free were called in a run that gets this environment."""
    with open(f"{folder}/count", "wb") as counts:
        counts.write(bytes(24))
    run(os.environ | {"LD_PRELOAD": f"{folder}/count.so", "COUNT": f"{folder}/count"})
    with open(f"{folder}/count", "rb") as counts:
        return list(struct.unpack("=3Q", counts.read()))


def mallocs(binary, changesets, pushes):
    return counting(lambda environment: serve([binary], changesets, 1, pushes, environment))


def mallocs_of_one():
    def run(binary):
        with open(f"{folder}/pushes/line.hg20", "rb") as given:
            return lambda environment, data=given.read(): subprocess.run(
                [binary, "one"], input=data, stdout=subprocess.DEVNULL, env=environment, check=True)
    ours, plain = (counting(run(binary))[0] / 20_000 for binary in BOTH)
    tell("`one`, calls of malloc a changeset", ours, plain)


def faults(binary, changesets, pushes):
    return [serve([binary], changesets, 1, pushes)[1].ru_minflt]


def counted(measure, names):
    """What a push takes: by two runs, of which one has some pushes more."""
    for changesets, few, more in COUNTED:
        both = []
        for binary in BOTH:
            first, second = measure(binary, changesets, few), measure(binary, changesets, few + more)
            both.append([(last - before) / more for before, last in zip(first, second)])
        for name, ours, plain in zip(names, *both):
            tell(f"a push of {changesets} changesets: {name}", ours, plain)


def hashes(ours):
    figures = {}
    for _ in range(turns):
        for place, binary in enumerate((ours, f"{folder}/sha1_speed")):
            ended = subprocess.run([binary], capture_output=True, encoding="ascii", check=True)
            for line in (ended.stdout + ended.stderr).splitlines():
                _, size, time, _ = line.split()
                figures.setdefault(size, ([], []))[place].append(float(time))
    for size, (first, second) in figures.items():
        tell(f"SHA-1 of 40 + {size} bytes, ns", min(first), min(second))


def write_stored(path):
    """A store of pushes of one changeset each, and a push of all of these."""
    line = make.Line()
    os.mkdir(path)
    many.write_store(f"{path}/pushes", (make.push(line.entry()) for _ in range(STORED)))
    with open(f"{folder}/whole", "wb") as out:
        out.write(make.push(make.Line().entries(STORED)))


def opened(store):
    """What a start of `host` takes on a store, until it listens."""
    words = [program, "host", "--store", store, "--listen", "127.0.0.1:0"]
    server = subprocess.Popen(words, stderr=subprocess.PIPE, stdin=subprocess.DEVNULL)
    said = server.stderr.readline()
    used = time.clock_gettime(~server.pid << 3 | 2)
    server.kill()
    server.wait()
    server.stderr.close()
    if b"listening" not in said:
        sys.exit(f"the store was not opened: {said.decode()}")
    return used


def stores():
    """The opening of a store, and beside it SHA-1 of its file and `one` of its changesets."""
    store = f"{folder}/store"
    write_stored(store)
    ours, beside = [], []
    for _ in range(turns):
        ours.append(opened(store))
        usages = (usage_of(["sha1sum", f"{store}/pushes"]), usage_of([program, "one"], f"{folder}/whole"))
        beside.append(sum(map(spent, usages)))
    print("\n| | the program | `sha1sum` and `one` | ratio | |\n|---|---|---|---|---|")
    tell(f"a store of {STORED:,} pushes is opened, ms of the processor", min(ours) * 1e3, min(beside) * 1e3)


def main():
    resource.setrlimit(resource.RLIMIT_NOFILE, (4096, 4096))
    print("| | the program | plain Rust | ratio | wanted |\n|---|---|---|---|---|")
    in_turns(one)
    mallocs_of_one()
    in_turns(replay)
    for load in LOADS:
        in_turns(loaded, *load)
    if shutil.which("valgrind"):
        counted(instructions, ["instructions of the user's part", "instructions under the lock"])
    counted(mallocs, ["calls of malloc", "of realloc", "of free"])
    counted(faults, ["page faults"])
    if len(sys.argv) > 4:
        hashes(sys.argv[4])
    stores()
    print(f"\nThe load at the end: {os.getloadavg()[0]:.1f}.")


main()
