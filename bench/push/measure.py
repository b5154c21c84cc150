"""Measures the program on the bundles of make.py: measure.py PROGRAM FOLDER."""

import fcntl
import os
import shutil
import subprocess
import sys
import termios
import threading
import time

program, folder = os.path.realpath(sys.argv[1]), os.path.realpath(sys.argv[2])
here = os.path.dirname(os.path.realpath(__file__))
RUNS = 5
# Mercurial's modules are those of the system's Python
PYTHON = "/usr/bin/python3"


def run(words, source=None, cwd=None):
    """The processor time in seconds, the peak of memory in bytes, and the time in seconds."""
    with open(source or os.devnull, "rb") as given, open(os.devnull, "wb") as sink:
        start = time.perf_counter()
        child = subprocess.Popen(words, stdin=given, stdout=sink, cwd=cwd)
        _, status, usage = os.wait4(child.pid, 0)
        took = time.perf_counter() - start
    if status != 0:
        sys.exit(f"{words[:3]}: status {os.waitstatus_to_exitcode(status)}")
    return usage.ru_utime + usage.ru_stime, usage.ru_maxrss * 1024, took


def names_in(kind):
    return sorted(os.listdir(os.path.join(folder, kind)))


def one():
    best = min(run([program, "one"], os.path.join(folder, "line.hg20"))[0] for _ in range(RUNS))
    print(f"one push of 20,000 changesets: {20000 / best:,.0f} changesets a second of processor time")


def replay(kind):
    names = names_in(kind)
    runs = [run([program, "replay", *names], cwd=os.path.join(folder, kind)) for _ in range(RUNS)]
    best = min(spent for spent, _, _ in runs)
    return len(names), best, max(peak for _, peak, _ in runs)


def spent_by(pid):
    """The processor time in nanoseconds of a process that waits for input, and None where it does not."""
    with open(f"/proc/{pid}/stat", encoding="ascii") as told:
        waits = told.read().rpartition(")")[2].split()[0] == "S"
    with open(f"/proc/{pid}/schedstat", encoding="ascii") as told:
        return int(told.read().split()[0]) if waits else None


def is_drained(pipe):
    return fcntl.ioctl(pipe, termios.FIONREAD, bytes(4)) == bytes(4)


def feed(path, data, pid, told, place):
    """Gives a push through a pipe. Before its last byte the program waits: its time is taken then."""
    with open(path, "wb", buffering=0) as pipe:
        pipe.write(data[:-1])
        while told[place] is None:
            time.sleep(0.0002)
            if is_drained(pipe):
                told[place] = spent_by(pid())
        pipe.write(data[-1:])


def thousands(kind):
    """Nanoseconds of processor time: up to the first push of one changeset, the first thousand, the last."""
    room = os.path.join(folder, kind)
    names = names_in(kind)
    last = len(names) - 1
    marks = [names[place] for place in (last - 19899, last - 18899, last - 1000, last)]
    told, threads, child = [None] * 4, [], []
    for place, name in enumerate(marks):
        path = os.path.join(room, name)
        with open(path, "rb") as kept:
            data = kept.read()
        os.rename(path, path + ".kept")
        os.mkfifo(path)
        thread = threading.Thread(target=feed, args=(path, data, lambda: child[0], told, place))
        threads.append(thread)
    with open(os.devnull, "wb") as sink:
        words = [program, "replay", *names]
        started = subprocess.Popen(words, stdin=subprocess.DEVNULL, stdout=sink, cwd=room)
    child.append(started.pid)
    for thread in threads:
        thread.start()
    for thread in threads:
        thread.join()
    if started.wait() != 0:
        sys.exit(f"replay of {kind}: status {started.returncode}")
    for name in marks:
        os.replace(os.path.join(room, name + ".kept"), os.path.join(room, name))
    return told[0], told[1] - told[0], told[3] - told[2]


def pushes(kind, label):
    runs = [thousands(kind) for _ in range(RUNS)]
    opened, first, last = (min(times[place] for times in runs) / 1e6 for place in range(3))
    print(f"{label}: the first 1,000 {first:.2f} ms, the last {last:.2f} ms, {last / first:.2f} times")
    return opened


def single():
    count, spent, _ = replay("single")
    print(f"19,900 pushes of one changeset: {count / spent:,.0f} pushes a second of processor time")
    opened = pushes("single", "  of these")
    print(f"  the opening of the files took {opened:.1f} of {spent * 1e3:.1f} ms")


def peak_of(pid):
    """The most memory in bytes that a process held until now."""
    with open(f"/proc/{pid}/status", encoding="ascii") as told:
        line = next(line for line in told if line.startswith("VmHWM:"))
    return int(line.split()[1]) * 1024


def peaks(names):
    """The peak of memory where the pushes are done, and where their report is written too."""
    room = os.path.join(folder, "blocks")
    last = os.path.join(folder, "last")
    os.mkfifo(last)
    words = [program, "replay", *names, last]
    child = subprocess.Popen(words, stdin=subprocess.DEVNULL, stdout=subprocess.DEVNULL, cwd=room)
    told = [None]
    done = []

    def waits():
        # it waits for the last byte of a push without a part, so the pushes before it are done
        done[:] = [peak_of(child.pid)]
        return child.pid

    feed(last, b"HG20" + bytes(8), waits, told, 0)
    _, status, usage = os.wait4(child.pid, 0)
    os.unlink(last)
    if status != 0:
        sys.exit(f"replay of blocks: status {os.waitstatus_to_exitcode(status)}")
    return done[0], usage.ru_maxrss * 1024


def memory():
    names = names_in("blocks")
    few, few_told = peaks(names[:100])
    done, told = peaks(names)
    print("memory beyond the text, in bytes a changeset at 200,000, by the peak of the process:")
    print(f"  where the pushes are done {done / 200000 - 140:.0f}, with the report {told / 200000 - 140:.0f}")
    later, later_told = ((all - first) / 100000 - 140 for all, first in ((done, few), (told, few_told)))
    print(f"  for each of the second 100,000: {later:.0f} and {later_told:.0f}")


def is_same_as(report, paths):
    """Whether the program reports the same of the same pushes."""
    ours = subprocess.run([program, "replay", *paths], stdout=subprocess.PIPE, check=True).stdout
    with open(report, "rb") as told:
        return told.read() == ours


def mercurial(label, count, names):
    """The same pushes taken by Mercurial, in one process and without a network, and by the program."""
    server, report = os.path.join(folder, "server"), os.path.join(folder, "report")
    paths = [os.path.join(folder, name) for name in names]
    words = [PYTHON, os.path.join(here, "beside.py"), server, report, *paths]
    told = subprocess.run(words, stdout=subprocess.PIPE, check=True).stdout.split()
    spent, peak = float(told[0]), int(told[1])
    if not is_same_as(report, paths):
        sys.exit(f"{label}: Mercurial's repository is another one")
    best, ours, _ = min(run([program, "replay", *paths]) for _ in range(RUNS))
    shutil.rmtree(server)
    print(f"{label}: Mercurial {count / spent:,.0f} a second with a peak of {peak / 1e6:.0f} MB, "
          f"the program {count / best:,.0f} with {ours / 1e6:.0f} MB; both repositories are the same")


def beside():
    if subprocess.run([PYTHON, "-c", "import mercurial"], stderr=subprocess.DEVNULL).returncode != 0:
        print("Mercurial is not installed here")
        return
    version = subprocess.run(["hg", "--version", "-q"], stdout=subprocess.PIPE, text=True).stdout.strip()
    print("beside Mercurial", version)
    mercurial("changesets of one push of 20,000", 20000, ["line.hg20"])
    single = [os.path.join("single", name) for name in names_in("single")[:2000]]
    mercurial("pushes of one changeset, 2,000", 2000, single)


one()
single()
pushes("heads", "with 3,000 heads and no check:heads")
pushes("drafts", "behind a draft line of 200,000 changesets")
memory()
beside()
