#!/usr/bin/env python3
"""Two versions of the programs beside each other: bench/compare.py BEFORE AFTER [TURNS [GROUP..]]

BEFORE and AFTER are folders, each with `hg_pushd` and with the programs of the other benchmarks: `keys_speed`,
`phases_speed`, `book_speed`, `serve_speed`. Each figure is taken TURNS times (5) of each, in turns, so that what else
the machine does meets both. Printed: both medians, and how many times as fast the second is. GROUP is one of keys,
phases, book, serve, push and connections; all of them if none is told.
"""
import os
import re
import statistics
import subprocess
import sys
import tempfile
import time

TOP = os.path.dirname(os.path.dirname(os.path.abspath(__file__)))
SECONDS = 120
# of a program's output: what a line is, and the figures in it, each with its name and whether less is better
KEYS = re.compile(r"(.*): ([\d.]+) ns among 100 bookmarks, ([\d.]+) ns among 100000")
ROWS = re.compile(r"(register|phase): ([\d.]+) ns at \d+ rows of a draft line, ([\d.]+) ns at")
ADVANCE = re.compile(r"(advance of .* rows, .*): ([\d.]+) ns")
BOOK = re.compile(r"the book, (pushes of \d+ parts): ([\d.]+) ns (a step|a push) with 1 open, ([\d.]+) with 64, "
                  r"([\d.]+) with 1024")
SERVE = re.compile(r"(\d+) threads: (\d+) pushes a second through the server, (\d+) at a book in a lock, (\d+) by one")
LOCK = re.compile(r"(\d+) threads: the lock is held (\d+) ns at the 50th")


def keys(line):
    if told := KEYS.match(line):
        yield f"{told[1]}, among 100, ns", float(told[2])
        yield f"{told[1]}, among 100,000, ns", float(told[3])


def phases(line):
    if told := ROWS.match(line):
        yield f"{told[1]}, few rows, ns", float(told[2])
        yield f"{told[1]}, 200,000 rows, ns", float(told[3])
    if told := ADVANCE.match(line):
        yield f"{told[1]}, ns", float(told[2])


def book(line):
    if told := BOOK.match(line):
        for count, figure in zip(("1", "64", "1,024"), (told[2], told[4], told[5])):
            yield f"{told[1]}, {told[3]}, {count} open, ns", float(figure)


def serve(line):
    if told := SERVE.match(line):
        yield f"{told[1]} threads at the server, pushes/s", float(told[2])
        yield f"{told[1]} threads at a book in a lock, pushes/s", float(told[3])
    if told := LOCK.match(line):
        yield f"{told[1]} threads, the lock held, ns", float(told[2])


def figures_of(program, reads):
    said = subprocess.run([program], stdin=subprocess.DEVNULL, capture_output=True, encoding="utf-8", check=True,
                          timeout=SECONDS).stdout
    return [it for line in said.splitlines() for it in reads(line)]


def processor_of(words, source=None, cwd=None):
    """The processor seconds and the peak of memory of a run."""
    with open(source or os.devnull, "rb") as given, open(os.devnull, "wb") as sink:
        child = subprocess.Popen(words, stdin=given, stdout=sink, cwd=cwd)
        _, status, usage = os.wait4(child.pid, 0)
    if status != 0:
        sys.exit(f"{words[:3]}: status {os.waitstatus_to_exitcode(status)}")
    return usage.ru_utime + usage.ru_stime, usage.ru_maxrss * 1024


def push(program, room):
    """Pushes of bench/push, by processor time."""
    spent, _ = processor_of([program, "one"], f"{room}/line.hg20")
    yield "one push of 20,000 changesets, changesets/s", 20_000 / spent
    for kind, label in (("single", "19,900 pushes of one changeset, pushes/s"),
                        ("heads", "the same with 3,000 heads, pushes/s"),
                        ("drafts", "the same after a draft line of 200,000, pushes/s"),
                        ("blocks", "200 pushes of 1,000 changesets, pushes/s")):
        names = sorted(os.listdir(f"{room}/{kind}"))
        spent, peak = processor_of([program, "replay", *names], cwd=f"{room}/{kind}")
        yield label, len(names) / spent
        if kind == "blocks":
            yield "bytes a changeset of these, with the report", peak / 200_000 - 140


def connections(program, load, work):
    """Pushes of bench/connections, by clients over the loopback; and what the server took of the processor."""
    for count, pushes, changesets in ((1, 4000, 0), (8, 4000, 0), (64, 1000, 0), (8, 4000, 1), (64, 1000, 1),
                                      (1, 600, 20), (8, 400, 20), (64, 50, 20), (8, 20, 1000)):
        words = ["serve", "--listen", "127.0.0.1:0", "--connections", str(count), "--bundles", "10000", "--report",
                 f"{work}/report"]
        server = subprocess.Popen([program, *words], stdout=subprocess.PIPE, stderr=subprocess.DEVNULL)
        try:
            port = server.stdout.readline().rpartition(b":")[2].strip().decode()
            words = [load, port, str(count), str(pushes), str(changesets)]
            told = subprocess.run(words, capture_output=True, encoding="ascii", check=True, timeout=SECONDS).stdout
            _, status, usage = os.wait4(server.pid, 0)
            server.returncode = status
        finally:
            if server.returncode is None:
                server.kill()
                server.wait()
            server.stdout.close()
        label = f"{count} connections, {changesets} changesets a push"
        yield f"{label}, pushes/s", float(told.split()[0])
        spent = (usage.ru_utime + usage.ru_stime) * 1e6 / (count * pushes)
        yield f"{label}, the server's processor, us a push", spent


def tell(label, before, after):
    """Both medians, and how many times as fast the second is: by rates as they are, by times turned over."""
    first, second = statistics.median(before), statistics.median(after)
    times = second / first if label.endswith("/s") else first / second
    print(f"{label:66} {first:12,.1f} {second:12,.1f} {times:6.2f}   "
          f"({min(before):,.1f} to {max(before):,.1f}; {min(after):,.1f} to {max(after):,.1f})", flush=True)


def main(before, after, turns="5", *groups):
    with tempfile.TemporaryDirectory() as work:
        subprocess.run(["cc", "-O2", "-pthread", "-o", f"{work}/load", f"{TOP}/bench/connections/load.c"], check=True)
        made = not groups or "push" in groups
        if made:
            subprocess.run([sys.executable, f"{TOP}/bench/push/make.py", f"{work}/pushes"], check=True)
        kinds = {
            "keys": lambda room: figures_of(f"{room}/keys_speed", keys),
            "phases": lambda room: figures_of(f"{room}/phases_speed", phases),
            "book": lambda room: figures_of(f"{room}/book_speed", book),
            "serve": lambda room: figures_of(f"{room}/serve_speed", serve),
            "push": lambda room: push(f"{room}/hg_pushd", f"{work}/pushes"),
            "connections": lambda room: connections(f"{room}/hg_pushd", f"{work}/load", work),
        }
        for kind in groups or kinds:
            start = time.time()
            taken = {before: {}, after: {}}
            for _ in range(int(turns)):
                for room, all_of_it in taken.items():
                    for label, figure in kinds[kind](room):
                        all_of_it.setdefault(label, []).append(figure)
            print(f"# {kind}, load {os.getloadavg()[0]:.1f}, {time.time() - start:.0f} s", flush=True)
            for label in taken[before]:
                tell(label, taken[before][label], taken[after][label])


if __name__ == "__main__":
    main(*(os.path.abspath(it) for it in sys.argv[1:3]), *sys.argv[3:])
