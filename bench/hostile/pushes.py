"""What a hostile push costs, as its bytes double: pushes.py PROGRAM [ROW..]

Each row is a kind of push, in five sizes that double, after others that it needs. The program replays them:
the others, an empty push, the hostile one, and an empty push. The empty ones come through pipes. Before its
last byte the program waits, and its processor time is taken then, as the kernel counts it. So a figure is the
time of the hostile push alone: its bytes read, its parts taken and run, and its way back where it is refused.
A server holds its lock for a part of that. The least of three runs counts.

Wanted: at most 2.3 times for twice the bytes, and at most 2 s and 60 ns for each byte and for each byte that
the push makes the server hash, where `sha1sum` makes 400 MB/s. A row that is not so fails the script.
"""

import fcntl
import os
import subprocess
import sys
import tempfile
import termios
import threading
import time

sys.path.insert(0, os.path.join(os.path.dirname(os.path.realpath(__file__)), "..", "..", "tests"))
from bundles import EMPTY
from hostile_pushes import REFUSING, ROWS, longest

RUNS = 3
# a row among which growth is looked at takes at least so long, so that the noise of small times tells nothing
LEAST = 0.01


def spent_by(pid):
    """The processor time in nanoseconds of a process that waits for input, and None where it does not."""
    with open(f"/proc/{pid}/stat", encoding="ascii") as told:
        waits = told.read().rpartition(")")[2].split()[0] == "S"
    with open(f"/proc/{pid}/schedstat", encoding="ascii") as told:
        return int(told.read().split()[0]) if waits else None


def is_drained(pipe):
    return fcntl.ioctl(pipe, termios.FIONREAD, bytes(4)) == bytes(4)


def feed(path, pid, told, place):
    """Gives an empty push through a pipe, and takes the program's time before the last byte."""
    with open(path, "wb", buffering=0) as pipe:
        pipe.write(EMPTY[:-1])
        while told[place] is None:
            time.sleep(0.0005)
            if is_drained(pipe):
                told[place] = spent_by(pid())
        pipe.write(EMPTY[-1:])


def seconds_of(program, room, before):
    """The processor time of the hostile push in one replay, and the status of that."""
    told, child, threads = [None, None], [], []
    for place in range(2):
        path = os.path.join(room, f"pipe{place}")
        if not os.path.exists(path):
            os.mkfifo(path)
        threads.append(threading.Thread(target=feed, args=(path, lambda: child[0], told, place)))
    files = [f"before{place}" for place in range(before)] + ["pipe0", "hostile", "pipe1"]
    with open(os.devnull, "wb") as sink:
        words = [program, "replay", *files]
        run = subprocess.Popen(words, stdin=subprocess.DEVNULL, stdout=sink, stderr=sink, cwd=room)
    child.append(run.pid)
    for thread in threads:
        thread.start()
    for thread in threads:
        thread.join()
    if run.wait() not in (0, 1):
        sys.exit(f"replay: status {run.returncode}")
    return (told[1] - told[0]) / 1e9, run.returncode


def measure(program, make, count):
    """Bytes, bytes that are hashed, and seconds of a push of that size."""
    before, hostile, hashed = make(count)
    with tempfile.TemporaryDirectory() as room:
        for place, data in enumerate(before):
            with open(os.path.join(room, f"before{place}"), "wb") as file:
                file.write(data)
        with open(os.path.join(room, "hostile"), "wb") as file:
            file.write(hostile)
        runs = [seconds_of(program, room, len(before)) for _ in range(RUNS)]
    statuses = {status for _, status in runs}
    if statuses != {1 if make in REFUSING else 0}:
        sys.exit(f"{make.__name__}: statuses {statuses}")
    return len(hostile), hashed, min(seconds for seconds, _ in runs)


def tell_row(program, label, make, most):
    """Prints a row, and says whether it is as wanted."""
    last, good = None, True
    for half in range(4, -1, -1):
        count = most >> half
        size, hashed, took = measure(program, make, count)
        bound = longest(size, hashed)
        # twice the bytes, or as many times as it is more
        more = 0 if last is None else (took / last[1]) / (size / last[0]) * 2
        fine = took <= bound and (last is None or last[1] < LEAST or more <= 2.3)
        good = good and fine
        growth = "" if last is None else f", {more:.2f} times for twice the bytes"
        print(f"{label}, {count:,}: {size:,} bytes, {hashed:,} hashed: {1000 * took:.1f} ms of"
              f" {1000 * bound:,.0f}{growth}{'' if fine else ': NOT AS WANTED'}", flush=True)
        last = size, took
    return good


def main():
    program, wanted = os.path.realpath(sys.argv[1]), sys.argv[2:]
    rows = [it for it in ROWS.items() if not wanted or it[1][0].__name__ in wanted]
    told = [tell_row(program, label, make, most) for label, (make, most) in rows]
    sys.exit(0 if all(told) else 1)


main()
