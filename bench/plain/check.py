#!/usr/bin/env python3
"""Whether the plain program answers as the program does: check.py PROGRAM PLAIN [--seconds S] [--seed N] [--pushes FOLDER]

Both take the same bundles, and have to write the same bytes and end with the same status: through `one` and `replay` the
pushes of the examples, those of `tests/bundles.py`, and for S seconds (30) random bundles of `bench/fuzz`; through
`serve` each row of the examples, on one connection, with replies and report. Given the folder that `bench/push/make.py`
made, its pushes too.
"""
import argparse
import glob
import os
import random
import socket
import subprocess
import sys
import tempfile
import time

HERE = os.path.dirname(os.path.abspath(__file__))
TOP = os.path.normpath(os.path.join(HERE, "..", ".."))
sys.path[:0] = [os.path.join(TOP, "tests"), os.path.join(TOP, "bench", "fuzz")]
import bundles
import fuzz


class Pair:
    def __init__(self, programs):
        self.programs, self.tried, self.others = programs, 0, 0

    def compare(self, name, run):
        """Whether a run by both gives the same."""
        first, second = (run(program) for program in self.programs)
        self.tried += 1
        if first != second:
            self.others += 1
            print(f"{name}: {str(first)[:300]}\n  the plain one: {str(second)[:300]}", flush=True)

    def whole(self, name, words, data=b"", cwd=None):
        def run(program):
            ended = subprocess.run([program, *words], input=data, capture_output=True, cwd=cwd, check=False)
            return ended.returncode, ended.stdout
        self.compare(name, run)


def contents(path):
    with open(path, "rb") as file:
        return file.read()


def examples(pair):
    for row in sorted(glob.glob(f"{TOP}/examples/pushes/*/")):
        options = ["--publishing"] if os.path.exists(f"{row}/publishing") else []
        files = sorted(glob.glob(f"{row}/*.hg20"))
        for file in files:
            pair.whole(file, ["one", *options], contents(file))
        pair.whole(row, ["replay", *options, *files])
        pair.compare(f"serve {row}", lambda program: served(program, options, b"".join(map(contents, files)), len(files)))


def served(program, options, data, count):
    """The replies to so many bundles on one connection, and the report."""
    with tempfile.TemporaryDirectory() as work:
        words = ["serve", "--listen", "127.0.0.1:0", "--connections", "1", "--bundles", str(count), "--report"]
        server = subprocess.Popen([program, *words, f"{work}/report", *options], stdout=subprocess.PIPE)
        port = int(server.stdout.readline().rpartition(b":")[2])
        with socket.create_connection(("127.0.0.1", port)) as client:
            client.sendall(data)
            client.shutdown(socket.SHUT_WR)
            replies = b"".join(iter(lambda: client.recv(65536), b""))
        server.stdout.close()
        return server.wait(20), replies, contents(f"{work}/report")


def made_by_hand(pair):
    rows = {name: it for name, it in vars(bundles).items() if isinstance(it, bytes) and it[:4] == b"HG20"}
    rows["empty"], rows["foreign"] = b"", b"HG10"
    for name, data in rows.items():
        pair.whole(name, ["one"], data)
        pair.whole(f"{name}, published", ["one", "--publishing"], data)
        pair.whole(f"{name}, cut short", ["one"], data[:-1])
    together = b"".join(rows[name] for name in ("FIRST_PUSH", "NO_HEADS", "ROOT_PUSH", "ROOT_PUSH", "WRONG_HASH", "foreign"))
    pair.compare("serve", lambda program: served(program, [], together, 10))


def pushes(pair, folder):
    pair.whole("line.hg20", ["one"], contents(f"{folder}/line.hg20"))
    pair.whole("line.hg20", ["replay", "line.hg20"], cwd=folder)
    for kind, count in (("single", 2000), ("heads", 1000), ("drafts", 100), ("blocks", 20)):
        names = sorted(os.listdir(f"{folder}/{kind}"))[:count]
        pair.whole(kind, ["replay", *names], cwd=f"{folder}/{kind}")


def random_bundles(pair, seconds, seed):
    rows, start, case = fuzz.examples(), time.monotonic(), 0
    while time.monotonic() - start < seconds:
        data, words, _ = fuzz.made(seed, case, rows)
        pair.whole(f"seed {seed}, case {case}", words, data)
        case += 1
    return case


def main():
    asked = argparse.ArgumentParser()
    asked.add_argument("programs", nargs=2, type=os.path.abspath)
    asked.add_argument("--seconds", type=float, default=30)
    asked.add_argument("--seed", type=int, default=random.randrange(1 << 32))
    asked.add_argument("--pushes")
    asked = asked.parse_args()
    pair = Pair(asked.programs)
    examples(pair)
    made_by_hand(pair)
    if asked.pushes:
        pushes(pair, asked.pushes)
    count = random_bundles(pair, asked.seconds, asked.seed)
    print(f"{pair.tried} runs, {count} of them random with the seed {asked.seed}: {pair.others} differ.")
    sys.exit(pair.others != 0)


if __name__ == "__main__":
    main()
