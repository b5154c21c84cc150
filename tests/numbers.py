"""Pushes to `host` go on where their numbers end: numbers.py

A server makes place for another after 4,000,000,000 pushes, of which nobody makes a test. So the program is
compiled here from a copy of the crates in which it does so after 50, with checks and without proofs: some minutes.
Four clients push 400 changesets over kept connections. Each is answered as done, none is lost, and each is there once.
"""
import os
import re
import shutil
import socket
import subprocess
import sys
import tempfile
import threading
import time

HERE = os.path.dirname(os.path.abspath(__file__))
TOP = os.path.dirname(HERE)
sys.argv[1:] = ["hg_pushd"]
from bundles import CAPS, NULL, bundle, group, node_of
from host import Wrong, answer, request, want

RT = os.environ.get("RT", "rt")
PUSH = ("content-type: application/mercurial-0.1", "x-hgarg-1: heads=666f726365")
NUMBERS = "const NUMBERS: u64 = 4_000_000_000;"


def copied(folder):
    """A copy of what is compiled, with few numbers."""
    for name in ("HANDLES", "crates.txt"):
        shutil.copy(f"{TOP}/{name}", folder)
    shutil.copytree(f"{TOP}/crates", f"{folder}/crates", ignore=shutil.ignore_patterns("out"))
    path = f"{folder}/crates/hg_status/src/board.rt"
    with open(path, encoding="utf-8") as file:
        text = file.read()
    want("the number of pushes stands there once", text.count(NUMBERS), 1)
    with open(path, "w", encoding="utf-8") as file:
        file.write(text.replace(NUMBERS, "const NUMBERS: u64 = 50;"))


def free_port():
    with socket.socket() as it:
        it.bind(("127.0.0.1", 0))
        return it.getsockname()[1]


class Client(threading.Thread):
    """Pushes a hundred changesets over a connection that it keeps for as long as the server does."""

    def __init__(self, port, number):
        super().__init__()
        self.port, self.number, self.done, self.lines, self.wrong = port, number, [], 0, []

    def push_all(self, texts):
        """Pushes over one connection; what is left where the server ends it."""
        with socket.create_connection(("127.0.0.1", self.port), timeout=60) as line:
            told = line.makefile("rb")
            while texts:
                line.sendall(request("/?cmd=unbundle", bundle(CAPS, group((texts[0], NULL))), PUSH))
                reply = answer(told)[2]
                if b"reply:changegroup" not in reply:
                    self.wrong.append(reply)
                self.done.append(node_of(texts.pop(0)).hex())

    def run(self):
        texts = [b"of %d, the %d" % (self.number, count) for count in range(100)]
        while texts and self.lines < 1000:
            self.lines += 1
            try:
                self.push_all(texts)
            except (OSError, Wrong, IndexError):
                time.sleep(0.01)


def pushes_are_numbered_anew(port):
    clients = [Client(port, number) for number in range(4)]
    for it in clients:
        it.start()
    for it in clients:
        it.join()
    want("replies that do not say done", [it for client in clients for it in client.wrong], [])
    done = sorted(node for it in clients for node in it.done)
    want("how many were told as done", len(done), 400)
    with socket.create_connection(("127.0.0.1", port), timeout=60) as line:
        line.sendall(request("/report", None, ()))
        told = answer(line.makefile("rb"))[2].decode().splitlines()
    want("the changesets", sorted(it.split()[2] for it in told if it[0] == "C"), done)
    count = sum(it[0] == "J" for it in told)
    want("their places", [it for it in told if it[0] == "J"], [f"J {place}" for place in range(count)])
    lines = sum(it.lines for it in clients)
    want("connections were ended", lines > 4, True)
    print(f"    400 changesets in {count} pushes, over {lines} connections of 4 clients")


def main():
    with tempfile.TemporaryDirectory(prefix="numbers-") as folder:
        copied(folder)
        port = free_port()
        words = [RT, "try", "--seconds", "600", "--", "host", "--store", f"{folder}/store", "--listen",
                 f"127.0.0.1:{port}"]
        with open(f"{folder}/said", "wb") as said:
            program = subprocess.Popen(words, cwd=f"{folder}/crates/hg_pushd", stdin=subprocess.DEVNULL, stdout=said,
                                       stderr=said)
        try:
            for _ in range(900):
                try:
                    socket.create_connection(("127.0.0.1", port), timeout=1).close()
                    break
                except OSError:
                    time.sleep(1)
                if program.poll() is not None:
                    break
            pushes_are_numbered_anew(port)
            print("as wanted: pushes_are_numbered_anew")
            return 0
        except (Wrong, OSError) as why:
            print(f"FAILED: pushes_are_numbered_anew: {why}")
            with open(f"{folder}/said", encoding="utf-8", errors="replace") as said:
                print(re.sub(r"(?m)^", "    ", said.read()[-2000:]))
            return 1
        finally:
            program.terminate()
            program.wait()


if __name__ == "__main__":
    sys.exit(main())
