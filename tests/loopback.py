"""Clients over the loopback for the built program, and the cases that they play."""
import os, random, resource, socket, subprocess, sys, tempfile, threading, time

from bundles import *

PROGRAM = os.path.abspath(sys.argv[1])
WAIT = 30


class Wrong(Exception):
    pass


def want(what, got, wanted):
    if got != wanted:
        raise Wrong(f"{what}: {str(got)[:300]}, not {str(wanted)[:300]}")


class Server:
    """The program, serving so many connections on a free port. `ended` asks how it ended."""

    def __init__(self, room, connections, *words, limit=None):
        self.report = os.path.join(room, "report")
        command = [PROGRAM, "serve", "--listen", "127.0.0.1:0", "--connections", str(connections)]
        command += ["--report", self.report]
        self.process = subprocess.Popen(
            command + list(words), stdout=subprocess.PIPE, stderr=subprocess.PIPE, preexec_fn=limit, cwd=room
        )
        line = self.process.stdout.readline().decode()
        if not line.startswith("listening on 127.0.0.1:"):
            self.process.kill()
            raise Wrong(f"the address is not told: {line!r} {self.process.stderr.read()!r}")
        self.port = int(line.rsplit(":", 1)[1])

    def connect(self):
        return socket.create_connection(("127.0.0.1", self.port), WAIT)

    def push(self, *pieces):
        """All that the server writes to a connection that sends these and then no more."""
        with self.connect() as client:
            for piece in pieces:
                client.sendall(piece)
            client.shutdown(socket.SHUT_WR)
            return read_all(client)

    def ended(self, status, report, line=""):
        try:
            out, err = self.process.communicate(timeout=60)
        except subprocess.TimeoutExpired:
            self.process.kill()
            raise Wrong("the server does not end")
        want("status", self.process.returncode, status)
        want("standard output", out, b"")
        want("standard error", err.decode(), line and line + "\n")
        if report is not None:
            want("report", self.told(), report)

    def told(self):
        with open(self.report) as file:
            return file.read()

    def stop(self):
        if self.process.poll() is None:
            self.process.kill()
            self.process.wait()


def read_all(client):
    taken = b""
    while True:
        piece = client.recv(65536)
        if not piece:
            return taken
        taken += piece


def read_exactly(client, count):
    taken = b""
    while len(taken) < count:
        piece = client.recv(count - len(taken))
        if not piece:
            raise Wrong(f"the connection ended behind {taken!r}")
        taken += piece
    return taken


def together(count, act):
    """Runs so many threads, and tells the first thing that went wrong in one."""
    wrong = []

    def run(place):
        try:
            act(place)
        except Exception as error:
            wrong.append(error)

    threads = [threading.Thread(target=run, args=(place,), daemon=True) for place in range(count)]
    for thread in threads:
        thread.start()
    for thread in threads:
        thread.join(90)
        if thread.is_alive():
            raise Wrong("a client does not end")
    if wrong:
        raise wrong[0]


def changeset(rev, node, phase=1):
    return f"C {rev} {node.hex()} {phase} 0\n"


ROOT_REPORT = changeset(0, ROOT)


def journal(*pushes):
    return "".join(f"J {push}\n" for push in pushes)


CASES = []


def case(body):
    CASES.append(body)
    return body


def served(room, connections, *words, **more):
    server = Server(room, connections, *words, **more)
    room.servers.append(server)
    return server


class Room(str):
    servers = None


def serial_run(room, report, pushes):
    """Replays done pushes in the order of the report: each by the id of its last changeset. The same
    repository comes of it."""
    order = [line.split()[2] for line in report.splitlines() if line[0] == "C"]
    files = []
    for node in order:
        if node in pushes:
            files.append(os.path.join(room, f"{len(files):04}"))
            with open(files[-1], "wb") as file:
                file.write(pushes[node])
    want("done pushes in the report", len(files), len(pushes))
    again = subprocess.run([PROGRAM, "replay"] + files, capture_output=True, timeout=60)
    wanted = "".join(line for line in report.splitlines(True) if line[0] != "J")
    want("the serial run", (again.returncode, again.stdout.decode()), (0, wanted))
    return order


def refused(room, status, line, *words, limit=None):
    """The program ends at once."""
    got = subprocess.run(
        [PROGRAM, "serve", *words], capture_output=True, timeout=30, cwd=room, preexec_fn=limit
    )
    want(f"status of {words}", got.returncode, status)
    if line:
        want(f"standard error of {words}", got.stderr.decode(), line + "\n")


def play(what):
    """Plays the cases, or those of them that the command line names."""
    names = sys.argv[2:]
    failed = 0
    for body in CASES:
        if names and body.__name__ not in names:
            continue
        start = time.monotonic()
        with tempfile.TemporaryDirectory() as folder:
            room = Room(folder)
            room.servers = []
            try:
                body(room)
            except Exception as error:
                print(f"{body.__name__}: {type(error).__name__}: {error}")
                failed = 1
            finally:
                for server in room.servers:
                    server.stop()
        if names:
            print(f"{body.__name__}: {time.monotonic() - start:.1f} s")
    if not failed:
        print(what)
    sys.exit(failed)

