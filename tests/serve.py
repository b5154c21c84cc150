"""Clients over the loopback that push to the built program: serve.py PROGRAM [NAME..]

Each case starts `hg_pushd serve` on a free port of 127.0.0.1, pushes to it, and compares the replies, the
status, the report and what stands on standard error. It ends by itself: a socket waits 30 seconds at most,
and a server 60.
"""
from loopback import *


@case
def a_root_changeset_and_again(room):
    """Two connections, one after the other."""
    server = served(room, 2)
    want("first reply", server.push(ROOT_PUSH), ROOT_REPLY)
    want("second reply", server.push(ROOT_PUSH), ROOT_REPLY)
    server.ended(0, ROOT_REPORT + journal(0, 1))


@case
def bundles_behind_each_other(room):
    """Whole in one write, byte by byte, and cut anywhere."""
    rows = (
        (EMPTY + ROOT_PUSH + ROOT_PUSH, 3, EMPTY + ROOT_REPLY + ROOT_REPLY, ROOT_REPORT + journal(0, 1, 2)),
        (EMPTY + ROOT_PUSH + ROOT_PUSH, 2, EMPTY + ROOT_REPLY, ROOT_REPORT + journal(0, 1)),
        (EMPTY + ROOT_PUSH + ROOT_PUSH, 1, EMPTY, journal(0)),
        (NO_HEADS + FIRST_PUSH, 3, RACED + EMPTY, journal(1)),
        (EMPTY + b"HG20\0", 3, EMPTY + TRUNCATED, journal(0)),
        (WRONG_HASH + ROOT_PUSH, 3, WRONG_REPLY + ROOT_REPLY, ROOT_REPORT + journal(1)),
        (ROOT_PUSH[:3], 3, TRUNCATED, ""),
        (ROOT_PUSH[:11], 3, TRUNCATED, ""),
        (b"HG10", 3, FOREIGN, ""),
        (b"", 3, TRUNCATED, ""),
        (EMPTY + b"12345", 1, EMPTY, journal(0)),
    )
    for sent, most, replies, report in rows:
        cut = len(sent) // 2
        for pieces in ([sent], [sent[at : at + 1] for at in range(len(sent))], [sent[:cut], sent[cut:]]):
            server = served(room, 1, "--bundles", str(most))
            with server.connect() as client:
                client.setsockopt(socket.IPPROTO_TCP, socket.TCP_NODELAY, 1)
                for piece in pieces:
                    client.sendall(piece)
                client.shutdown(socket.SHUT_WR)
                want(f"replies to {len(sent)} bytes, {most} bundles", read_all(client), replies)
            server.ended(0, report)


@case
def an_answer_beside_half_a_bundle(room):
    """One connection has sent half of its bundle while another gets its reply."""
    server = served(room, 2)
    with server.connect() as first:
        first.sendall(FIRST_PUSH[:43])
        time.sleep(0.1)
        want("the other's reply", server.push(FIRST_PUSH), EMPTY)
        first.sendall(FIRST_PUSH[43:])
        want("the first one's reply", read_all(first), EMPTY)
    server.ended(0, None)
    # which of them was opened first is not said
    want("report", server.told() in (journal(1, 0), journal(0, 1)), True)


@case
def a_reply_comes_before_the_next_bundle(room):
    """The next bundle is sent only behind the reply."""
    server = served(room, 1, "--bundles", "50")
    with server.connect() as client:
        for _ in range(50):
            client.sendall(ROOT_PUSH)
            want("reply", read_exactly(client, 67), ROOT_REPLY)
        want("behind the last reply", read_all(client), b"")
    server.ended(0, ROOT_REPORT + journal(*range(50)))


@case
def still_sending_when_refused(room):
    """A client has 8 MiB on the way when the fault of its bytes is answered, and gets its whole reply."""
    server = served(room, 100)
    waste = b"HG10" + bytes(8 * 1024 * 1024)

    def push(place):
        for _ in range(25):
            with server.connect() as client:
                client.sendall(waste)
                want("reply", read_all(client), FOREIGN)

    together(4, push)
    server.ended(0, "")


@case
def sending_behind_the_last_bundle(room):
    """What comes behind the last bundle that a connection may send does not take its reply away."""
    server = served(room, 1)
    with server.connect() as client:
        client.sendall(ROOT_PUSH + bytes(600_000))
        want("reply", read_all(client), ROOT_REPLY)
    server.ended(0, ROOT_REPORT + journal(0))


@case
def sending_on_without_an_end(room):
    """Who goes on sending behind the last reply is let go of after five seconds: a thread is free of it."""
    server = served(room, 1)
    with server.connect() as client:
        client.sendall(ROOT_PUSH)
        want("reply", read_all(client), ROOT_REPLY)
        start = time.monotonic()
        try:
            while time.monotonic() - start < 20:
                client.sendall(b"x")
                time.sleep(0.02)
        except OSError:
            pass
        spent = time.monotonic() - start
    if not 4 < spent < 10:
        raise Wrong(f"let go of after {spent:.1f} s")
    server.ended(0, ROOT_REPORT + journal(0))


@case
def many_connections_at_once(room):
    """64 connections push at once, each its own changeset on one that the seed brought."""
    with open(os.path.join(room, "seed"), "wb") as file:
        file.write(ROOT_PUSH)
    server = served(room, 64, "--seed", "seed", "--bundles", "10")
    returns = []

    def push(place):
        with server.connect() as client:
            tip = ROOT
            for round in range(10):
                text = b"%d and %d" % (place, round)
                client.sendall(bundle(CAPS, group((text, tip))))
                got = read_exactly(client, 67)
                # the first changeset of a connection is a new head, unless none stood on the seed before it
                want("reply", got in (changesets(1, 1), changesets(1, 2)), True)
                if got == changesets(1, 2):
                    returns.append(place)
                tip = node_of(text, tip)
            want("behind the last reply", read_all(client), b"")

    together(64, push)
    want("new heads", len(set(returns)), 63)
    server.ended(0, None)
    lines = server.told().splitlines()
    nodes = [line.split()[2] for line in lines if line[0] == "C"]
    wanted = {ROOT.hex()}
    for place in range(64):
        tip = ROOT
        for round in range(10):
            tip = node_of(b"%d and %d" % (place, round), tip)
            wanted.add(tip.hex())
    want("changesets", (set(nodes), len(nodes)), (wanted, 641))
    want("first", lines[0], ROOT_REPORT.strip())
    pushes = [int(line[2:]) for line in lines if line[0] == "J"]
    want("pushes", sorted(pushes), list(range(640)))


@case
def a_connection_that_leaves(room):
    """At capacity 1, one ends in the middle of its bundle while another pushes."""
    server = served(room, 3, "--capacity", "1")
    leaves = server.connect()
    leaves.sendall(ROOT_PUSH[:100])
    want("the other's reply", server.push(ROOT_PUSH), ROOT_REPLY)
    leaves.close()
    want("one more reply", server.push(ROOT_PUSH), ROOT_REPLY)
    server.ended(0, None)
    want("report", server.told() in [ROOT_REPORT + journal(*done) for done in ((0, 1), (0, 2), (1, 2))], True)


@case
def a_connection_that_is_reset(room):
    """A reset in the middle of a bundle is a failed read. It changes no status."""
    server = served(room, 2)
    with server.connect() as client:
        client.sendall(ROOT_PUSH[:100])
        time.sleep(0.1)
        client.setsockopt(socket.SOL_SOCKET, socket.SO_LINGER, b"\1\0\0\0\0\0\0\0")
    want("the other's reply", server.push(ROOT_PUSH), ROOT_REPLY)
    server.ended(0, None)


@case
def slow_clients_hold_nobody(room):
    """One sends a byte now and then, one reads no reply, and others push meanwhile."""
    server = served(room, 43, "--bundles", "100")
    drips, deaf = server.connect(), server.connect()
    key = (b"pushkey", ((b"namespace", b"none"), (b"key", b""), (b"old", b""), (b"new", b"")), b"")
    long = bundle(CAPS, *[key] * 5_000)
    waits = threading.Event()

    def send_without_reading():
        # its replies, some 250,000 bytes each, fill what the system keeps for it, and then its thread waits
        deaf.settimeout(2)
        try:
            for _ in range(100):
                deaf.sendall(long)
        except TimeoutError:
            waits.set()

    def drip():
        for at in range(20):
            drips.sendall(ROOT_PUSH[at : at + 1])
            time.sleep(0.02)

    helpers = [threading.Thread(target=act, daemon=True) for act in (send_without_reading, drip)]
    for helper in helpers:
        helper.start()
    start = time.monotonic()
    for _ in range(40):
        want("reply", server.push(ROOT_PUSH), ROOT_REPLY)
    if time.monotonic() - start > 20:
        raise Wrong("the others were held")
    for helper in helpers:
        helper.join(30)
    want("the deaf one's thread waits", waits.is_set(), True)
    want("reply", server.push(ROOT_PUSH), ROOT_REPLY)
    drips.close()
    deaf.close()
    server.ended(0, None)


@case
def a_publishing_server(room):
    server = served(room, 1, "--publishing")
    want("reply", server.push(ROOT_PUSH), ROOT_REPLY)
    server.ended(0, changeset(0, ROOT, 0) + journal(0))


@case
def racing_pushes(room):
    """8 clients with 100 racing pushes each. Half of them were prepared for heads that may have moved on."""
    server = served(room, 8, "--bundles", "100", "--capacity", "8")
    lock, tips, done = threading.Lock(), [(NULL, 0)], []

    def push(place):
        chance = random.Random(place)
        with server.connect() as client:
            for round in range(100):
                with lock:
                    parent = tips[-1][0] if round % 2 else chance.choice(tips)[0]
                text = b"%d and %d" % (place, round)
                parts = (CAPS, heads(parent)) if round % 2 else (CAPS,)
                sent = bundle(*parts, group((text, parent)))
                client.sendall(sent)
                got = read_exactly(client, 12)
                got += read_exactly(client, int.from_bytes(got[8:12], "big") + 8)
                if got == RACED:
                    continue
                with lock:
                    tips.append((node_of(text, parent), 0))
                    done.append((node_of(text, parent), parent, len(parts), sent, got))
            want("behind the last reply", read_all(client), b"")

    together(8, push)
    server.ended(0, None)
    report = server.told()
    pushes = [line for line in report.splitlines() if line[0] == "J"]
    want("done pushes", len(pushes), len(done))
    numbers = {int(line[2:]) for line in pushes}
    want("their numbers", (len(numbers), numbers <= set(range(800))), (len(done), True))
    # one by one they give the same repository, and each reply is the one that this order gives
    by_node = {node.hex(): (parent, place, sent, got) for node, parent, place, sent, got in done}
    order = serial_run(room, report, {node: sent for node, (_, _, sent, _) in by_node.items()})
    now = {NULL}
    for node in order:
        parent, place, _, got = by_node[node]
        before = len(now)
        now = (now - {parent}) | {bytes.fromhex(node)}
        more = len(now) - before
        want(f"reply to the push of {node}", got, changesets(place, more + 1 if more >= 0 else more - 1))


@case
def seeds(room):
    path = os.path.join(room, "seed")
    secret = (b"CHANGEGROUP", ((b"version", b"02"), (b"targetphase", b"2")), group((b"", NULL))[2])
    for sent, status, line, report in (
        (ROOT_PUSH, 0, "", ROOT_REPORT + journal(0)),
        (bundle(secret), 0, "", changeset(0, ROOT, 2) + journal(0)),
        (WRONG_HASH, 1, "hg_pushd: push aborted", ""),
        (ROOT_PUSH[:-1], 1, "hg_pushd: push aborted", ""),
        (b"HG10", 1, "hg_pushd: push aborted", ""),
        (b"", 1, "hg_pushd: push aborted", ""),
        (ROOT_PUSH + b"more", 0, "", ROOT_REPORT + journal(0)),
    ):
        with open(path, "wb") as file:
            file.write(sent)
        if status == 0:
            server = served(room, 1, "--seed", "seed")
            want("reply", server.push(EMPTY), EMPTY)
            server.ended(0, report)
        else:
            here = ("--listen", "127.0.0.1:0", "--connections", "1")
            refused(room, status, line, *here, "--seed", "seed", "--report", "report")
            # the report of the server before is still there
            with open(os.path.join(room, "report")) as file:
                want("report", file.read(), changeset(0, ROOT, 2) + journal(0))


DEVICE = "hg_pushd: device fault"
HERE = ("--listen", "127.0.0.1:0")
ONE = ("--connections", "1")
REPORT = ("--report", "report")
MORE = "\n\nFor more information, try '--help'."


def without_report(room, status, line, *words):
    """The program ends at once, and has made no report file."""
    refused(room, status, line, *words)
    want("a report file", os.path.exists(os.path.join(room, "report")), False)


@case
def numbers_out_of_range(room):
    """Each option that takes a number, below its range, behind it, and without one. Its ends are in it."""
    most = {"--connections": 1_024, "--capacity": 65_536, "--bundles": 10_000}
    for option, last in most.items():
        others = HERE + REPORT + (() if option == "--connections" else ONE)
        for word, told in (
            ("0", f"0 is not in 1..={last}"),
            ("-1", f"-1 is not in 1..={last}"),
            (str(last + 1), f"{last + 1} is not in 1..={last}"),
            ("4294967297", f"4294967297 is not in 1..={last}"),
            ("99999999999999999999", "number too large to fit in target type"),
            ("1.5", "invalid digit found in string"),
            ("", "cannot parse integer from empty string"),
        ):
            told = f"error: invalid value '{word}' for '{option} <N>': {told}{MORE}"
            without_report(room, 2, told, *others, f"{option}={word}")
        for word in ("1", str(last)):
            without_report(room, 3, DEVICE, *others, option, word, "--seed", "none")


@case
def words_that_are_wrong(room):
    for words, told in (
        ((), "the following required arguments were not provided:"),
        (HERE + ONE, "the following required arguments were not provided:"),
        (HERE + REPORT, "the following required arguments were not provided:"),
        (ONE + REPORT, "the following required arguments were not provided:"),
        (HERE + ONE + REPORT + ("more",), "unexpected argument 'more' found"),
        (HERE + ONE + REPORT + ("--port", "1"), "unexpected argument '--port' found"),
        (HERE + ONE + REPORT + ONE, "the argument '--connections <N>' cannot be used multiple times"),
        (HERE + ("--connections",), "a value is required for '--connections <N>' but none was supplied"),
    ):
        got = subprocess.run([PROGRAM, "serve", *words], capture_output=True, timeout=30, cwd=room)
        want(f"status of {words}", got.returncode, 2)
        want(f"standard error of {words}", got.stderr.decode().splitlines()[0], "error: " + told)
    told = subprocess.run([PROGRAM, "serve", "--help"], capture_output=True, timeout=30)
    want("help", told.returncode, 0)
    want("how long is lingered", b"67108864 bytes" in told.stdout and b"5 seconds" in told.stdout, True)


@case
def files_and_addresses(room):
    """A seed or a report that is missing, a folder, or unreadable; an address that is taken, or is none."""
    without_report(room, 3, DEVICE, *HERE, *ONE, *REPORT, "--seed", "none")
    for address in ("nonsense", "127.0.0.1", "127.0.0.1:65536", "192.0.2.1:0", ""):
        without_report(room, 3, DEVICE, "--listen", address, *ONE, *REPORT)
    with socket.socket() as taken:
        taken.bind(("127.0.0.1", 0))
        taken.listen()
        port = taken.getsockname()[1]
        without_report(room, 3, DEVICE, "--listen", f"127.0.0.1:{port}", *ONE, *REPORT)
    for report in ("none/report", ".", "none/", "", "/dev/null/report"):
        without_report(room, 3, DEVICE, *HERE, *ONE, "--report", report)
    # these open, and cannot be read
    for seed in (".", "/proc/self/mem"):
        without_report(room, 3, DEVICE, *HERE, *ONE, *REPORT, "--seed", seed)
    with open("/dev/full", "w") as full:
        words = [PROGRAM, "serve", *HERE, *ONE, *REPORT]
        got = subprocess.run(words, stdout=full, stderr=subprocess.PIPE, timeout=30, cwd=room)
        want("an address that is not told", (got.returncode, got.stderr.decode()), (3, DEVICE + "\n"))


@case
def a_full_report(room):
    """The report is not written: the status tells it, and the replies were sent."""
    with open(os.path.join(room, "report"), "w") as file:
        file.write("of yesterday")
    os.symlink("/dev/full", os.path.join(room, "report.part"))
    server = served(room, 1)
    want("reply", server.push(ROOT_PUSH), ROOT_REPLY)
    server.ended(3, "of yesterday", DEVICE)


@case
def a_report_comes_when_it_is_whole(room):
    """What its file holds stays there until the new report is whole."""
    with open(os.path.join(room, "report"), "w") as file:
        file.write("of yesterday")
    server = served(room, 1)
    want("report of a server that runs", server.told(), "of yesterday")
    want("reply", server.push(ROOT_PUSH), ROOT_REPLY)
    server.ended(0, ROOT_REPORT + journal(0))
    want("files", os.listdir(room), ["report"])


@case
def who_comes_late_is_refused(room):
    """The last connection that is served is still open when a further one is refused."""
    server = served(room, 1)
    with server.connect() as client:
        client.sendall(ROOT_PUSH[:100])
        time.sleep(0.2)
        try:
            server.connect().close()
            raise Wrong("one more connection is accepted")
        except ConnectionRefusedError:
            pass
        client.sendall(ROOT_PUSH[100:])
        want("reply", read_all(client), ROOT_REPLY)
    server.ended(0, ROOT_REPORT + journal(0))


@case
def closed_descriptors(room):
    """No file of the program's takes the place of a standard descriptor that is closed."""
    with socket.socket() as free:
        free.bind(("127.0.0.1", 0))
        port = free.getsockname()[1]
    path = os.path.join(room, "report")
    for closed, listen, status in (((1,), 0, 3), ((0, 1, 2), 0, 3), ((0, 1, 2), port, 0), ((2,), port, 0)):
        words = [PROGRAM, "serve", "--listen", f"127.0.0.1:{listen}", *ONE, "--report", path]
        process = subprocess.Popen(words, preexec_fn=lambda: [os.close(place) for place in closed])
        if status == 0:
            want("reply", pushed_late(port), ROOT_REPLY)
        want(f"status with {closed} closed", process.wait(30), status)
        with open(path) as file:
            want(f"report with {closed} closed", file.read(), ROOT_REPORT + journal(0) if status == 0 else "")
        os.remove(path)


def pushed_late(port):
    """The reply to a push on that port, where a server is about to listen."""
    for _ in range(200):
        try:
            with socket.create_connection(("127.0.0.1", port), WAIT) as client:
                client.sendall(ROOT_PUSH)
                client.shutdown(socket.SHUT_WR)
                return read_all(client)
        except ConnectionRefusedError:
            time.sleep(0.05)
    raise Wrong("nobody listens")


@case
def a_thousand_connections_at_once(room):
    """1,024 connections are open, and half of its bundle was sent on each. Each push is done."""
    most = resource.getrlimit(resource.RLIMIT_NOFILE)[1]
    resource.setrlimit(resource.RLIMIT_NOFILE, (min(most, 4_096), most))
    server = served(room, 1_024)
    sent = [bundle(CAPS, group((b"%d" % place, NULL))) for place in range(1_024)]
    clients = [server.connect() for _ in sent]
    for client, bytes_of in zip(clients, sent):
        client.sendall(bytes_of[:100])
    for client, bytes_of in zip(reversed(clients), reversed(sent)):
        client.sendall(bytes_of[100:])
    replies = [read_all(client) for client in clients]
    for client in clients:
        client.close()
    # the first changeset is one head where there was none
    want("replies", sorted(replies), sorted([changesets(1, 1)] + [changesets(1, 2)] * 1_023))
    server.ended(0, None)
    lines = server.told().splitlines()
    nodes = {line.split()[2] for line in lines if line[0] == "C"}
    want("changesets", nodes, {node_of(b"%d" % place).hex() for place in range(1_024)})
    want("pushes", sorted(int(line[2:]) for line in lines if line[0] == "J"), list(range(1_024)))


@case
def too_few_descriptors(room):
    """An accept fails: no more are accepted, those that run are finished, and the report is written."""
    few = lambda: resource.setrlimit(resource.RLIMIT_NOFILE, (6, 6))
    server = served(room, 9, limit=few)
    first = server.connect()
    first.sendall(ROOT_PUSH[:100])
    time.sleep(0.1)
    # there is no descriptor for another connection: the accept failed, and the listener was closed
    try:
        server.connect().close()
        raise Wrong("one more connection is accepted")
    except ConnectionRefusedError:
        pass
    first.sendall(ROOT_PUSH[100:])
    want("reply", read_all(first), ROOT_REPLY)
    first.close()
    server.ended(3, None, "hg_pushd: device fault")
    want("report", server.told(), ROOT_REPORT + journal(0))


@case
def a_thread_that_does_not_start(room):
    """There is no room for one more stack: no more are accepted, and those that run are finished."""
    os.environ["GLIBC_TUNABLES"] = "glibc.malloc.arena_max=1"
    server = served(room, 200)
    del os.environ["GLIBC_TUNABLES"]
    pid = server.process.pid
    with open(f"/proc/{pid}/statm") as file:
        room_left = int(file.read().split()[0]) * resource.getpagesize() + (20 << 20)
    resource.prlimit(pid, resource.RLIMIT_AS, (room_left, room_left))
    clients = []
    try:
        for _ in range(100):
            clients.append(server.connect())
            clients[-1].sendall(ROOT_PUSH[:100])
    except OSError:
        # the listener is closed behind a thread that did not start
        pass
    time.sleep(0.5)
    answered = 0
    for client in clients:
        try:
            client.sendall(ROOT_PUSH[100:])
            answered += read_all(client) == ROOT_REPLY
        except OSError:
            pass
        client.close()
    if not 0 < answered < len(clients) or len(clients) == 100 and answered == 100:
        raise Wrong(f"{answered} connections were served")
    server.ended(3, None, "hg_pushd: device fault")
    lines = server.told().splitlines()
    want("report", (lines[0] + "\n", len(lines)), (ROOT_REPORT, answered + 1))


@case
def memory_is_refused_for_a_bundle(room):
    """There is no room for its payload: its reply says so, and no status of the server does."""
    server = served(room, 1)
    pid = server.process.pid
    large = bundle(CAPS, (b"output", (), bytes(60 << 20)))
    with server.connect() as client:
        client.sendall(large[:20])
        time.sleep(0.2)
        with open(f"/proc/{pid}/statm") as file:
            room_left = int(file.read().split()[0]) * resource.getpagesize() + (8 << 20)
        resource.prlimit(pid, resource.RLIMIT_AS, (room_left, room_left))
        client.sendall(large[20:])
        want("reply", read_all(client), aborted(b"stream fault 11"))
    server.ended(0, "")


play("The server: all clients were answered as wanted.")
