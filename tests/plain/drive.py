"""Random pushes to the program, and the plain one beside it: drive.py PROGRAM [STATES] [SEED]

A state is a repository behind a push over HTTP: all texts of it are asked for and compared, one request each. Each
repository is served again from its store, its pushes are replayed, its first push is given to `one`, and others follow
a seed in `serve`. It tells a small case of each kind of difference, and how often each rule was driven; a rule that was
never driven is a failure, and so is a module of specs/ that stands in no table (reached.py).
"""
import collections
import os
import signal
import subprocess
import sys
import tempfile
import time

HERE = os.path.dirname(os.path.abspath(__file__))
sys.path[:0] = [HERE, os.path.dirname(HERE)]
import reached
from cases import CASES
from choices import Maker
from container import read_bundle
from loopback import PROGRAM, Server
from parts import push, run
from pushes import Push, written
from questions import Asker
from repository import Repository
from rules import DRIVEN, named, seen
from serving import Plain, Program
from texts import report

# how many states a repository has, and for how many seconds a case is made smaller
PUSHES, SECONDS = 40, 40
ANSWER, LATER = "the answer to a push", ", at the next start"
Case = collections.namedtuple("Case", "what seed publishing events question got wanted")


# ---- one repository: what differs is told as a name, a question, and both answers

def event_of(maker, repo):
    """What comes next: a push, mostly."""
    made = maker.push(repo)
    kind = maker.random.choices(("push", "key", "not forced"), (60, 6, 1))[0]
    if kind != "key":
        return kind, made
    words, at = list(maker.key_call()), maker.random.randrange(4)
    if maker.one_in(8):
        words[at] = words[at][:250].ljust(maker.choose((256, 400)), b"m")
    return kind, words


def difference(questions, both):
    """What differs between the two answers for a state."""
    (got, texts, pages), (meant, meant_texts, meant_pages) = both
    if got != meant:
        yield ANSWER, None, got, meant
    for question, told, wanted in zip(questions, texts, meant_texts):
        if told != wanted:
            yield question[0].decode(), question, told, wanted
    for name, wanted in meant_pages.items():
        if pages[name] != wanted:
            yield name, None, pages[name], wanted


def at_the_next_start(plain, program, questions):
    """Of the store that the server leaves, by `report` and by another server."""
    program.stop()
    got, wanted = ended("report", ["report", "--store", program.host.store]), (0, plain.pages()["the report"])
    differing = [("the command report", None, got, wanted)] if got != wanted else []
    program.start()
    plain.ended.clear()
    both = *program.states([(None, questions)]), plain.state(None, questions)
    return [(what + LATER, *rest) for what, *rest in (*differing, *difference(questions, both))]


def cut_off(plain, program, data):
    """Of a push whose body ends early, and of what is there behind it."""
    got, wanted = program.cut_off(data), plain.cut_off(data)
    if got != wanted:
        yield "the answer to a body that ends early", None, got, wanted
    yield from difference([], (*program.states([(None, [])]), plain.state(None, [])))


def ended(command, words, data=b""):
    """The status of a command, and what it writes."""
    seen(f"command: {command}")
    done = subprocess.run([PROGRAM, *words], input=data, stdout=subprocess.PIPE, stderr=subprocess.DEVNULL, timeout=60,
                          check=False)
    return done.returncode, done.stdout


def replayed(publishing, pushed, repo):
    """Of pushes that led to a repository, by `replay`, and of the first, by `one`."""
    words = ["--publishing"] * publishing
    with tempfile.TemporaryDirectory(prefix="plain-") as folder:
        names = [f"{folder}/{place:03}" for place in range(len(pushed))]
        for name, (data, _) in zip(names, pushed):
            with open(name, "wb") as file:
                file.write(data)
        got = ended("replay", ["replay", *words, *names]) if names else (0, b"")
        wanted = int(any(reason for _, reason in pushed)), report(repo, ())
        if got != wanted:
            yield "replay", None, got, wanted
    for data, _ in pushed[:1]:
        _, reason, told = push(Repository(publishing), data)
        got, wanted = ended("one", ["one", *words], data), (int(reason is not None), told)
        if got != wanted:
            yield "one", None, got, wanted


def seeded(maker, publishing):
    """A seed with changesets of all phases, and pushes to what it gives."""
    seed = maker.seed(Repository(publishing))
    repo, _ = run(Repository(publishing), read_bundle(written(seed))[0], is_seed=True)
    events = [("seed", seed)]
    for _ in range(maker.random.randrange(1, 9)):
        events.append(("push", Push(maker.push(repo).parts, {})))
        repo, _, _ = push(repo, written(events[-1][1]))
    return events


def served(publishing, events):
    """Of a seed and pushes, by `serve`: the replies and the report."""
    seed, *pushes = (written(it) for _, it in events)
    repo, _ = run(Repository(publishing), read_bundle(seed)[0], is_seed=True)
    journal, got, wanted = [], [], []
    seen("command: serve, behind a seed")
    with tempfile.TemporaryDirectory(prefix="plain-") as folder:
        with open(f"{folder}/seed", "wb") as file:
            file.write(seed)
        server = Server(folder, len(pushes), "--seed", f"{folder}/seed", *["--publishing"] * publishing)
        try:
            for place, data in enumerate(pushes):
                repo, reason, told = push(repo, data)
                wanted.append(told)
                got.append(server.push(data))
                journal += [place] * (reason is None)
            server.ended(0, None)
            got.append(server.told().encode())
        finally:
            server.stop()
    wanted.append(report(repo, journal))
    if got != wanted:
        yield "serve", None, got, wanted


def play(seed, states, found):
    """So many states of one repository; how many of them have no difference."""
    maker, asker, publishing = Maker(seed), Asker(seed), seed % 3 == 0
    plain, events, asked_for, wanted, good = Plain(publishing), [], [], [], 0

    def note(differing, behind):
        """The shortest case of each kind is kept."""
        for what, question, got, meant in differing:
            if what not in found or len(behind) < len(found[what].events):
                found[what] = Case(what, seed, publishing, list(behind), question, got, meant)
        return bool(differing)
    for _ in range(states):
        events.append(event_of(maker, plain.repo))
        asked_for.append((events[-1], asker.questions(plain.repo)))
        wanted.append(plain.state(*asked_for[-1]))
    with Program(publishing) as program:
        for place, both in enumerate(zip(program.states(asked_for), wanted)):
            good += not note([*difference(asked_for[place][1], both)], events[:place + 1])
        is_wrong = note([*cut_off(plain, program, written(maker.push(plain.repo)))], events)
        is_wrong |= note(at_the_next_start(plain, program, asker.questions(plain.repo)), events)
    is_wrong |= note([*replayed(publishing, plain.pushed, plain.repo)], events)
    if seed % 4 == 0:
        behind_a_seed = seeded(maker, publishing)
        is_wrong |= note([*served(publishing, behind_a_seed)], behind_a_seed)
    return max(good - is_wrong, 0)


# ---- what is told of a difference

def differing_with(case, events):
    """What differs where these are the events."""
    if case.what == "serve":
        return [*served(case.publishing, events)] if events[0][0] == "seed" and len(events) > 1 else []
    plain, questions = Plain(case.publishing), [case.question] if case.question else []
    wanted = [plain.state(it, questions) for it in events]
    if case.what in ("replay", "one"):
        return [*replayed(case.publishing, plain.pushed, plain.repo)]
    with Program(case.publishing) as program:
        *_, got = program.states([(it, questions) for it in events])
        return at_the_next_start(plain, program, questions) if case.what.endswith(LATER) else [
            *difference(questions, (got, wanted[-1]))]


def less(events):
    """Each way to leave out one thing, large things first."""
    def with_push(place, kind, made):
        return [*events[:place], (kind, made), *events[place + 1:]]
    half = len(events) // 2
    yield from (events[half:], events[:half])
    for place in range(len(events)):
        yield events[:place] + events[place + 1:]
    for place, (kind, value) in enumerate(events):
        parts, edits = value if kind != "key" else ([], {})
        if edits:
            yield with_push(place, kind, Push(parts, {}))
        for at, part in enumerate(parts):
            yield with_push(place, kind, Push(parts[:at] + parts[at + 1:], edits))
            for item in range(len(part.items)):
                fewer = part._replace(items=part.items[:item] + part.items[item + 1:])
                yield with_push(place, kind, Push([*parts[:at], fewer, *parts[at + 1:]], edits))


def smaller(case):
    """The case without what it can do without, as far as the time goes."""
    end, is_smaller = time.monotonic() + SECONDS, True
    while is_smaller:
        is_smaller = False
        for events in less(case.events):
            if time.monotonic() > end:
                return case
            still = [it for it in differing_with(case, events) if it[0] == case.what] if events else []
            if still:
                case, is_smaller = case._replace(events=events, got=still[0][2], wanted=still[0][3]), True
                break
    return case


def tell(case):
    whence = f"from the seed {case.seed}" if case.seed is not None else "in a case above"
    print(f"DIFFERS: {case.what}{', on a publishing server' * case.publishing}, {whence}, after")
    for kind, value in case.events:
        print(f"    {kind}: {value.edits or ''}" if isinstance(value, Push) else f"    {kind}: {value}")
        for part in value.parts if isinstance(value, Push) else ():
            print(f"        {part.kind} {part.id} {part.params}", *part.items, sep="\n            ")
    if case.question:
        print(f"    asked: {case.question}")
    print(f"    the program: {case.got}\n    the rules: {case.wanted}", flush=True)


def fixed(found):
    """The cases that were written by hand; how many are as wanted."""
    good = 0
    for name, publishing, events, question, wanted in CASES:
        case = Case(question[0].decode(), None, publishing, events, question, None, None)
        differing = differing_with(case, events)
        plain = Plain(publishing)
        meant = [plain.state(it, [question])[1][0][1] for it in events][-1]
        good += not differing and meant == wanted
        print(f"{'as wanted' if not differing and meant == wanted else 'FAILED'}: {name}")
        for _, _, got, meant in differing:
            found[case.what] = case._replace(got=got, wanted=meant)
    return good


def main(states=10_000, seed=1):
    # who ends it by a signal leaves no server and no store
    signal.signal(signal.SIGTERM, lambda *_: sys.exit(1))
    # each push is synced; how a disk does that is nothing to compare
    tempfile.tempdir = "/dev/shm" if os.access("/dev/shm", os.W_OK) else None
    start, found = time.monotonic(), {}
    good, total = fixed(found), states + len(CASES)
    for first in range(0, states, PUSHES):
        good += play(seed + first // PUSHES, min(PUSHES, states - first), found)
    took = time.monotonic() - start, sum(os.times()[:4])
    print(f"{states} states from the seed {seed} on: {took[0]:.0f} s, {took[1]:.0f} s of them on a processor")
    for what, case in found.items():
        if what.removesuffix(LATER) not in found or not what.endswith(LATER):
            tell(smaller(case))
    for name in named():
        print(f"{DRIVEN[name]:>10}  {name}")
    faults = [f"never driven: {it}" for it in named() if not DRIVEN[it]] + reached.read()[1]
    for it in faults:
        print(f"FAILED: {it}")
    print(f"{good} passed, {total - good + len(faults)} failed")
    return 1 if good < total or faults else 0


if __name__ == "__main__":
    sys.exit(main(*map(int, sys.argv[2:])))
