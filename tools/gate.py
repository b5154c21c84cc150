#!/usr/bin/env python3
"""The gate: proves every crate from nothing, tries all wrong bodies, runs the tests, and runs the program.

    tools/gate.py                what `make test` calls; the last line is 'N passed, M failed'
    tools/gate.py build          proves every crate that is not proved, side by side, for `make build`
    tools/gate.py tests [NAME..] runs tests, compiled with checks and not proved: all, or those of these crates
                                 (hg_log_tests, hg_tcp, ..) or groups
    tools/gate.py groups         prints the groups of tests that the gate runs
    tools/gate.py counts LOG     compares how many functions may wait with what `rt ci` printed
    tools/gate.py toolchain      compares the toolchain on the path with toolchain.txt

The gate works in a stand, a folder outside of the repository with copies of the crates, so that nothing is taken from
what earlier checks kept and nothing of it is lost. `rt ci` proves there, the longest chain of crates first. What
processors it leaves idle run the tests, and the wrong bodies of each crate as soon as the crates below it are
proved, the dearest first. Once all is proved the program is run, beside what is left of these. What each piece took
goes to build/gate/costs.csv, what it said to build/gate/*.log.
"""
import os
import re
import resource
import shutil
import subprocess
import sys
import tempfile
import threading
import time
from concurrent.futures import ThreadPoolExecutor

import costs as figures
import sources
from gate import checks, proving, stands, testing

LOGS = f"{sources.ROOT}/build/gate"
CHECKS = ("documents", "costs")
# the kinds of tasks in their order, and how far each is behind the proofs, which get a processor first; tests have
# limits of time
NICE = {"speed": "10", "tests": "10", "judging": "19", "wrong bodies": "19"}
# the processor seconds of a wrong body, and of a group of tests, where no run has measured them
A_WRONG_BODY, A_GROUP = 12, 300
# what is run with the program, the longest first: the script, and what follows the program in its words
PIECES = {
    "mirror, page and installation": ["tests/gate.sh"],
    "random bundles": ["bench/fuzz/run.sh", "60", "1"],
    "clients": ["tests/serve.sh"],
    "stores": ["tests/store.sh"],
    "imports": ["tests/import.py"],
    "followers": ["tests/follow.py"],
    "what is synced": ["tests/synced.py"],
    "a lying disk": ["tests/lying.py"],
    "standbys": ["tests/standby.py"],
    "weighed pushes": ["tests/weighed.py"],
    "examples": ["tests/check.sh"],
    "branch maps": ["tests/branches.py"],
}
# what looks how long an answer takes, or may lose the end of one on a busy machine: nothing runs beside it
ALONE = {
    "clients over HTTP": ["tests/host.sh"],
    "reads of large repositories": ["tests/reads.py"],
    "a limit of memory": ["tests/hostile.sh"],
    "a long life": ["tests/life.py"],
}
# a crate is proved in this run, or an earlier run of the same files on this machine proved it
PROVED = re.compile(r"^(?:rt: )?(hg_\w+) (proved$|is kept: )")
COUNTED = re.compile(r"^(\d+) passed, (\d+) failed$", re.M)


class Count:
    """What passed and what failed so far."""

    def __init__(self):
        self.start, self.passed, self.failed, self.lock = time.time(), 0, {}, threading.Lock()

    def say(self, text):
        took = int(time.time() - self.start)
        print(f"{took // 60:>3}:{took % 60:02}  {text}", flush=True)

    def add(self, name, passed, failed, text="", said=""):
        """Counts a piece; where it failed, what it said at its end is printed, and once more at the end of all."""
        with self.lock:
            self.passed += passed
            if failed:
                self.failed[name] = said[-1500:]
                print(said[-6000:])
            self.say(f"{name}: {text or ('passed' if not failed else 'FAILED')}")


def logged(name, words, **how):
    """Runs a command, its output in a log; returns its status, its output and its processor seconds."""
    path = f"{LOGS}/{name}.log"
    with open(path, "w", encoding="utf-8") as log:
        run = subprocess.Popen(words, stdout=log, stderr=subprocess.STDOUT, stdin=subprocess.DEVNULL, **how)
        _, status, used = os.wait4(run.pid, 0)
        run.returncode = os.waitstatus_to_exitcode(status)
    with open(path, encoding="utf-8", errors="replace") as log:
        return run.returncode, log.read(), used.ru_utime + used.ru_stime


def counted(said):
    """How many passed and how many failed, by the last line of a script; nothing where it has none."""
    found = COUNTED.findall(said)
    return tuple(map(int, found[-1])) if found else None


def place_in_row(task, took):
    """Which task comes before which: the speed of the machine, then tests, which are ready from the beginning, and
    then wrong bodies; of each kind the dearest, as it was in an earlier run, or as such a task may be."""
    kind, name = task
    guess = A_WRONG_BODY * figures.wrong_bodies(name) if kind == "wrong bodies" else A_GROUP
    return list(NICE).index(kind), -took.get(name, {}).get(kind, guess)


class Side:
    """What runs beside the proofs: tests at once, the wrong bodies of a crate once those below it are proved, the
    dearest first, so that no long one is left for the end. They have the processors that the proofs leave: the
    longest chain of proofs never waits for one.
    """

    def __init__(self, stand, count, costs):
        self.stand, self.count, self.costs = stand, count, costs
        self.used, self.proved, self.ended = sources.uses(), set(), False
        self.changed = threading.Condition()
        waiting = [("speed", "selftest"), ("judging", "hg_delta")]
        waiting += [("tests", it) for it in testing.groups()]
        waiting += [("wrong bodies", it) for it in sources.with_wrong_bodies()]
        _, took = figures.figures()
        self.waiting = sorted(waiting, key=lambda it: place_in_row(it, took))
        self.workers, self.speed = [], 0

    def begin(self, workers):
        """Has so many more tasks run at once."""
        made = [threading.Thread(target=self.work, daemon=True) for _ in range(workers)]
        self.workers += made
        for it in made:
            it.start()

    def join(self):
        for it in self.workers:
            it.join()

    def is_ready(self, task):
        kind, name = task
        return kind in ("tests", "speed") or sources.below(name, self.used) <= self.proved

    def note(self, proved):
        with self.changed:
            self.proved |= proved
            self.changed.notify_all()

    def end(self):
        """Nothing more is proved: what waits for more than that is left."""
        with self.changed:
            self.ended = True
            self.changed.notify_all()

    def next(self):
        with self.changed:
            while self.waiting:
                ready = next(filter(self.is_ready, self.waiting), None)
                if ready:
                    self.waiting.remove(ready)
                    return ready
                if self.ended:
                    kind, name = self.waiting.pop()
                    self.count.add(f"{kind} of {name}", 0, 1, "FAILED: a crate below is not proved")
                    continue
                self.changed.wait()
        return None

    def work(self):
        while True:
            task = self.next()
            if not task:
                return
            kind, name = task
            try:
                self.run(kind, name)
            except Exception as fault:  # a task that is lost fails the gate
                self.count.add(f"{kind} of {name}", 0, 1, f"FAILED: {fault!r}")

    def run(self, kind, name):
        """Runs a task, and counts what came of it."""
        words = {
            "speed": ["rt", "selftest"],
            "tests": [sys.executable, "tools/gate.py", "tests", name],
            "wrong bodies": [sys.executable, "tools/wrong_bodies.py", "--built", self.stand, name],
            "judging": [sys.executable, "tools/wrong_bodies.py", "--built", self.stand, "--selftest"],
        }[kind]
        place = f"{kind.replace(' ', '-')}-{name}"
        status, said, seconds = logged(place, ["nice", "-n", NICE[kind], *words], cwd=sources.ROOT)
        if kind == "speed":
            self.speed = seconds
            self.count.say(f"This machine takes {seconds:.0f} processor seconds for the toolchain's own example.")
            return
        passed, failed = counted(said) or (0, 1)
        if kind != "judging":
            self.costs[name, kind] = seconds
        text = f"{passed} passed, {failed} failed" if failed or status else f"{passed} passed"
        self.count.add(f"{kind} of {name}", passed, failed or status, text, said)


def prove(stand, count, side):
    """Proves all crates in the stand, and tells what waits for each. Returns those that an earlier run proved."""
    total, kept = len(sources.crates()), set()
    # one process for each proof: more of them cost more in all, and what waits beside the proofs has a use for each
    # processor
    alone = {**os.environ, "RT_JOBS": str(len(os.sched_getaffinity(0)))}
    with open(f"{LOGS}/proofs.log", "w", encoding="utf-8") as log:
        run = subprocess.Popen(["rt", "ci"], cwd=stand, stdout=subprocess.PIPE, stderr=subprocess.STDOUT,
                               stdin=subprocess.DEVNULL, encoding="utf-8", errors="replace", env=alone)
        said = []
        for line in run.stdout:
            log.write(line)
            log.flush()
            said.append(line)
            found = PROVED.match(line.strip())
            if found:
                is_kept = found[2] != "proved"
                kept |= {found[1]} if is_kept else set()
                side.note({found[1]})
                count.say(f"proved{' before' if is_kept else ''}: {found[1]}, {len(side.proved)} of {total}")
        status = run.wait()
    passed, failed = counted("".join(said)) or (0, 1)
    side.end()
    how = f"all but {len(kept)} from nothing" if kept else "from nothing"
    count.add(f"proofs, {how}", passed, failed or status, f"{passed} passed, {failed} failed", "".join(said))
    status, said, _ = logged("counts", [sys.executable, "tools/gate.py", "counts", f"{LOGS}/proofs.log"], cwd=sources.ROOT)
    count.add("how many functions may wait", int(not status), status, said=said)
    return kept


def run_piece(program, name, words, count):
    """Runs one piece of what is tried with the program."""
    script, *more = words
    how = [sys.executable if script.endswith(".py") else "bash", script, program, *more]
    status, said, _ = logged(f"program-{script.split('/')[-1]}", how, cwd=sources.ROOT)
    count.add(f"the program, {name}", int(not status), status, said=said)


def run_pieces(program, count):
    """Runs the pieces that may run side by side: each has a folder and ports of its own."""
    with ThreadPoolExecutor(len(os.sched_getaffinity(0))) as pool:
        for it in [pool.submit(run_piece, program, name, words, count) for name, words in PIECES.items()]:
            it.result()


def check_documents(count):
    for name in CHECKS:
        status, said, _ = logged(f"check-{name}", [sys.executable, f"tools/{name}.py", "--check"], cwd=sources.ROOT)
        count.add(f"tools/{name}.py --check", int(not status), status, said=said)


def check_costs(count):
    """Compares what each piece took with its budget, by the speed of this machine."""
    status, said, _ = logged("costs", [sys.executable, "tools/costs.py", "--run"], cwd=sources.ROOT)
    print(said, end="")
    count.add("costs of this run", int(not status), status, said=said)


def print_costs(costs):
    """What each kind of piece took, whole and by crate, in processor seconds."""
    for kind in ("proof", "wrong bodies", "tests"):
        took = {name: seconds for (name, its), seconds in costs.items() if its == kind}
        dearest = sorted(took.items(), key=lambda it: -it[1])
        print(f"{kind}, {sum(took.values()):.0f} s: {', '.join(f'{name} {seconds:.0f}' for name, seconds in dearest)}")


def run_gate():
    shutil.rmtree(LOGS, ignore_errors=True)
    os.makedirs(LOGS)
    count, costs = Count(), {}
    processors = len(os.sched_getaffinity(0))
    count.say(f"On {processors} processors. On slow ones the whole takes an hour and a half with four, over two with two.")
    check_documents(count)
    if count.failed:
        print(f"{count.passed} passed, {len(count.failed)} failed")
        return 1
    with tempfile.TemporaryDirectory(prefix="gate-") as place:
        stand = stands.make(f"{place}/stand", sources.crates())
        side = Side(stand, count, costs)
        watch = figures.Watch(stand)
        side.begin(max(1, processors - 1))
        kept = prove(stand, count, side)
        # the processor that the longest chain had
        side.begin(1)
        took = watch.end()
        built, program = f"{stand}/crates/hg_pushd/out/hg_pushd", f"{sources.ROOT}/build/hg_pushd"
        is_built = os.path.isfile(built)
        if is_built:
            shutil.copy2(built, program)
            run_pieces("build/hg_pushd", count)
        side.join()
    if is_built:
        for name, words in ALONE.items():
            run_piece("build/hg_pushd", name, words, count)
    else:
        count.add("the program", 0, 1, "FAILED: it was not built")
    # what was not proved in this run has no figure, and keeps the one that it has
    costs.update({(name, "proof"): seconds for name, seconds in took.items() if name not in kept})
    used = resource.getrusage(resource.RUSAGE_CHILDREN)
    minutes, spent = (time.time() - count.start) / 60, (used.ru_utime + used.ru_stime) / 60
    figures.write_run(f"{LOGS}/costs.csv", costs, minutes, spent, processors, side.speed, len(kept))
    check_costs(count)
    for it, said in count.failed.items():
        print(f"FAILED: {it}\n{said}".rstrip())
    print_costs(costs)
    count.say(f"{minutes:.0f} minutes, {spent:.0f} processor minutes with all that ran; `rt selftest` {side.speed:.0f} s.")
    print(f"{count.passed} passed, {len(count.failed)} failed")
    return 1 if count.failed else 0


def main(words):
    command, more = words[0] if words else "", words[1:]
    if not words:
        return run_gate()
    if command == "build" and not more:
        return proving.run()
    if command == "toolchain" and not more:
        return checks.toolchain()
    if command == "counts" and len(more) == 1:
        return checks.counts(more[0])
    groups = testing.groups()
    if command == "groups" and not more:
        print("\n".join(groups))
        return 0
    if command == "tests" and not sources.shows_usage(__doc__, more, groups):
        return testing.run_all(more)
    if command != "tests":
        print(__doc__.strip())
    return 2


if __name__ == "__main__":
    sys.exit(main(sys.argv[1:]))
