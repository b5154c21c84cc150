"""Proves every crate, those that do not stand on each other at once, and says how far it is.

The prover keeps a crate and all below it to itself while it works. So each crate is proved in a stand: a
folder with copies of it and of the crates that it uses, which goes away after it. What the prover prints of
a crate goes to build/proving/CRATE.log; where one is not proved, the end of that is printed too, and the
status is 1.
"""
import os
import shutil
import subprocess
import sys
import tempfile
import time
from concurrent.futures import FIRST_COMPLETED, ThreadPoolExecutor, wait

import sources

LOGS = f"{sources.ROOT}/build/proving"
RT = [sys.executable, f"{os.path.dirname(os.path.abspath(__file__))}/once.py"]


def files_of(crate):
    """The files that the prover reads of a crate."""
    for at, folders, names in os.walk(f"{sources.ROOT}/crates/{crate}"):
        folders[:] = [it for it in folders if it not in ("out", "wrong")]
        yield from (f"{at}/{name}" for name in names)


def chains(uses):
    """For each crate the bytes of the longest chain that begins with it and goes up."""
    lengths = {}
    for crate in reversed(uses):
        own = sum(map(os.path.getsize, files_of(crate)))
        lengths[crate] = own + max((lengths[it] for it in lengths if crate in uses[it]), default=0)
    return lengths


def link(source, target):
    """A second name of a file, or a copy where there can be none."""
    try:
        os.link(source, target)
    except OSError:
        shutil.copy2(source, target)


def make_stand(stand, crate, uses):
    """A folder in which a crate can be proved beside others: its sources, and what is proved below it."""
    os.makedirs(f"{stand}/crates")
    whole = {crate, *sources.below(crate, uses)}
    with open(f"{stand}/crates.txt", "w", encoding="utf-8") as file:
        file.writelines(f"{line}\n" for name, line in sources.rows().items() if name in whole)
    for it in whole:
        for file in files_of(it):
            target = f"{stand}/{os.path.relpath(file, sources.ROOT)}"
            os.makedirs(os.path.dirname(target), exist_ok=True)
            shutil.copy2(file, target)
        proved = f"crates/{it}/out/rlib"
        if it != crate and os.path.isdir(f"{sources.ROOT}/{proved}"):
            shutil.copytree(f"{sources.ROOT}/{proved}", f"{stand}/{proved}", copy_function=link)


def move(source, target):
    if os.path.isdir(source):
        shutil.rmtree(target, ignore_errors=True)
        shutil.move(source, target)


def prove(crate, jobs, uses, place):
    """Proves a crate in a stand, keeps what came of it, and returns the status."""
    stand, out = f"{place}/{crate}", f"crates/{crate}/out"
    make_stand(stand, crate, uses)
    move(f"{sources.ROOT}/{out}", f"{stand}/{out}")
    try:
        folder = f"{stand}/crates/{crate}"
        is_program = os.path.exists(f"{folder}/src/main.rt")
        words = [*RT, "check" if is_program else "lib", "--jobs", str(jobs)]
        with open(f"{LOGS}/{crate}.log", "w", encoding="utf-8") as log:
            return subprocess.run(words, cwd=folder, stdout=log, stderr=log, check=False).returncode
    finally:
        move(f"{stand}/{out}", f"{sources.ROOT}/{out}")
        shutil.rmtree(stand)


def told(crate):
    with open(f"{LOGS}/{crate}.log", encoding="utf-8", errors="replace") as log:
        print("".join(log.readlines()[-40:]), end="")
    print(f"{crate} is not proved: build/proving/{crate}.log has all that was said of it.")


def share(idle, others):
    """The processes for a crate: one for each idle processor, but for one where other crates wait too."""
    return idle - 1 if others and idle > 2 else idle


def prove_all(uses, processors, place, say):
    """Proves each crate behind those that it uses, the longest chain first; returns one that failed."""
    lengths, proved, running = chains(uses), [], {}
    left = sorted(uses, key=lambda it: -lengths[it])
    with ThreadPoolExecutor(processors) as pool:
        while left or running:
            ready = [it for it in left if all(used in proved for used in uses[it])]
            for place_in_row, crate in enumerate(ready, 1):
                idle = processors - sum(jobs for _, jobs in running.values())
                if idle < 1:
                    break
                left.remove(crate)
                jobs = share(idle, len(ready) - place_in_row)
                running[pool.submit(prove, crate, jobs, uses, place)] = crate, jobs
            for it in wait(running, return_when=FIRST_COMPLETED).done:
                crate, _ = running.pop(it)
                if it.result():
                    return crate
                proved.append(crate)
                say(len(proved), crate)
    return None


def uses_of_proved():
    """Each crate that is proved, and those that it uses; crates of tests are left to the gate."""
    named = sources.crates()
    return {name: [it for it in used if it in named] for name, used in sources.uses().items() if name in named}


def run():
    """Proves all that is not proved yet; returns the status."""
    start, uses, processors = time.time(), uses_of_proved(), len(os.sched_getaffinity(0))
    os.makedirs(LOGS, exist_ok=True)
    print(f"Proving {len(uses)} crates on {processors} processors.", flush=True)

    def say(number, crate):
        took = int(time.time() - start)
        print(f"{took // 60:>3}:{took % 60:02}  {number} of {len(uses)} crates proved: {crate}", flush=True)

    git = f"{sources.ROOT}/.git"
    with tempfile.TemporaryDirectory(prefix="proving-", dir=git if os.path.isdir(git) else None) as place:
        failed = prove_all(uses, processors, place, say)
    if failed:
        told(failed)
    return 1 if failed else 0
