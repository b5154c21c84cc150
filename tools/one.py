#!/usr/bin/env python3
"""Works on one crate over libraries that stand in another folder, without looking at what is below it again.

    tools/one.py STAND CRATE                  checks the crate
    tools/one.py STAND CRATE --only FUNCTION  one function of it (as often as wanted)
    tools/one.py STAND CRATE --test           checks its tests too (with --only or --seconds as well)
    tools/one.py STAND CRATE --library        proves it and leaves its library, which is then taken for the crates above
    tools/one.py STAND CRATE --drop           forgets that library
    tools/one.py STAND CRATE --seconds        checks it from nothing, and prints the processor seconds by function

STAND is a copy of the repository with built crates, as `rt ci` leaves one. A crate that has a library of its own below
`crates/` here is taken from here. That fits only where nothing below a crate was changed without a new library of it.
Other words go to the prover (`--allow-holes`).
"""
import os
import re
import shutil
import subprocess
import sys

import sources
from wrong_bodies.prover import Prover, seconds_of


def words_for(stand, name, more):
    """The words of the prover for a crate of the repository."""
    prover = Prover(sources.ROOT)
    crate = prover.crates[name]
    for it in crate.below():
        own = f"{sources.ROOT}/crates/{it.name}/out/rlib/{it.name}.rlib"
        there = f"{stand}/crates/{it.name}/out/rlib/{it.name}.rlib"
        it.rlib = own if os.path.isdir(own) else there
        if not os.path.isdir(it.rlib):
            sys.exit(f"one.py: {it.name} has no library, here or in {stand}")
    return prover.library.RATTLE, crate.words(["--jobs", "1", *more], keeps=False)


def by_function(rattle, words, folder):
    """Prints what the proof of each function took, the dearest first."""
    said, last, rows = [rattle, "check", *words, "--progress"], 0.0, []
    with subprocess.Popen(said, cwd=folder, stdin=subprocess.DEVNULL, stdout=subprocess.PIPE,
                          stderr=subprocess.STDOUT, text=True) as run:
        for line in run.stdout:
            if line.startswith("checked "):
                now = seconds_of(run.pid)
                rows.append((now - last, line.split()[1]))
                last = now
            elif not re.match(r"statements |so far", line):
                print(line, end="")
    print(f"{last:8.1f} s  all")
    for seconds, name in sorted(rows, reverse=True)[:40]:
        print(f"{seconds:8.1f} s  {name}")
    return run.returncode


def main(stand, name, *more):
    folder, more = f"{sources.ROOT}/crates/{name}", list(more)
    library = f"{folder}/out/rlib"
    if "--drop" in more:
        shutil.rmtree(library, ignore_errors=True)
        return 0
    asked = next((it for it in ("--library", "--seconds") if it in more), None)
    rattle, words = words_for(stand, name, [it for it in more if it != asked])
    if asked == "--seconds":
        return by_function(rattle, words, folder)
    os.makedirs(f"{folder}/out/incremental", exist_ok=True)
    words += ["--incremental", "out/incremental"]
    if asked is None:
        return subprocess.run([rattle, "check", *words, "--progress"], cwd=folder, check=False).returncode
    os.makedirs(library, exist_ok=True)
    target = f"out/rlib/{name}.rlib"
    shutil.rmtree(f"{folder}/{target}", ignore_errors=True)
    return subprocess.run([rattle, "build", *words, "-o", target], cwd=folder, check=False).returncode


if __name__ == "__main__":
    sys.exit(main(*sys.argv[1:]))
