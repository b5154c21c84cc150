#!/usr/bin/env python3
"""`rt plant` in a crate, over libraries that stand in another folder: it makes wrong bodies by itself, and the tactics
judge them.

    tools/plant.py STAND CRATE [WORDS OF rt plant..]     (`rt plant --help`; bench/planted.md says what came of it)

STAND is a copy of the repository with built crates, as tools/one.py takes one, the crate too: `rt plant` would look at
that crate and at all below it first. Here the names of its functions are read off its library, and they count as
proved. Left out are laws, which have no body, and what the crate's root file does not hand out. A comment above a
variant is read over, which `rt plant` takes for a part of the variant's name.
"""
import importlib.machinery
import os
import re
import shutil
import sys
import tempfile
import types

import sources
from wrong_bodies.prover import toolchain


def planter():
    """`rt plant`, as a module."""
    path = f"{toolchain()}/bin/rt-plant"
    found = types.ModuleType("rt-plant")
    found.__file__ = path
    sys.dont_write_bytecode = True
    importlib.machinery.SourceFileLoader("rt-plant", path).exec_module(found)
    return found


def copied(stand, name, folder):
    """A copy of the repository's sources, with the libraries of the stand; gives the folder of the crate."""
    for it in ("crates.txt", "HANDLES"):
        shutil.copy(f"{sources.ROOT}/{it}", folder)
    for crate in os.listdir(f"{sources.ROOT}/crates"):
        to, library = f"{folder}/crates/{crate}", f"{stand}/crates/{crate}/out/rlib"
        for part in ("src", "specs", "proofs"):
            if os.path.isdir(f"{sources.ROOT}/crates/{crate}/{part}"):
                shutil.copytree(f"{sources.ROOT}/crates/{crate}/{part}", f"{to}/{part}")
        os.makedirs(f"{to}/out")
        if crate != name and os.path.isdir(library):
            os.symlink(library, f"{to}/out/rlib")
    os.mkdir(f"{folder}/crates/{name}/out/incremental")
    return f"{folder}/crates/{name}"


def proved(stand, name):
    """What a check says of the functions that a library has."""
    made = sources.read(f"{stand}/crates/{name}/out/rlib/{name}.rlib/toolchain/mir.json")
    functions = sorted(set(re.findall(rf'"({name}::[^"]+)"', made)))
    return "".join(f"fn {it}: proved\n" for it in functions) + f"\ncrate {name}: proved"


def handed_out(root):
    """The names that a root file hands out."""
    return set(re.findall(r"\w+", " ".join(re.findall(r"pub use ([^;]*);", sources.read(root)))))


def main(stand, name, *words):
    plant = planter()
    without_attributes, chosen = plant.bodies.without_attributes, plant.chosen
    is_comment = re.compile(r"///").match

    def without_comments(found):
        while found[:1] and (is_comment(found[0]) or found[0] == "#"):
            found = found[1:] if is_comment(found[0]) else without_attributes(found)
        return without_attributes(found)

    def chosen_of(*given):
        names = handed_out("src/lib.rt")
        return [[it for it in found if it.file != "src/laws.rt"
                 and (it.in_trait or (it.owner if it.block else it.name) in names)] for found in chosen(*given)]

    def check(*_words):
        print(proved(os.path.abspath(stand), name))
        return 0

    plant.bodies.without_attributes, plant.chosen, plant.rt.main = without_comments, chosen_of, check
    # on a busy machine a check takes longer than `rt plant` gives it
    plant.SECONDS, plant.BATCH = 3600, 20
    with tempfile.TemporaryDirectory(prefix="plant-") as folder:
        os.chdir(copied(os.path.abspath(stand), name, folder))
        return plant.main("--jobs", "1", *words)


if __name__ == "__main__":
    if len(sys.argv) < 3:
        sys.exit(__doc__)
    sys.exit(main(*sys.argv[1:]))
