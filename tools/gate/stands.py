"""Stands: folders outside of the repository with copies of crates, in which the prover works on nothing else.

What is made in a stand is made from nothing, and what a developer's own checks kept stays as it is.
"""
import os
import re
import shutil

import sources

PARTS = ("src", "specs", "proofs")
# files that say what a program is run on
ASIDE = ("stdin", "stdout", "args", "status", "data")
TESTS = "_tests"
# what tests of several crates use, and no test
HELPERS = ("hg_help_tests", "hg_help_store_tests", "hg_help_serve_tests")
TESTS_INSIDE = re.compile(r"#\[cfg\(test\)\]\nmod tests;\n")


def has_tests_inside(crate):
    """Whether a crate's tests stand beside its code, as they do where they look at private functions."""
    return os.path.exists(f"{sources.ROOT}/crates/{crate}/src/tests.rt")


def tests():
    """The crates that are run for their tests. What only other tests use has none."""
    return [it for it in sources.rows() if it not in HELPERS and (it.endswith(TESTS) or has_tests_inside(it))]


def drop_tests(crate):
    """Takes the tests out of a copy of a crate."""
    shutil.rmtree(f"{crate}/src/tests", ignore_errors=True)
    shutil.rmtree(f"{crate}/proofs/tests", ignore_errors=True)
    for name in ("src/tests.rt", "proofs/tests.antt"):
        if os.path.exists(f"{crate}/{name}"):
            os.remove(f"{crate}/{name}")
    for name in ("src/lib.rt", "src/main.rt"):
        path = f"{crate}/{name}"
        if os.path.exists(path):
            text = sources.read(path)
            with open(path, "w", encoding="utf-8") as file:
                file.write(TESTS_INSIDE.sub("", text).rstrip("\n") + "\n")


def copy_crate(crate, stand):
    source, target = f"{sources.ROOT}/crates/{crate}", f"{stand}/crates/{crate}"
    os.makedirs(target)
    for part in PARTS:
        if os.path.isdir(f"{source}/{part}"):
            shutil.copytree(f"{source}/{part}", f"{target}/{part}")
    for name in ASIDE:
        path = f"{source}/{name}"
        if os.path.isdir(path):
            shutil.copytree(path, f"{target}/{name}")
        elif os.path.exists(path):
            shutil.copy2(path, f"{target}/{name}")


def make(stand, crates, keeps_tests_of=()):
    """Makes a stand with these crates and what is below them."""
    rows, used = sources.rows(), sources.uses()
    whole = {it for crate in crates for it in (crate, *sources.below(crate, used))}
    os.makedirs(f"{stand}/crates")
    for crate in whole:
        copy_crate(crate, stand)
        if crate not in keeps_tests_of and has_tests_inside(crate):
            drop_tests(f"{stand}/crates/{crate}")
    with open(f"{stand}/crates.txt", "w", encoding="utf-8") as file:
        file.writelines(f"{line}\n" for name, line in rows.items() if name in whole)
    shutil.copy2(f"{sources.ROOT}/HANDLES", f"{stand}/HANDLES")
    return stand


def join_tests(stand, name, members):
    """Makes one crate of several crates of tests, each a module of it, so that what they stand on is compiled
    once."""
    rows, used = sources.rows(), sources.uses()
    make(stand, [it for member in members for it in used[member]])
    words = {}
    for member in members:
        words.update(dict.fromkeys(rows[member].partition(":")[2].split()))
    folder = f"{stand}/crates/{name}/src"
    os.makedirs(folder)
    for member in members:
        source = f"{sources.ROOT}/crates/{member}/src"
        for path in sources.files(source, ".rt"):
            inside = os.path.relpath(path, source)
            target = f"{folder}/{member}.rt" if inside == "lib.rt" else f"{folder}/{member}/{inside}"
            os.makedirs(os.path.dirname(target), exist_ok=True)
            # nothing is proved here, so no proof is told which lemmas help it
            text = re.sub(r"#\[tactic\([^\]]*\)\]\n", "", sources.read(path).replace("#![tactic(auto)]\n", ""))
            with open(target, "w", encoding="utf-8") as file:
                file.write(re.sub(r"\bcrate::", f"crate::{member}::", text))
    with open(f"{folder}/lib.rt", "w", encoding="utf-8") as file:
        file.write("//! Tests of several crates.\n#![tactic(auto)]\n\n")
        file.writelines(f"mod {member};\n" for member in members)
    with open(f"{stand}/crates.txt", "a", encoding="utf-8") as file:
        file.write(f"{name} tests_may=Threads+Wait: {' '.join(words)}\n")
    return stand
