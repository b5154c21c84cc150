"""What the gate compares besides: the toolchain with toolchain.txt, and how many functions of a crate may wait, as the
prover counted them, with crates.txt.

`rt ci` does not ask for these counts, and `rt verdict` does, which proves each crate and all below it anew. So
the counts of one run are compared here. Of a crate whose proof an earlier run kept, the log has no count: it is left
out, and the last line says of how many crates there was one.
"""
import os
import re
import shutil
import subprocess

import sources

WAITS = re.compile(r"^(\w+)([^:]*):")
PROVED = re.compile(r"^(?:rt: )?(hg_\w+) proved$")


def told():
    """The count of each crate in crates.txt, 0 where there is none."""
    for line in sources.read(f"{sources.ROOT}/crates.txt").splitlines():
        row = WAITS.match(line)
        if row:
            count = re.search(r"\bmay_wait=(\d+)", row[2])
            yield row[1], int(count[1]) if count else 0


def counted(log):
    """The count of each crate that the log says is proved, by the last verdict before that."""
    last = None
    for line in log.splitlines():
        if line.startswith("== "):
            last = None
        if line.startswith("logic=proved "):
            count = re.search(r"\bmay-wait=(\d+)", line)
            last = int(count[1]) if count else 0
        proved = PROVED.match(line)
        if proved and last is not None:
            yield proved[1], last
            last = None


def counts(log):
    """Fails where the count of a crate in crates.txt is another than in the log of `rt ci`."""
    wanted, failed, seen = dict(told()), 0, 0
    for crate, count in counted(sources.read(log)):
        seen += 1
        if wanted.get(crate) != count:
            failed += 1
            print(f"counts: {crate}: {count} functions may wait, and crates.txt says {wanted.get(crate)}")
    print(f"counts: {seen} crates, {failed} differ")
    return 1 if failed else 0


def toolchain():
    """Whether the toolchain is on the path, and is the one that this tree is proved with. Another kit of the same logic
    proves the same things, so it is reported and not refused. With TOOLCHAIN=any in the environment any other is taken.
    """
    lines = sources.read(f"{sources.ROOT}/toolchain.txt").splitlines()
    wanted = next(it for it in lines if not it.startswith("#"))
    if not shutil.which("rt"):
        print("hg_pushd is built with the Rattle toolchain: its command rt is not on the path.")
        print(f"The version that this tree is proved with: {wanted} (see toolchain.txt).")
        return 1
    found = subprocess.run(["rt", "version"], capture_output=True, text=True, check=False).stdout.strip()
    if found == wanted:
        return 0
    if found.rpartition(" logic ")[2] == wanted.rpartition(" logic ")[2]:
        print(f"Note: proved with {found}; toolchain.txt has {wanted.partition(' logic ')[0]}, which has the same logic.")
        return 0
    print(f"This tree is proved with another toolchain: {wanted}")
    print(f"The one on the path:                        {found}")
    if os.environ.get("TOOLCHAIN") == "any":
        return 0
    print("Proofs may fail with it. To try it all the same: make TOOLCHAIN=any ..")
    return 1
