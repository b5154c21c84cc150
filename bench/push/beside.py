"""Lets Mercurial take the pushes of make.py: beside.py FOLDER REPORT PUSHES..

A repository is made in FOLDER, which is not there yet, and each file of PUSHES is one push to it, in order.
It is handled as Mercurial's server handles it: by `exchange.unbundle`, in this one process, without a network.
The report of what the repository then holds is written to REPORT in the words of `hg_pushd replay`. One line
tells the processor time of the pushes in seconds, and the most memory that the process held, in bytes.
"""

import os
import resource
import sys
import time

os.environ["HGRCPATH"] = ""
os.environ["HGPLAIN"] = "1"

try:
    from mercurial import exchange, hg
    from mercurial import ui as uimod
except ImportError:
    sys.exit("Mercurial's modules are not installed")


def draft_server(folder):
    """A repository that does not publish, as that of `hg_pushd replay`."""
    ui = uimod.ui.load()
    for section, name, value in [(b"phases", b"publish", b"no"), (b"ui", b"quiet", b"yes")]:
        ui.setconfig(section, name, value, b"bench")
    return hg.repository(ui, os.fsencode(folder), create=True)


def push(repo, path):
    with open(path, "rb") as given:
        bundle = exchange.readbundle(repo.ui, given, os.fsencode(path))
        exchange.unbundle(repo, bundle, [b"force"], b"push", b"bench")


def report(repo):
    for rev in repo:
        row = repo[rev]
        yield b"C %d %s %d %d\n" % (rev, row.hex(), row.phase(), row.obsolete())


def main(folder, told, pushes):
    repo = draft_server(folder)
    start = time.process_time()
    for path in pushes:
        push(repo, path)
    spent = time.process_time() - start
    peak = resource.getrusage(resource.RUSAGE_SELF).ru_maxrss * 1024
    with open(told, "wb") as out:
        out.writelines(report(repo))
    print(spent, peak)


main(sys.argv[1], sys.argv[2], sys.argv[3:])
