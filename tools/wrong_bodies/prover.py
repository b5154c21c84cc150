"""The prover, called for one crate over the libraries of those below it."""
import importlib.machinery
import os
import subprocess
import sys
import types

import sources


def toolchain():
    """The folder of the toolchain, by the page that it prints."""
    page = subprocess.run(["rt", "doc"], capture_output=True, text=True, check=True).stdout.strip()
    return os.path.dirname(page)


class Prover:
    """The prover, and the words that a check of a crate is called with, as `rt` has them."""

    def __init__(self, built):
        self.built, self.kit = built, toolchain()
        self.library = types.ModuleType("rtlib")
        self.library.__file__ = f"{self.kit}/bin/rtlib.py"
        sys.dont_write_bytecode = True
        importlib.machinery.SourceFileLoader("rtlib", self.library.__file__).exec_module(self.library)
        self.crates = {it.name: it for it in self.library.crates_below(built)}

    def words(self, crate):
        return self.crates[crate].words(["--jobs", "1"], keeps=False)

    def check(self, crate, room, functions, kept):
        """What a check of these functions prints, in a copy of the crate, with the processor seconds at the end of
        each function's proof."""
        words = [self.library.RATTLE, "check", *self.words(crate), "--allow-holes", "--progress"]
        words += ["--incremental", kept] if kept else []
        words += [word for it in functions for word in ("--only", it)]
        how = {"stdin": subprocess.DEVNULL, "stdout": subprocess.PIPE, "stderr": subprocess.STDOUT, "errors": "replace"}
        said = []
        with subprocess.Popen(words, cwd=room, encoding="utf-8", **how) as run:
            for line in run.stdout:
                if line.startswith("checked "):
                    line = f"{line.rstrip()}: {seconds_of(run.pid):.1f} s\n"
                said.append(line)
        return "".join(said)


def seconds_of(process):
    """The processor seconds that a process took so far; 0 where it is gone."""
    try:
        fields = sources.stat_of(process)
    except OSError:
        return 0.0
    return (int(fields[11]) + int(fields[12])) / os.sysconf("SC_CLK_TCK")
