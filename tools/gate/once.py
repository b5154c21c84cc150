#!/usr/bin/env python3
"""`rt`, with the sum of each crate's files made once.

    tools/gate/once.py COMMAND [WORDS..]   in the folder of a crate, as `rt COMMAND WORDS..`

Before `rt` uses a library it compares what the library was made of with what stands there. For that it sums up the
files of a crate anew by each way that leads to it from above, and 23,000 ways lead down from hg_pushd: minutes of a
processor for every crate near the top. Here each sum is kept, so no file may be changed while this runs.
"""
import functools
import importlib.machinery
import importlib.util
import shutil
import sys


def command():
    """The module of the command `rt` on the path."""
    loader = importlib.machinery.SourceFileLoader("rt", shutil.which("rt"))
    made = importlib.util.module_from_spec(importlib.util.spec_from_loader("rt", loader))
    loader.exec_module(made)
    return made


if __name__ == "__main__":
    sys.dont_write_bytecode = True
    rt = command()
    rt.rtlib.Crate.stamp = functools.cache(rt.rtlib.Crate.stamp)
    sys.exit(rt.main(sys.argv[1:]))
