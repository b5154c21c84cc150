"""Whether each row of the flows in docs/architecture.md names a file of its crate and a function of that file.

A flow is a table with the columns step, crate, file and call. A call is a function, or a type and a function, in code
quotes.
"""
import os
import re

from sources import ROOT, functions_of, read

PAGE = f"{ROOT}/docs/architecture.md"
ROW = re.compile(r"^\|[^|`]*\| `(hg_\w+)` \| `([\w/]+\.rt)` \| (.*?) \|", re.M)


def names_of(path, folder):
    """The functions of a file, by their names alone and with the type that each is of."""
    found = list(functions_of(path, folder))
    text = read(path)
    traits = re.findall(r"\btrait (\w+)", text)
    names = {it.name for it in found} | {f"{it.of}::{it.name}" for it in found if it.of}
    return names | {f"{it}::{one.name}" for it in traits for one in found}


def check():
    rows = ROW.findall(read(PAGE))
    if not rows:
        yield "docs/architecture.md has no flow"
    for crate, file, calls in rows:
        folder = f"{ROOT}/crates/{crate}/src"
        path = f"{folder}/{file}"
        if not os.path.exists(path):
            yield f"docs/architecture.md: {crate} has no {file}"
            continue
        there = names_of(path, folder)
        for call in re.findall(r"`([\w:]+)`", calls):
            if call not in there:
                yield f"docs/architecture.md: {file} of {crate} has no {call}"
