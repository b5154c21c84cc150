"""The headings of the public standard, and whether what is cited of it is there.

standard-headings.txt lists them; `tools/documents.py --headings` makes it, which needs the command `hg`. A citation is
a page and the headings that follow it: `internals.bundle2`, "check:heads" and "check:phases". A heading that stands on
its page twice follows the one above it: "Bundle2 Part Types", "bookmarks". Comments of crates/*/src and
crates/*/specs, README.md, docs and standard.txt are read. Wrong is a page or a heading that does not exist, a page that
is cited without a heading, a heading that could be two, and a row of standard.txt that cites nothing or whose module
does not exist.
"""
import bisect
import os
import re
import subprocess

from sources import ROOT, read

LIST = f"{ROOT}/tools/documents/standard-headings.txt"
ROWS = f"{ROOT}/tools/documents/standard.txt"

PAGES = ["internals.bundle2", "internals.bundles", "internals.changegroups", "internals.requirements",
         "internals.revlogs", "internals.wireprotocol", "phases"]
MODULES = ["mercurial.obsolete"]
OUTSIDE = ["RFC 1924"]

ABOUT = """\
# The headings of the public standard: pages of `hg help`, and the text at the head of a module of Mercurial.
# A heading stands below the one that it is a part of. Made by `tools/documents.py --headings`, of Mercurial {}.
"""

HEADING = re.compile(r'( *)(\S[^\n]*)\n\1(["=-])\3*(?=\n)')
PAGE = re.compile(r"internals\.[\w-]+|mercurial\.\w+|(?<=hg help )\w+|phases(?=`?, \")")
CITED = re.compile(r'`?((?:(?:,? and|,? or|,) "[^"]+")*)')


def said(*words):
    """What a command prints, without the settings of who runs it."""
    where = {"PATH": os.environ["PATH"], "HGPLAIN": "1", "COLUMNS": "80", "LC_ALL": "C.UTF-8"}
    return subprocess.run(words, check=True, capture_output=True, text=True, env=where).stdout


def headings_of(text):
    """The headings of a page: how deep each stands, and its text. Each is underlined, as long as it is."""
    marks = []
    for found in HEADING.finditer(text):
        line, mark = found.group(2), found.group(3)
        if len(found.group(0).split("\n")[1].strip()) == len(line):
            marks += [mark] if mark not in marks else []
            yield marks.index(mark), line


def make():
    out = [ABOUT.format(said("hg", "debuginstall", "--template", "{hgver}"))]
    texts = [(page, said("hg", "help", page)) for page in PAGES]
    python = said("hg", "debuginstall", "--template", "{pythonexe}")
    texts += [(name, said(python, "-c", f"import {name}; print({name}.__doc__)")) for name in MODULES]
    for page, text in texts:
        lines = [f"{'  ' * (depth + 1)}{heading}\n" for depth, heading in headings_of(text)]
        out.append(f"\n{page}\n{''.join(lines)}")
    with open(LIST, "w", encoding="utf-8") as file:
        file.write("".join(out))


def listed():
    """For each page its headings, each with the one that it is a part of, or none."""
    pages, above = {}, []
    for line in read(LIST).splitlines():
        depth = (len(line) - len(line.lstrip())) // 2
        if line.startswith("#") or not line:
            continue
        if depth == 0:
            page, above = pages.setdefault(line, []), []
            continue
        above = above[:depth - 1] + [line.strip()]
        page.append((above[-1], above[-2] if len(above) > 1 else None))
    return pages


def files():
    """What may cite the standard: sources and definitions, of which comments count, and documents."""
    for top, kinds in (("crates", (".rt", ".antt")), ("docs", (".md",))):
        for at, folders, names in os.walk(f"{ROOT}/{top}"):
            folders[:] = sorted(name for name in folders if name not in ("out", "proofs", "must-fail"))
            yield from (f"{at}/{name}" for name in sorted(names) if name.endswith(kinds))
    yield f"{ROOT}/README.md"
    yield ROWS


class Prose:
    """The words of a file, joined over its lines, and the line that each place comes from."""

    def __init__(self, path):
        self.text, self.starts, self.numbers = "", [], []
        is_code = path.endswith((".rt", ".antt"))
        for number, line in enumerate(read(path).splitlines(), 1):
            comment = re.match(r"\s*(?:///|//!|//|--)(.*)", line)
            words = (comment.group(1) if comment else "") if is_code else line
            self.starts.append(len(self.text))
            self.numbers.append(number)
            self.text += words.strip() + ("\n" if path == ROWS else " ")

    def line(self, place):
        return self.numbers[bisect.bisect_right(self.starts, place) - 1]


def faults_of(page, headings, pages):
    """What is wrong with a page and the headings that are cited of it."""
    if page not in pages:
        yield f"no page {page}"
        return
    if not headings:
        yield f"{page} is cited without a heading"
    for number, heading in enumerate(headings):
        places = [above for it, above in pages[page] if it == heading]
        if not places:
            yield f'{page} has no heading "{heading}"'
        elif len(places) > 1 and not set(places) & set(headings[:number]):
            either = " or ".join(f'"{above}"' for above in places)
            yield f'{page} has "{heading}" twice: put {either} before it'


def faults_of_rows():
    """Rows of standard.txt that cite nothing, or whose crate or module does not exist."""
    for number, line in enumerate(read(ROWS).splitlines(), 1):
        if line.startswith("#") or not line.strip():
            continue
        named, _, cited = line.partition(": ")
        crate, _, module = named.partition(" ")
        specs = f"{ROOT}/crates/{crate}/specs"
        path = f"{specs}/{module.replace('.', '/')}.antt" if module else specs
        if not os.path.exists(path):
            yield number, f"no module {named}"
        if not PAGE.match(cited) and not cited.startswith(tuple(OUTSIDE)):
            yield number, f"{named} cites no page"


def check():
    pages, count = listed(), 0
    for path in files():
        told = os.path.relpath(path, ROOT)
        prose = Prose(path)
        for found in PAGE.finditer(prose.text):
            headings = re.findall(r'"([^"]+)"', CITED.match(prose.text, found.end()).group(1))
            count += len(headings)
            for fault in faults_of(found.group(0), headings, pages):
                yield f"{told}:{prose.line(found.start())}: {fault}"
    yield from (f"{os.path.relpath(ROWS, ROOT)}:{number}: {fault}" for number, fault in faults_of_rows())
    if not count:
        yield "nothing is cited"
