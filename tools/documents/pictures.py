"""The bytes of a bundle in docs/pictures.md, drawn between its two marks, and whether what the page names is there.

A name is a crate, a function and clauses, each in code quotes and one after the other: `hg_serve`
`Server::answer` `complete`. A clause is one that the function ensures, or a field of a record of the crate's
specs/.
"""
import os
import re

from sources import ROOT, read

PAGE = f"{ROOT}/docs/pictures.md"
BUNDLE = f"{ROOT}/examples/first-push-interrupted.hg20"
BEGIN, END = "<!-- bytes -->\n", "<!-- end -->\n"
NAMED = re.compile(r"`(hg_\w+)` `(?:(\w+)::)?(\w+)`((?: `\w+`)*)")


def value_of(number):
    """The value of a size on the wire: signed, its most significant byte first."""
    return int.from_bytes(number, "big", signed=True)


class Drawing:
    """Lines of a picture: a place, its bytes and what they are."""

    def __init__(self, data):
        self.data, self.at, self.lines = data, 0, []

    def take(self, count, depth, what):
        """Draws so many bytes; what tells of them, or is a function of them."""
        taken = self.data[self.at:self.at + count]
        shown = taken.hex(" ") if count <= 8 else f"{taken[:6].hex(' ')} .. {taken[-1:].hex()}"
        told = what(taken) if callable(what) else what
        self.lines.append(f"{self.at:>4}  {shown:<24}  {'│   ' * depth}{told}".rstrip())
        self.at += count
        return taken

    def number(self, depth, what):
        return value_of(self.take(4, depth, lambda it: what(value_of(it))))

    def header(self, depth, size):
        """A header: the length of the type, the type, the part's number, the counts of its parameters."""
        end = self.at + size
        length = self.take(1, depth, lambda it: f"the type has {it[0]} bytes")[0]
        self.take(length, depth, lambda it: it.decode())
        self.take(4, depth, lambda it: f"part {int.from_bytes(it, 'big')}")
        self.take(2, depth, lambda it: f"{it[0]} mandatory and {it[1]} advisory parameters")
        if self.at < end:
            self.take(end - self.at, depth, "the parameters")

    def payload(self, depth):
        while True:
            size = self.number(depth, told_of_chunk)
            if size == 0:
                return
            if size == -1:
                self.header(depth + 1, self.number(depth + 1, lambda it: f"a header of {it} bytes"))
                self.payload(depth + 1)
            else:
                self.take(size, depth, f"{size} bytes of the payload")

    def bundle(self):
        self.take(4, 0, "HG20")
        size = self.number(0, lambda it: f"stream parameters: {it} bytes" if it else "no stream parameters")
        if size:
            self.take(size, 0, "the stream parameters")
        while True:
            size = self.number(0, lambda it: f"a header of {it} bytes" if it else "end mark")
            if size == 0:
                return self.lines
            self.header(0, size)
            self.payload(0)


def told_of_chunk(size):
    if size == 0:
        return "the payload ends"
    if size == -1:
        return "an interruption: a whole part comes, and then the payload goes on"
    return f"a chunk of {size} bytes"


def picture():
    with open(BUNDLE, "rb") as file:
        lines = Drawing(file.read()).bundle()
    return "```\n" + "\n".join(lines) + "\n```\n"


def functions(crate):
    """The text of each function from its name to the next function, by its name."""
    found = {}
    for at, _, names in os.walk(f"{ROOT}/crates/{crate}/src"):
        for name in names:
            if name.endswith(".rt") and "tests" not in at:
                for head in re.finditer(r"\bfn (\w+)(.*?)(?=\bfn \w|\Z)", read(f"{at}/{name}"), re.S):
                    found.setdefault(head.group(1), []).append(head.group(2))
    return found


def fields(crate):
    text = ""
    for at, _, names in os.walk(f"{ROOT}/crates/{crate}/specs"):
        text += "".join(read(f"{at}/{name}") for name in names if name.endswith(".antt"))
    return set(re.findall(r"^\s+pub (\w+) :", text, re.M))


def lost(page):
    """The names of the page that no source has."""
    for crate, _, function, clauses in NAMED.findall(page):
        heads = functions(crate).get(function)
        if not heads:
            yield f"{crate} has no function {function}"
            continue
        for clause in re.findall(r"\w+", clauses):
            is_ensured = any(re.search(rf"\bensures {clause} ", head) for head in heads)
            if not is_ensured and clause not in fields(crate):
                yield f"{crate}: {function} promises no {clause}"


def drawn():
    """The page with the picture that the example gives."""
    page = read(PAGE)
    begin, end = page.index(BEGIN) + len(BEGIN), page.index(END)
    return page[:begin] + picture() + page[end:]


def committed():
    return {PAGE: drawn()}


def check():
    yield from lost(read(PAGE))
    if drawn() != read(PAGE):
        yield "docs/pictures.md is not what the example gives: make docs"
