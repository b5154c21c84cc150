"""Lists that are made from where the fact stands.

On the pages docs/crates/*.md what each crate may use, its lists of modules and where to read on; the list of crates of
docs/architecture.md; and the pages of build/docs: definitions, examples, wrong bodies. The definitions come from
`specs/`: of each module its first lines, and of each word the comment above it. What a crate may use comes from
crates.txt, and what it is in the list of crates from the first sentence of its page. The examples come from the
comment above each test, the wrong bodies from the head of each edit.
"""
import os
import re
import textwrap

import sources
from wrong_bodies.edits import edits_of

ARCHITECTURE = f"{sources.ROOT}/docs/architecture.md"
HEAD = """# Definitions

The words that contracts speak with, crate by crate: of each module of `specs/` what it states, and of each word the
comment above it. `make docs` makes this page of the sources. `tools/documents/standard.txt` says which part of the
public standard a module states, and [the index](index.md) which clauses use a word."""
DEFINED = re.compile(r"^(?:\s*(?:abbrev|unfoldable) pub|pub record|pub data|pub(?! mod)|record pub) ([\w']+)")
TEST = re.compile(r"^#\[test\]$")
FUNCTION = re.compile(r"^(?:pub )?fn (\w+)")


def in_words(name):
    return name.replace("_", " ").strip()


def commented(lines, mark):
    """Each line that is no comment, with the comment that stands right above it."""
    kept = []
    for line in lines:
        text = line.strip()
        if text.startswith(mark):
            kept.append(text.lstrip(mark[0]).strip())
            continue
        yield line, " ".join(kept)
        # attributes stand between a comment and what it tells of
        if not text.startswith("#["):
            kept = []


def definitions(crate):
    """Of each module of a crate's definitions the first line, and a line for each word that has a comment."""
    folder = f"{sources.ROOT}/crates/{crate}/specs"
    for path in sources.files(folder, ".antt"):
        module = os.path.relpath(path, folder).removesuffix(".antt")
        lines = sources.read(path).splitlines()
        if module == "Lib" or module.startswith("code") or not lines:
            continue
        words = [(found[1], told) for line, told in commented(lines, "--") if told and (found := DEFINED.match(line))]
        yield f"\n### {crate} {module}\n"
        # the first comment of a file is on the module, where no word stands right below it
        if lines[0].startswith("--") and (not words or not words[0][1].startswith(lines[0].lstrip("- "))):
            yield wrapped(first_lines(path), "") + "\n"
        for word, told in words:
            yield wrapped(f"- `{word}`: {told}", "  ")


def wrapped(text, behind):
    """Text within the width of a page."""
    how = {"subsequent_indent": behind, "break_long_words": False, "break_on_hyphens": False}
    return "\n".join(textwrap.wrap(text, 110, **how))


def tests_of(crate):
    """The files that hold a crate's tests: those of a crate of tests, or what stands beside the code."""
    apart = f"{sources.ROOT}/crates/{crate}_tests/src"
    inside = f"{sources.ROOT}/crates/{crate}/src"
    yield from sources.files(apart, ".rt") if os.path.isdir(apart) else ()
    yield from (it for it in sources.files(inside, ".rt") if "/tests" in it)


def head(path):
    """What a file says of itself in its first lines."""
    for line in sources.read(path).splitlines():
        if not line.startswith("//!"):
            return
        yield line.removeprefix("//!").removeprefix(" ")


def examples(crate):
    """What each file of tests says of itself, and a line for each test: its name in words, and the comment
    above it."""
    for path in tests_of(crate):
        yield from ("", *head(path), "")
        is_test, told = False, ""
        for line, above in commented(sources.read(path).splitlines(), "//"):
            if TEST.match(line.strip()):
                is_test, told = True, above
            found = FUNCTION.match(line.strip())
            if found and is_test:
                yield f"- {in_words(found[1])}{': ' if told else '.'}{told}"
                is_test = False


def wrong_bodies(crate):
    """A line for each wrong body: its name in words, what it turns, and what refuses it."""
    for edit in edits_of(f"{sources.ROOT}/crates/{crate}"):
        told = f"- {in_words(edit.name)}: {edit.words}"
        yield f"{told} Refused by {edit.goal} of `{edit.function}`." if edit.function else f"{told} Not tried yet."


def made(head, told):
    """A page: its head, and what is told of each crate."""
    page = [head]
    for crate in sources.crates():
        lines = list(told(crate))
        if lines:
            page += ["", f"## {crate}", "", *lines]
    return re.sub(r"\n{3,}", "\n\n", "\n".join(page) + "\n")


def first_lines(path):
    """What a module of definitions says of itself in its first lines, up to one without words."""
    kept = []
    for line in sources.read(path).splitlines():
        if not line.startswith("--") or not line.strip("- "):
            break
        kept.append(line[2:].strip())
    return " ".join(kept)


def modules(crate, of_code):
    """A line for each module of a crate's definitions: those that contracts cite, or those of the code alone."""
    folder = f"{sources.ROOT}/crates/{crate}/specs"
    for path in sources.files(folder, ".antt"):
        module = os.path.relpath(path, folder).removesuffix(".antt")
        is_list = module == "Lib" or os.path.isdir(path.removesuffix(".antt"))
        if not is_list and module.startswith("code/") == of_code:
            told = f"- `{module.removeprefix('code/')}`: {first_lines(path)}"
            how = {"subsequent_indent": "  ", "break_long_words": False, "break_on_hyphens": False}
            yield "\n".join(textwrap.wrap(told, 110, **how))


# what a page says of the crates that its crate may use
USES = re.compile(r"\s*\bIt may use `[^.]*\.")
# the line above a list of modules, and whether they are those of the code
LISTS = (
    ("What a reader has to believe stands in `specs/`, a module for each matter:", False),
    ("No clause of a public call speaks of it:", True),
)


def with_uses(crate, text):
    """The page of a crate, with a second paragraph that names what it may use, if there is anything."""
    heading, first, rest = USES.sub("", text, count=1).split("\n\n", 2)
    names = sources.rows()[crate].partition(":")[2].split()
    if not names:
        return "\n\n".join((heading, first, rest))
    uses = wrapped(f"It may use {', '.join(f'`{it}`' for it in names)}.", "")
    return "\n\n".join((heading, first, uses, rest))


def read_on(crate):
    """The pages that have a part on a crate."""
    if f"\n## {crate}\n" in sources.read(f"{sources.ROOT}/bench/planted.md"):
        yield f"- [planted bodies](../../bench/planted.md#{crate})\n"
    yield "- [what its proof costs](../../bench/proof-costs.md)\n"
    yield "- each public call, with the wrong bodies that turn it and the tests that run it: `make docs`\n"


def page_path(crate):
    return f"{sources.ROOT}/docs/crates/{crate}.md"


def page_of(crate):
    """The page of a crate, with what it may use, its lists of modules and where to read on as the sources give them."""
    text = with_uses(crate, sources.read(page_path(crate)))
    for above, of_code in LISTS:
        before, found, after = text.partition(f"{above}\n\n")
        if found:
            _, rest = re.match(r"((?:- .*\n(?:  .*\n)*)*)([\s\S]*)", after).groups()
            text = before + found + "".join(f"{line}\n" for line in modules(crate, of_code)) + rest
    before, _, _ = text.partition("\n## Read on\n")
    return f"{before}\n## Read on\n\n{''.join(read_on(crate))}"


def pages():
    """What the pages of the crates are to be, by their crates."""
    return {it: page_of(it) for it in sources.rows() if os.path.exists(page_path(it))}


def architecture(told):
    """The page of the architecture, with the list of crates: of each the first sentence of its page."""
    lines = []
    for crate, text in told.items():
        first = re.search(r"\n\n(.*?\.)\s", text, re.S)[1].replace("\n", " ")
        begin = first[:1] if first[:2].isupper() else first[:1].lower()
        lines.append(wrapped(f"- `{crate}`: {begin}{first[1:]}", "  "))
    before, _, rest = sources.read(ARCHITECTURE).partition("<!-- crates -->\n")
    return "\n".join([f"{before}<!-- crates -->", *lines, f"<!-- end -->{rest.partition('<!-- end -->')[2]}"])


def committed():
    """What of the tree is made, by its path: the lists of the pages of crates and of the architecture."""
    of_crates = pages()
    return {ARCHITECTURE: architecture(of_crates)} | {page_path(crate): text for crate, text in of_crates.items()}


def beside():
    """What is made and not committed, by its name in build/docs."""
    return {
        "definitions.md": made(HEAD, definitions),
        "examples.md": made("# What the tests show, by the comments above them", examples),
        "wrong-bodies.md": made("# Wrong bodies, by the heads of the edits", wrong_bodies),
    }


def check():
    """What of the tree is not what the sources give, which crate has no page, and which wrong body no reason."""
    for crate in sources.crates():
        if not os.path.exists(page_path(crate)):
            yield f"there is no docs/crates/{crate}.md"
        for edit in edits_of(f"{sources.ROOT}/crates/{crate}"):
            if not edit.words:
                yield f"{crate}/wrong/{edit.name}.edit does not say what it turns"
    for path, text in committed().items():
        if sources.read(path) != text:
            yield f"{os.path.relpath(path, sources.ROOT)} is not what the sources give: make docs"
