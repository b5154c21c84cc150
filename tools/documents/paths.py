"""Whether the files and headings that the documents name are there, and no line is too wide.

A name stands in code quotes or is the target of a link. It is looked for from the root, from the document's
own folder, and in the crate that the document or its section is of; in another crate only where the
paragraph names that crate, or where the section is of none. What a program makes (build/..) has to be named
by a script. What the documents call the toolchain is compared with toolchain.txt.
"""
import fnmatch
import functools
import glob
import os
import re

from sources import ROOT, read

WIDTH = 110
ENDINGS = "antt c csv edit hg20 md py rt sh toml txt"

FILE = re.compile(rf"^[\w*./+-]*\w\.({'|'.join(ENDINGS.split())})$")
FOLDER = re.compile(r"^(bench|build|crates|docs|examples|proofs|specs|src|tests|tools)/")
QUOTED = re.compile(r"`([^`\n]+)`")
LINK = re.compile(r"\]\(([^)]+)\)")
OF_CRATE = re.compile(r"\bhg_\w+")
TOOLCHAIN = re.compile(r"rattle-kit-\S+ logic \w+")


def documents():
    yield from ("README.md", "CONTRIBUTING.md", "SECURITY.md", "CHANGELOG.md", "mirror/README.md")
    for path in sorted([*glob.glob(f"{ROOT}/docs/**/*.md", recursive=True), *glob.glob(f"{ROOT}/bench/*.md")]):
        yield os.path.relpath(path, ROOT)


def slug(heading):
    """The anchor of a heading."""
    return re.sub(r"[^\w\- ]", "", heading.strip().lower()).replace(" ", "-")


def anchors(path):
    return {slug(heading) for heading in re.findall(r"^#+ (.*)$", read(path), re.M)}


def paragraphs(text):
    """The paragraphs of a document without its code: the line, the crate of the section if any, the words."""
    text = re.sub(r"```.*?```", lambda code: "\n" * code.group(0).count("\n"), text, flags=re.S)
    number, crate = 1, None
    for paragraph in re.split(r"(?<=\n)(?=\n)", text):
        heading = re.match(r"\s*#+ (.*)", paragraph)
        if heading:
            named = OF_CRATE.match(heading.group(1))
            crate = named.group(0) if named else None if heading.group(0).strip().startswith("## ") else crate
        if not re.match(r"\n?    ", paragraph):
            yield number, crate, paragraph
        number += paragraph.count("\n")


@functools.cache
def scripts():
    """The words of all scripts, which name what they make."""
    paths = [f"{ROOT}/Makefile", *glob.glob(f"{ROOT}/bench/**/*.sh", recursive=True), *glob.glob(f"{ROOT}/examples/*.sh"),
             *glob.glob(f"{ROOT}/tools/**/*.py", recursive=True)]
    return set(re.findall(r"[\w.+-]*\w", " ".join(map(read, paths))))


@functools.cache
def tree():
    """All files and folders of the repository below its top, and those that a proof or a build made left out."""
    found = []
    for place, folders, names in os.walk(ROOT):
        folders[:] = [it for it in folders if it not in (".git", "build", "out", "__pycache__")]
        found += [os.path.relpath(f"{place}/{it}", ROOT) for it in (*folders, *names)]
    return found


@functools.cache
def places(name):
    """Where in the repository a name stands, which may have stars."""
    name = os.path.normpath(name)
    if "*" in name:
        return fnmatch.filter(tree(), name) + fnmatch.filter(tree(), f"*/{name}")
    return [it for it in tree() if it == name or it.endswith(f"/{name}")]


def is_there(name, document, crate, words):
    """Whether a path leads to a file or a folder."""
    if name.startswith("build/"):
        return os.path.basename(name.rstrip("/")) in scripts()
    if any(glob.glob(f"{ROOT}/{start}/{name}") for start in (".", os.path.dirname(document))):
        return True
    for path in places(name):
        parts = path.split("/")
        of = parts[1].removesuffix("_tests") if parts[0] == "crates" else None
        if len(parts) > 1 and (None in (of, crate) or of == crate or of in OF_CRATE.findall(words)):
            return True
    return False


def faults_of_link(target, document):
    place, _, anchor = target.partition("#")
    path = os.path.normpath(f"{ROOT}/{os.path.dirname(document)}/{place}") if place else f"{ROOT}/{document}"
    if not os.path.exists(path):
        yield f"no {place}"
    elif anchor and anchor not in anchors(path):
        yield f"{os.path.relpath(path, ROOT)} has no heading #{anchor}"


def faults_of_toolchain(text):
    """Another name of the toolchain than the one that this tree is proved with."""
    for name in TOOLCHAIN.findall(text):
        if name not in read(f"{ROOT}/toolchain.txt"):
            yield 1, f"{name} is not the toolchain of toolchain.txt"


def faults(document):
    text = read(f"{ROOT}/{document}")
    yield from faults_of_toolchain(text)
    for number, crate, words in paragraphs(text):
        own = re.search(r"docs/crates/(hg_\w+)\.md", document)
        for quoted in QUOTED.findall(words):
            for name in quoted.split():
                looks = FILE.match(name) or FOLDER.match(name)
                if looks and not is_there(name, document, own.group(1) if own else crate, words):
                    yield number, f"no {name}"
        for target in LINK.findall(re.sub(r"\s+", " ", words)):
            if "://" not in target:
                yield from ((number, fault) for fault in faults_of_link(target, document))


def wide_lines(document):
    """Lines that are too wide, except in code and tables."""
    in_code = False
    for number, line in enumerate(read(f"{ROOT}/{document}").splitlines(), 1):
        in_code ^= line.startswith("```")
        if len(line) > WIDTH and not (in_code or line.startswith(("|", "    "))):
            yield number, f"{len(line)} characters"


def check():
    for document in documents():
        for number, fault in [*faults(document), *wide_lines(document)]:
            yield f"{document}:{number}: {fault}"
