#!/usr/bin/env python3
"""The documents: what is made of the sources is made here, and what is written by hand is compared with them.

    tools/documents.py              `make docs`: brings the made parts of docs/crates/*.md, docs/architecture.md and
                                    docs/pictures.md up to date, and writes build/docs: index.md (from a clause to all
                                    that it rests on), definitions.md, examples.md, wrong-bodies.md
    tools/documents.py --check      fails where a made part is another one; on a link, a file or a heading that leads
                                    nowhere; on a row of a flow whose file or function is not there; on a heading of
                                    the public standard that does not exist; on a public function without a wrong
                                    body or an exception (documents/index-exceptions.txt), a word without a comment,
                                    and a public clause that uses a module of specs/code/; on a row of crates.txt that
                                    uses a crate below it
    tools/documents.py --headings   makes documents/standard-headings.txt, of the command `hg`
"""
import sys

import sources
from documents import flows, index, order, pages, paths, pictures, standard

TO = f"{sources.ROOT}/build/docs"
CHECKS = (order, pages, pictures, flows, standard, paths)


def make():
    for module in (pages, pictures):
        for path, text in module.committed().items():
            sources.write(path, text)
    text, missing = index.make()
    for name, page in {"index.md": text, **pages.beside()}.items():
        sources.write(f"{TO}/{name}", page)
    for line in missing:
        print(f"index: {line}")
    return 0


def check():
    found = [f"{it.__name__.rpartition('.')[2]}: {line}" for it in CHECKS for line in it.check()]
    found += [f"index: {line}" for line in index.make()[1]]
    print("\n".join([*found, f"documents: {len(found)} to mend"]))
    return 1 if found else 0


def main(words):
    asked = {"": make, "--check": check, "--headings": standard.make}.get(" ".join(words))
    if asked is None:
        print(__doc__.strip())
        return 2
    return asked()


if __name__ == "__main__":
    sys.exit(main(sys.argv[1:]))
