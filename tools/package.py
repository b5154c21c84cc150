#!/usr/bin/env python3
"""Packs the built program: its manual, an installation, a Debian package.

    tools/package.py manual FOLDER PROGRAM..    writes hg_pushd(1) and the completions of bash, zsh and fish
    tools/package.py install PROGRAM            installs below $DESTDIR$PREFIX (PREFIX is /usr/local if left out)
    tools/package.py deb PROGRAM [FOLDER]       makes the Debian package, in build/ if no folder is given
    tools/package.py licenses FOLDER            copies the licenses of the libraries that the program is built of

PROGRAM is the built program. For the manual it may be `--compiled`: then it is compiled here without proofs.
"""
import os
import sys

import sources
from package import deb, install, manual


def main(words):
    command, count = words[0] if words else "", len(words)
    if command == "manual" and count >= 3:
        manual.write_all(words[1], words[2:])
    elif command == "install" and count == 2:
        install.install(words[1], os.environ.get("PREFIX") or "/usr/local", os.environ.get("DESTDIR", ""),
                        os.environ.get("ZSH_FUNCTIONS") or "site-functions")
    elif command == "deb" and count in (2, 3):
        made = deb.pack(os.path.abspath(words[1]), words[2] if count == 3 else f"{sources.ROOT}/build")
        print(f"The package is at {made.removeprefix(f'{sources.ROOT}/')}.")
    elif command == "licenses" and count == 2 and not words[1].startswith("-"):
        install.copy_licenses(words[1])
    else:
        print(__doc__.strip())
        return 2
    return 0


if __name__ == "__main__":
    sys.exit(main(sys.argv[1:]))
