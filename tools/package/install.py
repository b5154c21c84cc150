"""What an installation has: the program, its manual and completions, the mirror, units for systemd, examples, licenses.
"""
import glob
import os
import re
import shutil
import subprocess
import sys
import tempfile

import sources
from package import manual
from sources import ROOT, read, write

DOCUMENTS = "share/doc/deqtorap"
# units of several repositories: the unit that each is made of, and what stands there in the place of what
UNITS_OF_MANY = {
    "deqtorap-host@": ("deqtorap-host", {
        "push server\n": "push server of %i\n",
        "[Service]\n": "[Service]\nEnvironmentFile=/etc/deqtorap/%i.conf\n",
        "--store /var/lib/deqtorap/store --listen 127.0.0.1:8000 --hook http://127.0.0.1:8003/":
            "--store /var/lib/deqtorap/%i --listen 127.0.0.1:${PORT} --path /%i --hook http://127.0.0.1:${HOOK}/ "
            "$OPTIONS"}),
    "deqtorap-hook@": ("deqtorap-hook", {
        "Deqtorap hook:": "Deqtorap hook of %i:", "[Service]\n": "[Service]\nEnvironmentFile=/etc/deqtorap/%i.conf\n",
        "-R /var/lib/deqtorap-mirror/repository": "-R /var/lib/deqtorap-mirror/%i",
        "127.0.0.1:8003 --rules /etc/deqtorap/rules.py": "127.0.0.1:${HOOK} --rules /etc/deqtorap/%i.rules.py"}),
    "deqtorap-mirror@": ("deqtorap-mirror", {
        "Deqtorap mirror:": "Deqtorap mirror of %i:", "deqtorap-host.service": "deqtorap-host@%i.service",
        "-R /var/lib/deqtorap-mirror/repository": "-R /var/lib/deqtorap-mirror/%i",
        "--store /var/lib/deqtorap/store": "--store /var/lib/deqtorap/%i"}),
    "deqtorap-hgweb-all": ("deqtorap-hgweb", {
        "over the repository of the Deqtorap mirror": "over the repositories of all Deqtorap mirrors",
        "-R /var/lib/deqtorap-mirror/repository ": "", "--port 8001": "--port 8002 --web-conf /etc/deqtorap/hgweb.conf"}),
}
PAGES = ("README.md", "CHANGELOG.md", "SECURITY.md", "docs/operating.md", "docs/team.md", "mirror/README.md")


def put(mode, source, target):
    """Installs a file."""
    os.makedirs(os.path.dirname(target), exist_ok=True)
    shutil.copyfile(source, target)
    os.chmod(target, mode)


def put_text(text, target):
    write(target, text)
    os.chmod(target, 0o644)


def install(program, prefix, destination="", zsh="site-functions"):
    """Installs all below the prefix, in the destination. It needs no toolchain, except for the licenses of its
    libraries."""
    to = f"{destination}{prefix}"
    put(0o755, program, f"{to}/bin/hg_pushd")
    places = {"hg_pushd.1": "share/man/man1", "hg_pushd.bash": "share/bash-completion/completions",
              "_hg_pushd": f"share/zsh/{zsh}", "hg_pushd.fish": "share/fish/vendor_completions.d"}
    with tempfile.TemporaryDirectory() as made:
        manual.write_all(made, [os.path.abspath(f"{to}/bin/hg_pushd")])
        for name, place in places.items():
            put(0o644, f"{made}/{name}", f"{to}/{place}/{name.removesuffix('.bash')}")
    for module in ("mirror", "hook", "canonical", "incoming"):
        put(0o644, f"{ROOT}/mirror/{module}.py", f"{to}/share/deqtorap/{module}.py")
    put(0o755, f"{ROOT}/examples/import.sh", f"{to}/share/deqtorap/import.sh")

    def moved(path, place):
        """A file that names places below /usr/local, with the places of this installation."""
        put_text(read(path).replace("/usr/local/", f"{prefix}/"), f"{to}/{place}/{os.path.basename(path)}")

    for path in glob.glob(f"{ROOT}/contrib/systemd/*.service"):
        moved(path, "lib/systemd/system")
    for unit, (of, turned) in UNITS_OF_MANY.items():
        text = read(f"{ROOT}/contrib/systemd/{of}.service").replace("/usr/local/", f"{prefix}/")
        for old, new in turned.items():
            assert old in text, f"{of}.service has no {old!r}"
            text = text.replace(old, new)
        put_text(text, f"{to}/lib/systemd/system/{unit}.service")
    moved(f"{ROOT}/contrib/deqtorap", "bin")
    os.chmod(f"{to}/bin/deqtorap", 0o755)
    put(0o644, f"{ROOT}/contrib/systemd/deqtorap.sysusers", f"{to}/lib/sysusers.d/deqtorap.conf")
    for path in PAGES:
        put(0o644, f"{ROOT}/{path}", f"{to}/{DOCUMENTS}/{path}")
    examples = [*glob.glob(f"{ROOT}/contrib/hgrc.*"), *glob.glob(f"{ROOT}/contrib/nginx/*"),
                *glob.glob(f"{ROOT}/contrib/prometheus/*"), f"{ROOT}/mirror/rules.py"]
    for path in examples:
        moved(path, f"{DOCUMENTS}/examples")
    for name in ("LICENSE-MIT", "LICENSE-APACHE"):
        put(0o644, f"{ROOT}/{name}", f"{to}/{DOCUMENTS}/{name}")
    put(0o644, f"{ROOT}/mirror/COPYING", f"{to}/{DOCUMENTS}/mirror/COPYING")
    if shutil.which("rt"):
        copy_licenses(f"{to}/{DOCUMENTS}/libraries")
    else:
        print("The licenses of the libraries are not installed: the command rt is not on the path.", file=sys.stderr)


def libraries_named():
    """The libraries of the toolchain that the crates use, without what only tests use."""
    rows = sources.rows()
    for crate in sources.crates():
        uses = rows[crate].partition(":")[2].split()
        yield from (it for it in uses if it not in rows and it != "linked_list_allocator")


def libraries_used(library, libraries):
    """The libraries that the sources of one use."""
    for path in glob.glob(f"{libraries}/{library}/src/**/*.rt", recursive=True):
        if "tests" not in path:
            yield from re.findall(r"^(?:pub )?use (\w+)::", read(path), re.M)


def copy_licenses(to):
    """Copies the licenses of the libraries that the program is built of, and of those that these use in turn, each
    library's into a folder of its name."""
    page = subprocess.run(["rt", "doc"], check=True, capture_output=True, text=True).stdout.strip()
    libraries = f"{os.path.dirname(page)}/rattle"
    waiting, seen = set(libraries_named()), set()
    while waiting:
        library = waiting.pop()
        if library in seen or not os.path.isdir(f"{libraries}/{library}/src"):
            continue
        seen.add(library)
        waiting.update(libraries_used(library, libraries))
        for path in glob.glob(f"{libraries}/{library}/LICENSE*"):
            put(0o644, path, f"{to}/{library}/{os.path.basename(path)}")
