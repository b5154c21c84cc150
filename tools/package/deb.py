"""The Debian package of the built program. It needs dpkg-deb, and no network."""
import gzip
import hashlib
import os
import re
import shutil
import subprocess
import tempfile

from package.install import DOCUMENTS, install, put
from sources import ROOT, files, read, write


def said(*words, folder=None):
    """What a command prints; nothing where it fails."""
    run = subprocess.run(words, capture_output=True, text=True, check=False, cwd=folder)
    return run.stdout.strip() if run.returncode == 0 else ""


def version_of(program):
    """The version of the program, and before a release the time and the name of the last commit."""
    version = said(program, "--version").partition(" ")[2]
    commit = said("git", "-C", ROOT, "log", "-1", "--format=%cd.%h", "--date=format:%Y%m%d%H%M%S")
    return f"{version}~{commit}" if commit else version


def compress(path, target):
    """Debian wants manuals and changes compressed."""
    with open(path, "rb") as source, open(target, "wb") as made:
        with gzip.GzipFile("", "wb", 9, made, 0) as packed:
            packed.write(source.read())
    os.chmod(target, 0o644)
    os.remove(path)


def needs(room, root):
    """What the program needs of the C library, by Debian's own tool where it is there."""
    if not shutil.which("dpkg-shlibdeps"):
        return "libc6"
    write(f"{room}/debian/control", "Source: deqtorap\n\nPackage: deqtorap\nArchitecture: any\n")
    found = said("dpkg-shlibdeps", "-O", f"{root}/usr/bin/hg_pushd", folder=room)
    return found.removeprefix("shlibs:Depends=") or "libc6"


def write_control(room, root, version, architecture):
    size = said("du", "-sk", "--apparent-size", f"{root}/usr").split()[0]
    told = {"VERSION": version, "ARCHITECTURE": architecture, "NEEDS": needs(room, root), "SIZE": size}
    control = re.sub(r"@(\w+)@", lambda it: told[it[1]], read(f"{ROOT}/contrib/debian/control"))
    write(f"{root}/DEBIAN/control", control)
    for name in ("postinst", "prerm"):
        put(0o755, f"{ROOT}/contrib/debian/{name}", f"{root}/DEBIAN/{name}")
    sums = []
    for path in files(f"{root}/usr", ""):
        with open(path, "rb") as file:
            sums.append(f"{hashlib.md5(file.read()).hexdigest()}  {os.path.relpath(path, root)}\n")
    write(f"{root}/DEBIAN/md5sums", "".join(sums))


def pack(program, folder):
    """Makes the package, which has what an installation has below /usr, and leaves it in the folder; its path."""
    if not shutil.which("dpkg-deb"):
        raise SystemExit("make deb needs dpkg-deb, of the package dpkg.")
    environment = dict(os.environ)
    # files have the time of the commit, so the same tree and program give the same package
    time = said("git", "-C", ROOT, "log", "-1", "--format=%ct")
    if time:
        environment.setdefault("SOURCE_DATE_EPOCH", time)
    with tempfile.TemporaryDirectory() as room:
        root, version, architecture = f"{room}/root", version_of(program), said("dpkg", "--print-architecture")
        install(program, "/usr", root, "vendor-completions")
        documents = f"{root}/usr/{DOCUMENTS}"
        compress(f"{root}/usr/share/man/man1/hg_pushd.1", f"{root}/usr/share/man/man1/hg_pushd.1.gz")
        compress(f"{documents}/CHANGELOG.md", f"{documents}/changelog.gz")
        put(0o644, f"{ROOT}/contrib/debian/copyright", f"{documents}/copyright")
        write_control(room, root, version, architecture)
        for at, _, _ in os.walk(root):
            os.chmod(at, 0o755)
        for path in (f"{root}/DEBIAN/control", f"{root}/DEBIAN/md5sums"):
            os.chmod(path, 0o644)
        os.makedirs(folder, exist_ok=True)
        package = f"{folder}/deqtorap_{version}_{architecture}.deb"
        subprocess.run(["dpkg-deb", "--root-owner-group", "--build", root, package], check=True,
                       stdout=subprocess.DEVNULL, env=environment)
    return package
