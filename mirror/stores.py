"""What check.py and refused.py share: stores, repositories, what a repository holds."""

import hashlib
import os
import shutil
import struct
import subprocess
import sys
import threading

HERE = os.path.dirname(os.path.abspath(__file__))
EXTENSION = os.path.join(HERE, "mirror.py")
LIMITS = (65536, 67108864, 268435456, 10000, 16777216, 1024, 2147483647)

SETTINGS = """\
[ui]
username = someone
[phases]
publish = no
[experimental]
evolution = all
[extensions]
mirror = {}
[mirror]
program = {}
[web]
allow-push = *
push_ssl = no
"""
# The program that follows stores, as `main` of a script was told it.
PROGRAM = "hg_pushd"


def sha1(data):
    return hashlib.sha1(data).digest()


OPEN = {1: b"\x01", 2: b"\xff"}
USER = b"ann"
# how many bytes of a record stand before its bundle
FRONT = {1: 25, 2: 34 + len(USER)}


def head(publishing=False, version=1):
    name = b"the name of this" if version == 2 else b""
    return struct.pack(">8sBB7I", b"HGPUSHES", version, publishing, *LIMITS) + name


def store(bundles, publishing=False, end=b"\0", version=1):
    """The bytes of a store. In version 2 each push is of the user, a second behind the one before."""
    found = head(publishing, version)
    digest = sha1(found)
    for number, bundle in enumerate(bundles):
        stamp = struct.pack(">QB", 1000 * number, len(USER)) + USER if version == 2 else b""
        length = struct.pack(">I", len(bundle))
        digest = sha1(digest + (length + stamp if version == 2 else b"") + sha1(bundle))
        found += OPEN[version] + length + stamp + digest + bundle
    return found + end


def write(folder, data):
    os.makedirs(folder, exist_ok=True)
    with open(f"{folder}/pushes", "wb") as file:
        file.write(data)


# What runs the commands of clients: CLIENT of the environment may be chg, which runs them in a process that was
# started before, and so in a quarter of the time. What is tried here, and servers, are run by hg itself.
CLIENT = os.environ.get("CLIENT", "hg")
BY_HG = ("mirror", "serve", "recover")


class Place:
    """A folder with settings of its own, in which `hg` is run."""

    def __init__(self, folder):
        self.folder = folder
        with open(f"{folder}/hgrc", "w", encoding="utf-8") as file:
            file.write(SETTINGS.format(EXTENSION, PROGRAM))
        self.environment = {
            "PATH": os.environ["PATH"], "HGRCPATH": f"{folder}/hgrc", "HGPLAIN": "1", "LC_ALL": "C.UTF-8",
            "HOME": folder, "PYTHONDONTWRITEBYTECODE": "1", "CHGSOCKNAME": f"{folder}/chg", "CHGTIMEOUT": "120",
        }

    def start(self, *words, **more):
        return subprocess.Popen(["hg", *words], cwd=self.folder, env=self.environment, stdin=subprocess.DEVNULL,
                                stdout=subprocess.PIPE, stderr=subprocess.STDOUT, **more)

    def run(self, *words, given=None):
        """The status of `hg` and what it said."""
        command = "hg" if words[0] in BY_HG else CLIENT
        done = subprocess.run([command, *words], cwd=self.folder, env=self.environment, input=given or b"",
                              stdout=subprocess.PIPE, stderr=subprocess.STDOUT, check=False)
        return done.returncode, done.stdout.decode("utf-8", "replace")

    def hg(self, *words, statuses=(0,)):
        status, said = self.run(*words)
        if status not in statuses:
            raise SystemExit(f"hg {' '.join(words)}: status {status}\n{said}")
        return said

    def repository(self, name, publishing=False):
        self.hg("init", name)
        if publishing:
            with open(f"{self.folder}/{name}/.hg/hgrc", "w", encoding="utf-8") as file:
                file.write("[phases]\npublish = yes\n")
        return name

    def state(self, name):
        """The lines of what a repository holds: changesets in order with phases, bookmarks, markers."""
        return (self.hg("log", "--hidden", "-R", name, "-r", "all()", "-T", "{node} {phase} {branch} {desc}\n")
                + self.hg("bookmarks", "-R", name, "-T", "bookmark {bookmark} {node}\n")
                .replace("no bookmarks set\n", "")
                + self.hg("debugobsolete", "-R", name)).splitlines()

    def mirror(self, repository, folder, *more):
        """Mirrors all of a store, with settings that would drop markers and take what is not whole."""
        return self.run("mirror", "-R", repository, "--store", folder, "--once", "--config",
                        "experimental.evolution=", "--config", "server.validate=no", *more)

    def count(self, repository):
        """How many pushes a repository says that it has; None where the number is just being rolled back: then the
        file is taken away, and written anew."""
        try:
            with open(f"{self.folder}/{repository}/.hg/store/pushes-mirrored", encoding="ascii") as file:
                return int(file.read().split()[0])
        except FileNotFoundError:
            return None if os.path.exists(f"{self.folder}/{repository}/.hg/store/journal") else 0
        except IndexError:
            return None


class Results:
    """What was seen as wanted, and what was not."""

    def __init__(self, name):
        self.name, self.good, self.bad, self.lock = name, 0, 0, threading.Lock()

    def see(self, what, is_good, why=""):
        with self.lock:
            self.good += bool(is_good)
            self.bad += not is_good
        if not is_good:
            print(f"{self.name}: {what}: not as wanted. {why}".rstrip())

    def same(self, what, found, wanted):
        lines = [f"- {line}" for line in wanted if line not in found]
        lines += [f"+ {line}" for line in found if line not in wanted]
        self.see(what, found == wanted, "\n".join(lines[:20]) or "other order")

    def end(self, words):
        print(f"{self.name}: {words}: {self.good} as wanted, {self.bad} not")
        sys.exit(1 if self.bad else 0)


def skip_without_hg(name):
    if not shutil.which("hg"):
        print(f"{name}: skipped, the command hg is not installed")
        sys.exit(0)
