"""A clean machine of its own for a test, and who types there.

It is the file system as it is, with all changes put aside, without /home, /opt, /root and the folder of the
sources. It has no other processes, and a network that is the loopback alone. Where systemd can run in it, units run under
systemd with all that they say; elsewhere `systemctl` and `journalctl` are played (tests/played). It goes away
with its last process, and changes nothing outside: kernel settings, clock and disks cannot be written there.
"""
import contextlib
import os
import pty
import re
import select
import shutil
import subprocess
import sys
import tempfile
import time

HERE = os.path.dirname(os.path.abspath(__file__))
PLACE = "/mnt/room"
PATH = f"{PLACE}/bin:/usr/sbin:/usr/bin:/sbin:/bin"
HIDDEN = (f"/{HERE.split('/')[1]}", "/home", "/opt", "/root")
ALONE = ["unshare", "--mount", "--net", "--pid", "--uts", "--ipc", "--cgroup", "--fork", "--kill-child"]
LESS = ["setpriv", "--bounding-set=-sys_time,-sys_module,-sys_rawio,-mknod,-syslog"]
CGROUPS = "/sys/fs/cgroup"
# What is wanted of systemd in the room: the journal, and the script.
UNITS = {
    "sysinit.target": "[Unit]\nDefaultDependencies=no\nWants=systemd-journald.service\n",
    "basic.target": "[Unit]\nRequires=sysinit.target\nAfter=sysinit.target\n",
    "room.target": "[Unit]\nRequires=basic.target room.service\nAfter=basic.target\nAllowIsolate=yes\n",
    "room.service": "[Unit]\nAfter=basic.target\n[Service]\nType=oneshot\n"
                    f"ExecStart=-/bin/sh -c 'cd / && {{}} > {PLACE}/told/said 2>&1; "
                    f"echo $? > {PLACE}/told/status; systemctl exit 0'\n",
}

# what a user types where a command asks
TYPED = [(r"[Uu]ser(?: ?name)?: ?$", "ann"), (r"[Pp]assword: ?$", "secret")]


def missing(tools):
    """What is not there, in words; nothing where all is."""
    if os.geteuid():
        return "it needs root, for a room of its own"
    for tool in (*tools, "unshare", "setpriv", "runuser", "useradd", "ip"):
        if not shutil.which(tool, path=PATH):
            return f"the command {tool} is not installed"
    with tempfile.TemporaryDirectory() as shared:
        if run(["true"], [], [], shared, has_systemd=False) != 0:
            return "no room of its own can be made here"
    return None


def has_systemd():
    """Whether systemd runs in a room."""
    with tempfile.TemporaryDirectory() as shared:
        tried = ["systemctl", "is-active", "basic.target"]
        return run(tried, [], [], shared, has_systemd=True, seconds=30) == 0


@contextlib.contextmanager
def cgroup():
    """A cgroup of the room's own, where there is the hierarchy of systemd."""
    for hierarchy in (f"{CGROUPS}/systemd", CGROUPS):
        if os.path.exists(f"{hierarchy}/cgroup.procs"):
            own = tempfile.mkdtemp(prefix="room-", dir=hierarchy)
            try:
                yield own
            finally:
                remove_cgroup(own)
            return
    yield None


def remove_cgroup(own):
    """Removes a cgroup as soon as its last process is gone."""
    for _ in range(100):
        for folder, _, _ in os.walk(own, topdown=False):
            with contextlib.suppress(OSError):
                os.rmdir(folder)
        if not os.path.exists(own):
            return
        time.sleep(0.1)


def run(words, files, hosts, shared, has_systemd, seconds=900):
    """Runs a command in a room, with these files in PLACE and these names of hosts; its status. What is there
    in PLACE/told is here in the folder `shared`, with what the command said."""
    nowhere = {name: subprocess.DEVNULL for name in ("stdin", "stdout", "stderr")}
    with cgroup() as own:
        made = subprocess.Popen(
            ["sh", "-c", 'test -z "$0" || echo $$ > "$0/cgroup.procs"; exec "$@"', own or "", *ALONE,
             sys.executable, __file__, "yes" if has_systemd else "no", shared, " ".join(words),
             " ".join(hosts), *files],
            start_new_session=True, **nowhere)
        try:
            made.wait(seconds)
        except subprocess.TimeoutExpired:
            pass
        finally:
            # with it all processes of the room end
            made.kill()
            made.wait()
        try:
            with open(f"{shared}/status", encoding="ascii") as file:
                return int(file.read())
        except (FileNotFoundError, ValueError):
            return 1


# Inside.

def mount(*words):
    subprocess.run(["mount", *words], check=True)


def overlay(shared):
    at = tempfile.mkdtemp(prefix="room-", dir=shared)
    mount("-t", "tmpfs", "none", at)
    for name in ("changed", "work", "root"):
        os.mkdir(f"{at}/{name}")
    mount("-t", "overlay", "overlay", "-o", f"lowerdir=/,upperdir={at}/changed,workdir={at}/work",
          f"{at}/root")
    return f"{at}/root"


def make(root, shared, files, hosts):
    os.makedirs(f"{root}{PLACE}/told")
    mount("--bind", shared, f"{root}{PLACE}/told")
    for file in files:
        shutil.copy(file, f"{root}{PLACE}/")
    os.chmod(f"{root}{PLACE}", 0o777)
    for hidden in (it for it in HIDDEN if os.path.isdir(f"{root}{it}")):
        mount("-t", "tmpfs", "none", f"{root}{hidden}")
    for folder in ("run", "tmp"):
        mount("-t", "tmpfs", "none", f"{root}/{folder}", "-o", f"mode={'1777' if folder == 'tmp' else '755'}")
    mount("-t", "proc", "proc", f"{root}/proc")
    mount("--bind", "-o", "ro", f"{root}/proc/sys", f"{root}/proc/sys")
    mount("-o", "remount,bind,ro", f"{root}/proc/sys")
    mount("-t", "sysfs", "-o", "ro", "sysfs", f"{root}/sys")
    devices(f"{root}/dev")
    with open(f"{root}/etc/hosts", "w", encoding="ascii") as file:
        file.write(f"127.0.0.1 localhost {' '.join(hosts)}\n")
    subprocess.run(["ip", "link", "set", "lo", "up"], check=True)


def devices(folder):
    mount("-t", "tmpfs", "none", folder, "-o", "mode=755")
    for name in ("null", "zero", "full", "random", "urandom", "tty"):
        with open(f"{folder}/{name}", "wb"):
            pass
        mount("--bind", f"/dev/{name}", f"{folder}/{name}")
    for name in ("pts", "shm"):
        os.mkdir(f"{folder}/{name}")
    mount("-t", "devpts", "devpts", f"{folder}/pts", "-o", "newinstance,ptmxmode=0666,mode=620")
    mount("-t", "tmpfs", "none", f"{folder}/shm", "-o", "mode=1777")
    os.symlink("pts/ptmx", f"{folder}/ptmx")
    os.symlink("/proc/self/fd", f"{folder}/fd")


def start_systemd(root, command):
    mount("-t", "tmpfs", "none", f"{root}{CGROUPS}", "-o", "mode=755")
    if os.path.exists(f"{CGROUPS}/systemd"):
        os.mkdir(f"{root}{CGROUPS}/systemd")
        mount("-t", "cgroup", "-o", "none,name=systemd", "cgroup", f"{root}{CGROUPS}/systemd")
    else:
        mount("-t", "cgroup2", "cgroup2", f"{root}{CGROUPS}")
    # only what is named here is started
    for place in ("lib", "etc"):
        for name in os.listdir(f"{root}/{place}/systemd/system"):
            if name.endswith(".wants"):
                shutil.rmtree(f"{root}/{place}/systemd/system/{name}")
    for name, text in UNITS.items():
        with open(f"{root}/etc/systemd/system/{name}", "w", encoding="ascii") as file:
            file.write(text.replace("{}", command))
    os.chroot(root)
    os.chdir("/")
    os.execvpe(LESS[0], [*LESS, "/lib/systemd/systemd", "--unit=room.target", "--show-status=false"],
               {"PATH": PATH, "container": "room"})


def play(root, command):
    shutil.copytree(f"{HERE}/played", f"{root}{PLACE}/bin", dirs_exist_ok=True)
    # one script plays both, by its name
    os.symlink("systemctl", f"{root}{PLACE}/bin/journalctl")
    os.chroot(root)
    os.chdir("/")
    with open(f"{PLACE}/told/said", "wb") as said:
        status = subprocess.run([*LESS, "sh", "-c", command], stdout=said, stderr=said, env={"PATH": PATH},
                                check=False).returncode
    with open(f"{PLACE}/told/status", "w", encoding="ascii") as file:
        file.write(str(status))


def inside(has_systemd, shared, command, hosts, *files):
    root = overlay(shared)
    make(root, shared, files, hosts.split())
    os.mkdir(f"{root}{PLACE}/bin")
    shutil.copy(f"{HERE}/played/apt-get", f"{root}{PLACE}/bin/")
    (start_systemd if has_systemd == "yes" else play)(root, command)


class Shell:
    """Somebody who types commands at a terminal, and stays in the folder that a command went to."""

    def __init__(self, user, home):
        self.user, self.folder = user, home
        self.words = ["runuser", "-u", user, "--"] if user != "root" else []
        self.environment = {"PATH": PATH, "LC_ALL": "C.UTF-8", "TERM": "dumb", "HOME": home, "USER": user}

    def type(self, command, seconds=60):
        """Runs a command at a terminal, and answers what it asks; its status, and what it said."""
        pid, terminal = pty.fork()
        if pid == 0:
            os.chdir(self.folder)
            script = f"{command}\nstatus=$?\npwd > {PLACE}/folder-{self.user}\nexit $status"
            os.execvpe("env", ["env", *self.words, "bash", "-c", script], self.environment)
        said = self.listen(terminal, time.time() + seconds)
        os.close(terminal)
        status = os.waitstatus_to_exitcode(os.waitpid(pid, 0)[1])
        if os.path.exists(f"{PLACE}/folder-{self.user}"):
            with open(f"{PLACE}/folder-{self.user}", encoding="utf-8") as file:
                self.folder = file.read().strip()
        return status, said.replace("\r", "")

    def listen(self, terminal, end):
        said = ""
        while time.time() < end:
            if not select.select([terminal], [], [], 0.1)[0]:
                continue
            try:
                piece = os.read(terminal, 65536)
            except OSError:
                break
            said += piece.decode("utf-8", "replace")
            for asks, answer in TYPED:
                if re.search(asks, said.rsplit("\n", 1)[-1]):
                    # what is typed before the echo is off would be dropped
                    time.sleep(0.3)
                    os.write(terminal, f"{answer}\n".encode())
                    said += "\n"
        return said


if __name__ == "__main__":
    inside(*sys.argv[1:])
