#!/usr/bin/env python3
"""Runs every command of docs/team.md, in its order, from a clean state.

    python3 tests/team.py PROGRAM

It makes the Debian package of the program, and a clean machine of its own (tests/room.py). There the commands
of the page run as they stand, root's and a user's, who types names and passwords at a terminal. After each
section it looks at what the section promised, and in the end at what the page says beside its commands. It needs
root, Linux's overlay and namespaces, and the packages mercurial, nginx, openssl, curl and systemd. Where one is missing
it says so, and nothing is tried.

`apt-get install` is played (tests/played), as there is no network: it says whether the packages are there. So
are `systemctl` and `journalctl` where systemd cannot run, or with --played after the program.
"""
import base64
import glob
import http.client
import json
import os
import re
import shutil
import signal
import socket
import ssl
import subprocess
import sys
import tempfile
import threading
import time

import room
from room import Shell

TOP = os.path.dirname(os.path.dirname(os.path.abspath(__file__)))
PAGE = f"{TOP}/docs/team.md"
REPOSITORY = "/var/lib/deqtorap-mirror/repository"
STORE = "/var/lib/deqtorap/store"
CURL = "curl -s --cacert /etc/ssl/certs/hg.example.org.pem"
# a push by hand, of the bundle that Mercurial takes
PUSH = f"curl -s --data-binary @{room.PLACE}/plain.hg20 -H 'content-type: application/mercurial-0.1'"
UNBUNDLE = "cmd=unbundle&heads=666f726365"
ONLY_STATUS = "-o /dev/null -w '%{http_code}'"
# an id, its phase, and whether it is obsolete, as a report has them
EXTRA = []
MAIN = "team.py"
ROW = "{node} {ifeq(phase, 'public', 0, ifeq(phase, 'draft', 1, 2))} {ifeq(obsolete, 'obsolete', 1, 0)}\\n"


def commands(text):
    """The commands of the page: the section, who types it (# is root, $ a user), and the command."""
    section, found = "", []
    for line in text.splitlines():
        heading = re.match(r"#+ (.*)", line)
        typed = re.match(r"    ([#$]) (.*)", line)
        if heading:
            section = heading[1]
        elif typed:
            found.append([section, typed[1], typed[2]])
        elif found and found[-1][2].endswith("\\"):
            found[-1][2] += f"\n{line}"
    return found


class Trial:
    """The page, run from its first command to its last."""

    def __init__(self):
        self.root = Shell("root", "/root")
        self.user = Shell("ann", "/home/ann")
        self.good, self.bad, self.said = 0, 0, ""

    def see(self, what, is_good, why=""):
        self.good += bool(is_good)
        self.bad += not is_good
        print(f"  {'as wanted' if is_good else 'NOT AS WANTED'}: {what}", flush=True)
        if not is_good:
            print(why)

    def mirrored(self):
        """How many pushes the mirror has."""
        try:
            with open(f"{REPOSITORY}/.hg/store/pushes-mirrored", encoding="ascii") as file:
                return int(file.read().split()[0])
        except (FileNotFoundError, IndexError):
            # it is empty for a moment where what was not finished is rolled back
            return 0

    def has_mirrored(self, pushes, changesets):
        """Waits for the mirror; its changesets then are those of the server's report, in their order."""
        end = time.time() + 20
        while self.mirrored() < pushes and time.time() < end:
            time.sleep(0.02)
        found = self.mirrored()
        self.see(f"the mirror has {pushes} pushes", found == pushes, f"{found}\n{self.said}")
        _, told = self.root.type(f"hg_pushd report --store {STORE}")
        report = [line.split()[2:5] for line in told.splitlines() if line.startswith("C ")]
        _, told = self.root.type(f"runuser -u deqtorap-mirror -- hg -R {REPOSITORY} --config "
                                 f"experimental.evolution=all log --hidden -r 'all()' -T \"{ROW}\"")
        mirror = [line.split() for line in told.splitlines() if line]
        self.see(f"report and mirror have the same {changesets} changesets",
                 report == mirror and len(report) == changesets, f"{report}\n{mirror}")

    def patient(self, by, command):
        """Runs a command, and again where a server that was started just now does not listen yet."""
        for _ in range(20):
            status, said = by.type(command)
            if "Connection refused" not in said:
                break
            time.sleep(0.25)
        return status, said

    def answers(self, what, command, wanted, by=None):
        _, told = self.patient(by or self.root, command)
        self.see(what, wanted in told, told[-2000:])

    # What each section promises.

    def after_start_the_push_server(self):
        self.see("the server is there and empty", "000000000000" in self.said, self.said)

        status, told = self.root.type(f"{PUSH} 'http://127.0.0.1:8000/?{UNBUNDLE}'")
        self.see("it takes no push before the hook runs", "the hook did not answer" in told, told)

    def after_start_the_mirror_the_hook_and_hgweb(self):
        self.answers("hgweb serves the mirror", "hg identify http://127.0.0.1:8001/", "000000000000")

    def after_names_and_a_certificate(self):
        shutil.copy("/etc/ssl/certs/hg.example.org.pem", "/home/ann/")

    def after_two_addresses(self):
        self.has_mirrored(3, 3)
        self.answers("the clone has what was amended", "hg log -T '{desc} {phase}\\n'", "two, amended draft",
                     self.user)
        self.answers("a new clone has it too", "hg clone -q https://hg.example.org/ ~/again && "
                     "hg -R ~/again log -T '{desc}\\n'", "two, amended", self.user)
        for address in ("hg.example.org", "push.example.org"):
            self.answers(f"{address} wants a name", f"{CURL} {ONLY_STATUS} 'https://{address}/?cmd=heads'",
                         "401")
        status, told = self.user.type("hg push http://127.0.0.1:8001/")
        self.see("hgweb takes no pushes", status, told)

    def after_one_address(self):
        self.has_mirrored(4, 4)
        self.answers("the clone has what it pushed", "hg log -r tip -T '{desc} {phase}\\n'", "three draft",
                     self.user)
        silent = Silent()
        silent.start()
        self.pulls_before_the_mirror()
        self.slow_bodies_of_one_user()
        self.who_may_only_read()
        silent.join()
        self.see("a body that says nothing is ended after 30 seconds", silent.took and 25 < silent.took < 55,
                 silent.took)
        self.answers("a branch is cloned by its name", "hg clone -q -r default https://hg.example.org/ ~/named && "
                     "hg -R ~/named pull -r tip && hg -R ~/named log -r tip -T '{desc}\\n'", "more", self.user)
        self.answers("the web page is hgweb's", f"{CURL} -u ann:secret https://hg.example.org/", "three")
        self.answers("a wrong password is refused",
                     f"{CURL} {ONLY_STATUS} -u ann:wrong 'https://hg.example.org/?cmd=heads'", "401")

    def slow_bodies_of_one_user(self):
        """24 pushes whose bodies come slowly, beside the silent one: 16 are served, and the others refused at once."""
        slow = (f"{CURL} --max-time 4 --limit-rate 100 -u ann:secret -H 'content-type: application/mercurial-0.1' "
                f"--data-binary @/tmp/slow {ONLY_STATUS} 'https://hg.example.org/?cmd=unbundle&heads=666f726365'")
        _, told = self.root.type("head -c 1000000 /dev/zero > /tmp/slow; for _ in $(seq 24); do "
                                 f"({slow}; echo) & done; wait")
        self.see("a user has sixteen requests at one time", 1 <= told.count("429") <= 9, told)
        others = [connected() for _ in range(24)]
        for it in others:
            it.sendall(beginning_of_push("Basic " + base64.b64encode(b"ann:wrong").decode()))
        _, told = self.root.type(f"{CURL} -u ann:secret {ONLY_STATUS} 'https://hg.example.org/?cmd=heads'")
        self.see("somebody without the password takes none of them", told.endswith("200"), told)
        for it in others:
            it.close()

    def who_may_only_read(self):
        """No query of a user who may only read is a push, however it is written."""
        self.root_types('echo "eve:$(openssl passwd -6 secret)" >> /etc/nginx/deqtorap.users',
                        "echo 'eve 1;' > /etc/nginx/deqtorap.readers", "systemctl reload nginx; sleep 1")
        self.answers("who may only read reads", f"{CURL} -u eve:secret 'https://hg.example.org/?cmd=heads'", " ")
        for query in (UNBUNDLE, f"CMD=heads&{UNBUNDLE}", f"{UNBUNDLE}&CMD=heads", f"cmd=heads&{UNBUNDLE}",
                      f"{UNBUNDLE}&cmd=heads", UNBUNDLE.replace("cmd", "Cmd"), UNBUNDLE.replace("cmd", "%63md"),
                      UNBUNDLE.replace("unbundle", "unbundl%65"), UNBUNDLE.replace("unbundle", "UNBUNDLE"),
                      f"x=;{UNBUNDLE}", f"x=1&{UNBUNDLE}", f"cmd=getbundle&{UNBUNDLE}", f"&{UNBUNDLE}", f"?{UNBUNDLE}",
                      UNBUNDLE.replace("&", ";"), UNBUNDLE.replace("cmd=", "cmd=+"), "cmd=pushkey"):
            _, told = self.root.type(f"{PUSH.replace('curl -s', CURL)} -u eve:secret -w ' %{{http_code}}' "
                                     f"'https://hg.example.org/?{query}'")
            # the hook refuses it by this line: then it was asked
            self.see(f"who may only read does not push by {query}", "heads in the place" not in told
                     and re.search(r" (4\d\d|200)$", told), told)
        _, told = self.root.type(f"{PUSH.replace('curl -s', CURL)} -u ann:secret 'https://hg.example.org/?{UNBUNDLE}'")
        self.see("the hook is asked of another's push, and refuses it", "heads in the place" in told, told)

    def pulls_before_the_mirror(self):
        """A pull before the mirror waits, and is refused: it is never less than what was asked for."""
        self.root.type("systemctl stop deqtorap-mirror")
        self.user.type("hg clone -q https://hg.example.org/ ~/late && hg -R ~/late tag --local late")
        status, told = self.user.type("echo 'three and more' > file && hg commit -m more && hg push")
        self.see("another clone pushes", status == 0, told)
        status, told = self.user.type("hg -R ~/late pull")
        self.see("a pull before the mirror ends with an error", status == 255 and "not mirrored yet" in told, told)
        self.root.type("systemctl start deqtorap-mirror")
        self.has_mirrored(5, 5)
        self.answers("a pull after it gets the rest", "hg -R ~/late pull", "added 1 changesets", self.user)

    def after_look_after_it(self):
        self.see("the report, the log and a sound repository were printed",
                 all(it in self.said for it in ("C 4 ", "J 4", "three", "checked 5 changesets")), self.said)
        self.alerts_name_what_is_told()

    def after_the_hook_and_its_rules(self):
        self.see("the journal of the hook has a line for each push", "200 may run" in self.said, self.said)
        self.hook_listens()
        commit = "cd ~/other && echo x > server.pem && hg commit -A -m key"
        status, told = self.user.type(f"{commit} && hg push")
        self.see("the rules refuse a path", status == 255 and "server.pem does not belong here (*.pem)" in told, told)
        self.user.type("hg strip --config extensions.strip= -r tip && rm -f server.pem")
        self.root_types("systemctl stop deqtorap-hook")
        status, told = self.user.type("hg bookmark --rev tip mark && hg push -B mark")
        self.see("without the hook no push runs", status == 255 and "the hook did not answer" in told, told)
        self.answers("pulls do", "hg pull && echo pulled", "pulled", self.user)
        self.root_types("systemctl start deqtorap-hook")
        self.hook_listens()
        self.user.type("hg bookmark --delete mark")

    def hook_listens(self):
        self.answers("the hook listens", "curl -s --retry 100 --retry-connrefused --retry-delay 1 "
                     "http://127.0.0.1:8003/ > /dev/null; echo $?", "0")

    def after_what_users_ask(self):
        """What largefiles and lfs say; neither is pushed."""
        for words, told in ((("largefiles", "hg add --large big"), "does not appear to be a largefile store"),
                            (("lfs", "hg add big"), "required features are not supported in the destination: lfs")):
            status, said = self.user.type(
                f"hg init ~/{words[0]} && cd ~/{words[0]} && "
                f"printf '[extensions]\n{words[0]} =\n[lfs]\ntrack = all()\n' "
                f"> .hg/hgrc && echo big > big && {words[1]} && hg commit -m big && hg push http://127.0.0.1:8000/")
            self.see(f"a push with {words[0]}", status == 255 and told in said, said)
        self.user.type("cd ~/other")

    def alerts_name_what_is_told(self):
        """Each number that an alert goes by is told by the server or the mirror."""
        _, told = self.root.type("curl -s http://127.0.0.1:8000/metrics")
        named = set(re.findall(r"hg_\w+", read("/usr/share/doc/deqtorap/examples/deqtorap.rules.yml").decode()))
        unknown = [it for it in named - {"hg_mirror_pushes"} if f"\n{it}" not in f"\n{told}"]
        self.see("alerts go by numbers that are told", named and not unknown, unknown)

    def unit_of_host(self, *changes):
        """Has the push server run by a unit that is changed by these commands of sed; by the package's where there are
        none."""
        unit = "/etc/systemd/system/deqtorap-host.service"
        self.root_types("systemctl stop deqtorap-host", f"rm -f {unit}",
                        *([f"cp /lib/systemd/system/deqtorap-host.service {unit}"] if changes else []),
                        *(f"sed -i '{it}' {unit}" for it in changes), "systemctl daemon-reload",
                        "systemctl start deqtorap-host")

    def before_when_the_mirror_stops(self):
        """A push by hand that Mercurial refuses, and one after it that it takes, to a server without a hook."""
        push = "--retry 20 --retry-connrefused --retry-delay 1 'http://127.0.0.1:8000/?" + UNBUNDLE + "'"
        refused = PUSH.replace("plain", "refused")
        self.answers("the hook refuses a push that Mercurial does", f"{refused} {push}", "has another hash")
        self.unit_of_host("/^ExecStart=/s|--hook [^ ]*||")
        self.answers("without a hook the server takes it", f"{refused} {push} | head -c 4", "HG20")
        self.answers("and one behind it", f"{PUSH} {push} | head -c 4", "HG20")
        time.sleep(1)
        self.see("the mirror stays at the five before", self.mirrored() == 5)
        self.unit_of_host()
        status, told = self.user.type("hg clone -q -U http://127.0.0.1:8001/ ~/less")
        self.see("a clone would be less, and is refused", status == 255 and "2 pushes are not mirrored yet" in told,
                 told)

    def after_when_the_mirror_stops(self):
        self.see("the journal has the place and the reason", "Mercurial refuses push 5: " in self.said,
                 self.said)
        looked_at = sorted(os.listdir("/root/pushes-from-5"))
        self.see("what would be lost was looked at", looked_at == ["0000000005", "0000000006"], looked_at)
        parts = [read(f"/root/pushes-from-5/{it}") for it in looked_at]
        self.see("what was cut is kept", read(f"{STORE}/pushes.cut-5") == b"".join(parts))
        status, said = self.user.type("cd ~/other && echo four > file && hg commit -m four && hg push")
        self.see("the clone pushes again", status == 0, said)
        self.has_mirrored(6, 6)

    def after_several_repositories(self):
        """Twelve of them; then the site of before again."""
        self.see("both are listed", "first: port 8100, 1 pushes" in self.said
                 and "second: port 8101, publishing, 0 pushes, 0 mirrored" in self.said, self.said)
        names = [f"number{number}" for number in range(10)]
        self.root_types(*(f"deqtorap create {name}" for name in names))
        for name in ("second", *names):
            status, told = self.user.type(
                f"hg clone -q https://hg.example.org/{name} ~/{name} && cd ~/{name} && echo {name} > file && "
                f"hg commit -q -A -m {name} && hg push -q && hg pull -q && hg phase -r tip")
            phase = "0: public" if name == "second" else "0: draft"
            self.see(f"{name} is cloned, pushed to and pulled from", status == 0 and phase in told, told)
        self.answers("all are mirrored", "for _ in 1 2 3 4 5 6 7 8 9 10; do deqtorap doctor && break; sleep 1; done",
                     "12 repositories, nothing found")
        self.answers("each has its own push", "deqtorap list | grep -c '1 pushes, 1 mirrored$'", "12")
        self.attacks("number8")
        self.of_another_machine()
        status, told = self.user.type("cd ~/first && echo two > file && hg commit -q -m two && "
                                      "hg push https://hg.example.org/first/sub")
        self.see("a push below a name is refused", status == 255 and "404" in told, told)
        status, told = self.user.type("cd ~/first && hg push https://hg.example.org/nobody")
        self.see("a push to no repository is refused", status == 255 and "404" in told, told)
        self.root_types("systemctl stop deqtorap-mirror@first")
        status, told = self.user.type("cd ~/first && hg push -q")
        self.see("a push goes on without the mirror", status == 0, told)
        status, told = self.root.type("deqtorap doctor")
        self.see("doctor finds it", status == 1 and "first: 1 pushes are not mirrored" in told, told)
        self.root_types("systemctl start deqtorap-mirror@first", "deqtorap remove number9")
        status, told = self.root.type("deqtorap create first")
        self.see("a name is not given twice", status == 1 and "first is there" in told, told)
        status, told = self.root.type("deqtorap create ../first")
        self.see("a path is no name", status == 1, told)
        self.root_types("deqtorap create number9")
        self.answers("what was removed is taken up again", "sleep 1; deqtorap list | grep number9", "1 pushes, 1 mirrored")
        settings = "/var/lib/deqtorap-mirror/second/.hg/hgrc"
        self.root_types("systemctl stop deqtorap-hook@second deqtorap-host@number0",
                        f"sed -i 's/publish = yes/publish = no/' {settings}",
                        "mv /var/lib/deqtorap-mirror/number1/.hg/hgrc /tmp/",
                        "sed 's/number2/twin/' /etc/deqtorap/number2.conf > /etc/deqtorap/twin.conf")
        status, told = self.root.type("deqtorap doctor")
        for fault in ("second: its hook does not answer at port 9101",
                      "number0: its server does not answer at 127.0.0.1:8102",
                      "second: its server and its mirror differ in whether they publish",
                      "number1: /var/lib/deqtorap-mirror/number1 has no settings",
                      "twin: its address is that of number2"):
            self.see(f"doctor finds: {fault}", status == 1 and fault in told, told)
        self.root_types(f"sed -i 's/publish = no/publish = yes/' {settings}", "rm /etc/deqtorap/twin.conf",
                        "mv /tmp/hgrc /var/lib/deqtorap-mirror/number1/.hg/",
                        "systemctl start deqtorap-hook@second deqtorap-host@number0")

    def before_an_old_repository(self):
        """Two of them, with branches, a merge and a bookmark, public and draft changesets."""
        made = ("hg init {0} && hg -R {0} debugbuilddag -n '+30:a @one +20 <a @two +10 /a' && hg -R {0} phase -p 20 && "
                "hg -R {0} bookmark -r 5 'a mark'")
        for by, place in ((self.root, "/srv/third"), (self.user, "~/fourth")):
            status, told = by.type(made.format(place))
            self.see(f"{place} is made", status == 0, told)

    def after_an_old_repository(self):
        """A clone of each has what is there; then the site of before again."""
        rows = "-T '{node} {phase} {bookmarks}\\n'"
        for name, place, by in (("third", "/srv/third", self.root), ("fourth", "~/fourth", self.user)):
            _, wanted = by.type(f"hg -R {place} log {rows}")
            clone = f"rm -rf ~/back && hg clone -q -U https://hg.example.org/{name} ~/back && hg -R ~/back log {rows}"
            for _ in range(20):
                _, told = self.user.type(clone)
                if told == wanted:
                    break
                time.sleep(1)
            self.see(f"a clone of {name} has it all", told == wanted and wanted.count("\n") == 61, f"{told}\n{wanted}")
        self.answers("all are mirrored", "for _ in 1 2 3 4 5; do deqtorap doctor && break; sleep 1; done", "nothing found")
        self.root_types("rm /etc/nginx/sites-enabled/deqtorap-many.conf",
                        "ln -s ../sites-available/deqtorap-one.conf /etc/nginx/sites-enabled/",
                        "systemctl reload nginx")

    def of_another_machine(self):
        """A name that leads to a push server and an hgweb at other ports."""
        self.user.type("hg init ~/far.mirror && hg -R ~/far.mirror serve --prefix far -a 127.0.0.1 -p 9901 -d; "
                       "setsid hg_pushd host --store ~/far.store --listen 127.0.0.1:8112 --path /far "
                       "< /dev/null > /dev/null 2>&1 & sleep 2")
        self.root_types("deqtorap create far --at 127.0.0.1:8112 127.0.0.1:9901")
        status, told = self.user.type("hg init ~/far && cd ~/far && echo far > file && hg commit -A -m far && "
                                      "hg push https://hg.example.org/far && hg identify http://127.0.0.1:8112/far")
        self.see("a push to another machine", status == 0 and "(draft)" not in told, told)
        self.answers("its pushes are listed", "deqtorap list", "far: at 127.0.0.1:8112, 1 pushes")
        self.answers("it is pulled from there",
                     f"{CURL} -u ann:secret 'https://hg.example.org/far?cmd=capabilities' && "
                     f"{CURL} -u ann:secret https://hg.example.org/far/log", "/far/graph/tip")
        status, told = self.root.type("deqtorap create other --at nowhere 127.0.0.1:1")
        self.see("an address that is none", status == 1 and "no HOST:PORT" in told, told)
        self.root_types("deqtorap remove far", "deqtorap create extra")
        self.answers("a port that somebody has is not taken", "deqtorap list", "extra: port 8113, 0 pushes")
        self.root_types("deqtorap remove extra")

    def attacks(self, name):
        """Each way to stop or mislead the mirror (tests/hook.py), through nginx and the hook: those that it refuses
        are not done, and the mirror goes on with all that are."""
        attacker = Attacker(name)
        with open(f"{room.PLACE}/attacks.json", encoding="utf-8") as file:
            found = json.load(file)
        for data in found["before"]:
            self.see("what they build on is pushed", attacker.push(bytes.fromhex(data)), attacker.said)
        came_through = []
        # what is harmless comes last: with it the changeset of the others would be there
        for what, is_refused, data in sorted(found["rows"], key=lambda it: not it[1]):
            if attacker.push(bytes.fromhex(data)) and is_refused:
                came_through.append(what)
        self.see(f"{len(found['rows'])} pushes to stop or mislead the mirror", not came_through, came_through)
        self.answers("the mirror has all that were done", f"sleep 3; deqtorap list | grep {name}",
                     f"{attacker.done} pushes, {attacker.done} mirrored")
        mirror = f"runuser -u deqtorap-mirror -- hg -R /var/lib/deqtorap-mirror/{name}"
        status, told = self.root.type(f"{mirror} verify")
        self.see("it is sound", status == 0, told)
        status, told = self.user.type(f"cd ~/{name} && hg pull && echo behind > behind && hg commit -A -m behind && "
                                      f"hg push && hg clone https://hg.example.org/{name} ~/attacked && "
                                      "hg -R ~/attacked verify && hg -R ~/attacked log -r tip")
        self.see("others push, pull and clone behind them", status == 0 and "behind" in told, told)

    # What the text says beside the commands.

    def root_types(self, *commands):
        for command in commands:
            status, said = self.root.type(command)
            self.see(f"# {command}", status == 0, said)

    def begin_anew(self):
        """A repository for the mirror in the place of the one before, by the page's own commands."""
        made = [command for section, _, command in self.typed if section == "Start the mirror, the hook and hgweb"]
        self.root_types("systemctl stop deqtorap-mirror deqtorap-hgweb",
                        f"rm -rf {REPOSITORY}", *made[:-1], "systemctl start deqtorap-mirror deqtorap-hgweb")

    def journal_has(self, words):
        """Waits for words in the mirror's journal; it is started again after five seconds."""
        end = time.time() + 20
        told = ""
        while words not in told and time.time() < end:
            time.sleep(0.5)
            _, told = self.root.type("journalctl -u deqtorap-mirror -n 20")
        self.see(f"the journal has: {words}", words in told, told)

    def try_cut_of_what_was_mirrored(self):
        self.root_types("systemctl stop deqtorap-host",
                        f"runuser -u deqtorap -- hg_pushd cut --store {STORE} --at 4",
                        "systemctl start deqtorap-host")
        self.journal_has("6 pushes were mirrored here")
        self.begin_anew()
        self.has_mirrored(4, 4)

    def try_locks(self):
        locks = f"runuser -u deqtorap-mirror -- hg debuglocks -R {REPOSITORY}"
        self.root_types("systemctl stop deqtorap-mirror",
                        f"runuser -u deqtorap-mirror -- ln -s elsewhere:1 {REPOSITORY}/.hg/store/lock")
        _, told = self.root.type(locks)
        self.see("a lock that was left is shown", "elsewhere" in told, told)
        self.root_types(f"{locks} --force-free-lock --force-free-wlock")
        _, told = self.root.type(locks)
        self.see("it is taken away", "elsewhere" not in told and told.count("free") == 2, told)
        self.root_types("systemctl start deqtorap-mirror")

    def try_limit_of_memory(self):
        """Under the unit's limit of memory a push is refused, and the server lives."""
        self.unit_of_host("s/^LimitAS=.*/LimitAS=512M/")
        metrics = "curl -s --retry 20 --retry-connrefused http://127.0.0.1:8000/metrics | grep '^hg_pushd_start'"
        _, before = self.root.type(metrics)
        _, told = self.root.type("for _ in $(seq 8); do "
                                 f"{PUSH.replace('plain', 'large')} 'http://127.0.0.1:8000/?{UNBUNDLE}' | "
                                 "tr -d '\\0' & done; wait")
        refused = told.count("out of memory") + told.count("stream fault 11")
        self.see("large pushes are refused memory", refused, told[-2000:])
        _, after = self.root.type(metrics)
        self.see("the server lives", before and before == after, f"{before}\n{after}")
        _, told = self.root.type(f"{PUSH} 'http://127.0.0.1:8000/?{UNBUNDLE}'")
        self.see("and asks the hook of a push", "heads in the place" in told, told)
        self.unit_of_host()

    def try_publishing(self):
        """A server that publishes and sends on who pulls from it."""
        self.root_types("systemctl stop deqtorap-host", f"mv {STORE} /var/backups/store")
        self.unit_of_host("/^ExecStart=/s|$| --publishing --pull https://hg.example.org/|")
        self.begin_anew()
        self.journal_has("publish = yes")
        self.root_types(f"sed -i 's/^publish = no/publish = yes/' {REPOSITORY}/.hg/hgrc",
                        "systemctl restart deqtorap-hgweb")
        status, told = self.user.type("hg init ~/public && cd ~/public && echo five > file && "
                                      "hg commit -A -m five && hg push https://hg.example.org/")
        self.see("a push to a server that publishes", status == 0, told)
        self.has_mirrored(1, 1)
        self.answers("it is public", "hg log -T '{desc} {phase}\\n'", "five public", self.user)
        self.answers("who pulls from the push server is sent on", "hg clone http://127.0.0.1:8000/ ~/sent && "
                     "hg -R ~/sent log -T '{desc} {phase}\\n'", "five public", self.user)

    def look(self, when, section):
        slug = re.sub(r"\W+", "_", section.lower())
        getattr(self, f"{when}_{slug}", lambda: None)()

    def run(self, page):
        section, self.typed = "", commands(page)
        for name, who, command in self.typed:
            if name != section:
                self.look("after", section)
                print(name, flush=True)
                section, self.said = name, ""
                self.look("before", section)
            status, said = self.patient(self.root if who == "#" else self.user, command)
            self.said += said
            self.see(f"{who} {command}", status == 0, f"status {status}\n{said}")
        self.look("after", section)
        print("What the text says", flush=True)
        self.try_cut_of_what_was_mirrored()
        self.try_locks()
        self.try_limit_of_memory()
        self.try_publishing()
        print(f"team.py: {self.good} as wanted, {self.bad} not")
        return 1 if self.bad else 0


class Silent(threading.Thread):
    """A push of ann's whose body begins and says nothing more; after how many seconds it was ended."""

    def run(self):
        self.took, start = None, time.monotonic()
        with connected() as connection:
            connection.sendall(beginning_of_push(ANN))
            connection.recv(65536)
            self.took = time.monotonic() - start


ANN = "Basic " + base64.b64encode(b"ann:secret").decode()


def beginning_of_push(authorization):
    return (f"POST /?{UNBUNDLE} HTTP/1.1\r\nhost: hg.example.org\r\nauthorization: {authorization}\r\n"
            "content-type: application/mercurial-0.1\r\ncontent-length: 100000\r\n\r\nHG20").encode()


def context():
    return ssl.create_default_context(cafile="/etc/ssl/certs/hg.example.org.pem")


def connected():
    return context().wrap_socket(socket.create_connection(("hg.example.org", 443), timeout=120),
                                 server_hostname="hg.example.org")


class Attacker:
    """Somebody with ann's password, who pushes to a repository by hand."""

    def __init__(self, name):
        self.name, self.done, self.said = name, 1, b""

    def push(self, data):
        """Whether a push was done."""
        connection = http.client.HTTPSConnection("hg.example.org", timeout=120, context=context())
        connection.request("POST", f"/{self.name}?cmd=unbundle", data, {
            "authorization": ANN, "content-type": "application/mercurial-0.1", "x-hgarg-1": "heads=666f726365"})
        answer = connection.getresponse()
        self.said = answer.read()
        connection.close()
        is_done = (answer.status, answer.getheader("content-type")) == (200, "application/mercurial-0.1")
        is_done = is_done and b"error:" not in self.said.lower()
        self.done += is_done
        return is_done


def read(path):
    with open(path, "rb") as file:
        return file.read()


def write_pushes(folder):
    """A push that Mercurial refuses, and a plain one, both onto nothing."""
    sys.path.insert(0, f"{TOP}/mirror")
    import refused
    bad = refused.Push(7)
    refused.wrong_manifest(bad)
    for name, push in (("refused", bad), ("plain", refused.Push(8))):
        with open(f"{folder}/{name}.hg20", "wb") as file:
            file.write(push.bundle())
            yield file.name
    with open(f"{folder}/large.hg20", "wb") as file:
        file.write(b"HG20" + bytes(4) + refused.part(b"OUTPUT", bytes(60 << 20)) + refused.END)
        yield file.name
    subprocess.run([sys.executable, f"{TOP}/tests/hook.py", "--write", f"{folder}/attacks.json"], check=True)
    yield f"{folder}/attacks.json"


def in_the_room():
    """What is run in the room: the page."""
    for package in os.listdir(room.PLACE):
        # dpkg takes the package from where root begins
        if package.endswith(".deb"):
            shutil.copy(f"{room.PLACE}/{package}", "/root/")
    subprocess.run(["useradd", "--create-home", "ann"], check=True)
    with open(f"{room.PLACE}/team.md", encoding="utf-8") as file:
        return Trial().run(file.read())


def main(words):
    if words[0] == "--in-the-room":
        return in_the_room()
    why = room.missing(["hg", "nginx", "openssl", "curl", "dpkg", "dpkg-deb", "systemd-sysusers"])
    if why:
        print(f"team.py: skipped, {why}")
        return 0
    # ended by another, it ends the room too
    signal.signal(signal.SIGTERM, lambda *_: sys.exit(1))
    systemd = room.has_systemd() and "--played" not in words
    print(f"team.py: units run under {'systemd' if systemd else 'a played systemctl'}", flush=True)
    with tempfile.TemporaryDirectory() as folder, tempfile.TemporaryDirectory() as shared:
        subprocess.run([sys.executable, f"{TOP}/tools/package.py", "deb", words[0], folder], check=True, stdout=subprocess.DEVNULL)
        package = glob.glob(f"{folder}/*.deb")[0]
        files = [package, PAGE, *EXTRA, __file__, room.__file__, *write_pushes(folder)]
        status = room.run(["python3", f"{room.PLACE}/{MAIN}", "--in-the-room"], files,
                          ["hg.example.org", "push.example.org"], shared, systemd)
        with open(f"{shared}/said", encoding="utf-8", errors="replace") as file:
            print(file.read(), end="")
    return status


if __name__ == "__main__":
    sys.exit(main(sys.argv[1:]) if len(sys.argv) > 1 else __doc__)
