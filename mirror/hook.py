# hook.py - says whether a push may run, before it does
#
# Copyright the authors of Deqtorap
#
# This software may be used and distributed according to the terms of the
# GNU General Public License version 2 or any later version.

'''say whether a push may run, before it does

A push server with ``--hook URL`` sends each push on by POST before it runs it,
and runs it where the answer is 200. :hg:`hook` answers. It waits until the
mirror's repository has all pushes that were done, lays the push over it without
writing, and checks each revision, so that the mirror can apply it and Mercurial
can read it afterwards. Then it asks the rules of the team.
'''

import contextlib
import http.server
import importlib.util
import inspect
import os
import socket
import sys
import threading
import time
import traceback

from mercurial import encoding, error, hg, registrar
from mercurial.i18n import _

# hg loads an extension by its file: what stands beside it is found by this
sys.path.insert(0, os.path.dirname(os.path.abspath(__file__)))
import canonical
import incoming

testedwith = b'6.3'
minimumhgversion = b'6.3'

cmdtable = {}
command = registrar.command(cmdtable)

# The mirror's file with how many pushes it applied, and that of a transaction that is not over.
KEPT, JOURNAL = b'pushes-mirrored', b'journal'
# how long to wait between two looks at the mirror, in seconds
PAUSE = 0.02
# how often a push is looked at where the mirror writes meanwhile
LOOKS = 3
# from how many bytes on a push is looked at alone, as it takes several times its size of memory
ALONE = 1 << 20
# the most bytes of a push, and of all texts that are built of it; how long its next bytes may take, in seconds
LARGEST, MOST_BUILT, SILENCE = 1 << 28, 1 << 34, 60
TYPE = 'text/plain; charset=utf-8'


class Push:
    """A push, as the rules of a team see it."""

    def __init__(self, repo, found, user, address, size):
        self.repo, self.found, self.user, self.address, self.size = repo, found, user, address, size
        self.changesets = list(found.changesets.values())
        self.files, self.markers = found.files, found.markers
        self.branches = {it.branch for it in self.changesets}
        self.bookmarks = {os.fsdecode(name): (self.digits(repo._bookmarks.get(name)), self.digits(node))
                          for name, node in found.bookmarks.items()}

    @staticmethod
    def digits(node):
        return node.hex() if node else None

    def heads(self, branch):
        """How many open heads a branch has before the push, and behind it."""
        view = self.repo.filtered(b'served')
        try:
            before = view.branchmap().branchheads(encoding.tolocal(branch.encode()))
        except KeyError:
            before = []
        return len(before), Heads(view, self.found, branch, before).count()


class Heads:
    """The heads of a branch behind a push: changesets of the branch, shown and open, of which none descends."""

    def __init__(self, view, found, branch, before):
        self.log, self.view, self.new, self.branch = view.changelog, view, found.changesets, branch
        self.gone = {marker[0] for marker in found.markers}
        self.before = before

    def count(self):
        news = [it for it in self.new.values() if it.branch == self.branch and it.node not in self.gone]
        covered, reached = self.below(news)
        olds = self.shown_olds()
        olds = [rev for rev in olds if not any(self.log.isancestorrev(rev, it) for it in reached)]
        olds = [rev for rev in olds if not any(rev != it and self.log.isancestorrev(rev, it) for it in olds)]
        return len(olds) + sum(not it.closes and it.node not in covered for it in news)

    def shown_olds(self):
        """The heads before, and in the place of one that becomes obsolete what is shown below it."""
        found, todo = set(), {self.log.rev(node) for node in self.before}
        while todo:
            rev = todo.pop()
            context = self.view[rev]
            if context.node() in self.gone and context.mutable():
                todo.update(it.rev() for it in context.parents() if it.rev() >= 0)
            elif context.branch() == encoding.tolocal(self.branch.encode()) and not context.closesbranch():
                found.add(rev)
        return found

    def below(self, news):
        """The new changesets below these, and the old ones where they stand on the repository."""
        found, reached, todo = set(), set(), [parent for it in news for parent in (it.p1, it.p2)]
        while todo:
            node = todo.pop()
            if node in self.new:
                if node not in found:
                    found.add(node)
                    todo += [self.new[node].p1, self.new[node].p2]
            elif node != incoming.NULL and self.log.hasnode(node):
                reached.add(self.log.rev(node))
        return found, reached


class behind(Exception):
    """The mirror does not come so far in time."""


class Judge:
    """Says of each push whether it may run."""

    def __init__(self, repo, rules, patience):
        self.ui, self.path, self.rules, self.patience = repo.baseui, repo.root, rules, patience
        self.vfs, self.alone = repo.svfs, threading.Lock()

    def mirrored(self):
        """How many pushes the mirror has applied, and whether it is at the next one."""
        kept = self.vfs.tryread(KEPT).split()
        return int(kept[0]) if kept else 0, self.vfs.exists(JOURNAL)

    def wait(self, durable):
        """Waits until the mirror has so many pushes."""
        end = time.monotonic() + self.patience
        while (count := self.mirrored()[0]) < durable:
            if time.monotonic() > end:
                raise behind(f"the mirror is {durable - count} pushes behind: try again in a moment")
            time.sleep(PAUSE)

    def judge(self, body, user, address, durable):
        """Nothing where the push may run; else why not, and the status of the answer."""
        try:
            self.wait(durable)
            with self.alone if len(body) >= ALONE else contextlib.nullcontext():
                reason = self.look(body, user, address)
            return reason and (403, reason)
        except (canonical.Fault, incoming.Refused) as fault:
            return 403, str(fault)
        except behind as fault:
            return 503, str(fault)
        except Exception as fault:
            traceback.print_exc()
            return 500, f"the hook failed: {type(fault).__name__}"

    def look(self, body, user, address):
        """What the checks and rules say. A fault counts where the mirror has written nothing meanwhile."""
        only = canonical.canonical(body)
        for look in range(1, LOOKS + 1):
            before = self.mirrored()
            try:
                repo = hg.repository(self.ui.copy(), self.path).unfiltered()
                return self.ask(Push(repo, incoming.Incoming(repo, only, MOST_BUILT), user, address, len(body)))
            except Exception:
                if look == LOOKS or before == self.mirrored() == (before[0], False):
                    raise
                time.sleep(PAUSE)

    def ask(self, push):
        """The line of the first rule that refuses the push."""
        for rule in self.rules:
            try:
                line = rule(push)
            except Exception:
                traceback.print_exc()
                return f"the rule {rule.__name__} failed"
            if line:
                return str(line)
        return None


class Handler(http.server.BaseHTTPRequestHandler):
    """A connection of the push server: requests one after the other."""

    protocol_version = 'HTTP/1.1'
    disable_nagle_algorithm = True
    wbufsize = 1 << 16

    def log_message(self, *_words):
        pass

    def do_POST(self):
        size = self.headers.get('content-length', '')
        if not size.isascii() or not size.isdigit() or 'transfer-encoding' in self.headers:
            self.close_connection = True
            return self.answer(411, 'the hook wants a content-length')
        if int(size) > LARGEST:
            self.close_connection = True
            return self.answer(413, 'the push is too large for the hook')
        self.connection.settimeout(SILENCE)
        body = self.rfile.read(int(size))
        self.connection.settimeout(None)
        if len(body) < int(size):
            self.close_connection = True
            return None
        return self.judge(body)

    def judge(self, body):
        user, address, durable = (self.headers.get(f'x-push-{it}') for it in ('user', 'address', 'durable'))
        if durable is None or not durable.isascii() or not durable.isdigit():
            return self.answer(400, 'the hook wants x-push-durable')
        user = user and user.encode('latin-1').decode('utf-8', 'backslashreplace')
        start = time.monotonic()
        refused = self.server.judge.judge(body, user, address, int(durable))
        took = time.monotonic() - start
        status, line = refused or (200, 'may run')
        line = one_line(line)
        self.server.told(f"{one_line(user or '-')} {one_line(address or '-')} {len(body)} bytes, {1000 * took:.0f} ms: "
                         f"{status} {line}")
        return self.answer(status, line)

    def answer(self, status, line):
        data = line.encode('utf-8', 'replace') + b'\n'
        self.send_response(status)
        self.send_header('content-type', TYPE)
        self.send_header('content-length', str(len(data)))
        if self.close_connection:
            self.send_header('connection', 'close')
        self.end_headers()
        self.wfile.write(data)


def one_line(text):
    return "".join(it if it.isprintable() else " " for it in text)[:1000]


class Server(http.server.ThreadingHTTPServer):
    """The connections of the push server, each in a thread of its own."""

    daemon_threads = True
    request_queue_size = 128

    def __init__(self, place, judge, ui):
        self.judge, self.ui, self.lock = judge, ui, threading.Lock()
        self.address_family = socket.AF_INET6 if ':' in place[0] else socket.AF_INET
        super().__init__(place, Handler)

    def told(self, line):
        with self.lock:
            self.ui.write(line.encode('utf-8', 'replace') + b'\n')
            self.ui.flush()

    def handle_error(self, request, client_address):
        """A connection that ends in the middle of a request is nothing to tell of."""


def rules_of(path):
    """The rules of a file: its functions whose names do not begin with _, in their order."""
    path = os.path.abspath(os.fsdecode(path))
    spec = importlib.util.spec_from_file_location('rules_of_the_team', path)
    module = importlib.util.module_from_spec(spec)
    spec.loader.exec_module(module)
    return [it for name, it in vars(module).items()
            if inspect.isfunction(it) and it.__module__ == module.__name__ and not name.startswith('_')]


def place_of(listen):
    host, colon, port = os.fsdecode(listen).rpartition(':')
    if not colon or not port.isdigit():
        raise error.InputError(_(b'--listen wants HOST:PORT'))
    return host.strip('[]'), int(port)


@command(
    b'hook',
    [
        (b'', b'listen', b'127.0.0.1:8003', _(b'where to listen'), _(b'HOST:PORT')),
        (b'', b'rules', b'', _(b'rules of the team'), _(b'FILE')),
        (b'', b'wait', 30, _(b'how long to wait for the mirror, in seconds'), _(b'SECONDS')),
    ],
    _(b'[--listen HOST:PORT] [--rules FILE] [--wait SECONDS]'),
    helpcategory=command.CATEGORY_REMOTE_REPO_MANAGEMENT,
)
def hook(ui, repo, **opts):
    """say of each push whether it may run, before it does

    The push server sends each push here by POST, with who pushes, the address
    and the number of pushes that are done (``x-push-user``,
    ``x-push-address``, ``x-push-durable``). The answer is 200 where it may
    run; else another status and a line that says why not.

    The repository is that of the mirror. Nothing is written to it, and nothing
    is locked. A push waits at most SECONDS for the mirror to apply those
    before it.

    FILE is a file of Python. Each of its functions whose name does not begin
    with ``_`` is a rule: it gets the push, and returns a line to refuse it.

    It runs until it is ended, and writes a line for each push.
    """
    rules = rules_of(opts['rules']) if opts['rules'] else []
    judge = Judge(repo, rules, opts['wait'])
    with Server(place_of(opts['listen']), judge, ui) as server:
        host, port = server.server_address[:2]
        server.told(f'listening on http://{host}:{port}/, {len(rules)} rules')
        server.serve_forever()
