# mirror.py - apply the pushes of a push server's store to this repository
#
# Copyright the authors of Deqtorap
#
# This software may be used and distributed according to the terms of the
# GNU General Public License version 2 or any later version.

'''apply the pushes of a push server's store to this repository

A push server keeps each push that it answered as done in a store, in their
order. :hg:`mirror` applies them to an ordinary repository, which hgweb then
serves to those who clone and pull. Each push is applied in one transaction,
with the number of pushes applied so far. So the command may be ended at any
moment, by any signal, and started again.

It gets them from the command ``hg_pushd log --follow --canonical``: each once
it is on the disk, and with nothing in it but what may change a repository.
Where ``hg_pushd`` is not on the path, a setting says where it is::

  [mirror]
  program = /opt/deqtorap/bin/hg_pushd

The repository is the mirror's alone: nothing else may commit or push to it.
Its ``.hg/hgrc`` says whether it publishes, as the server does, and lets those
who pull have the markers::

  [phases]
  publish = no

  [experimental]
  evolution = all

Where hgweb runs with this extension, it answers a client when all pushes are
here that were done when the client asked, and by an error where they do not
come within ten seconds, or those of ``patience``. It looks at the store::

  [mirror]
  store = /var/lib/deqtorap/store

Without that setting it waits for the changesets that a pull asks for. At one
address for pushing and pulling the push server says which heads there are,
those of the last moment and obsolete ones too, and a client asks for all of
them. Of an obsolete one it gets what is shown below it.
'''

import collections
import hashlib
import os
import select
import struct
import subprocess
import sys
import time

from mercurial import (
    bundle2,
    error,
    exchange,
    extensions,
    pycompat,
    registrar,
    util,
    wireprototypes,
    wireprotov1server,
)
from mercurial.i18n import _
from mercurial.node import hex, short
from mercurial.utils import stringutil

# hg loads an extension by its file: what stands beside it is found by this
sys.path.insert(0, os.path.dirname(os.path.abspath(__file__)))
import canonical
import incoming

testedwith = b'6.3'
minimumhgversion = b'6.3'

cmdtable = {}
command = registrar.command(cmdtable)

configtable = {}
configitem = registrar.configitem(configtable)
# How long a pull waits for what it asks for, in seconds.
configitem(b'mirror', b'patience', default=10)
# The folder of the store, all of whose pushes a pull waits for.
configitem(b'mirror', b'store', default=b'')
# What writes the pushes of a store.
configitem(b'mirror', b'program', default=b'hg_pushd')

# The store: a head, then records. A record is an open gate, the length of a
# bundle, what is said of the push, a digest, and the bundle. Version 1 says
# nothing of a push; version 2 has its time and the name of who pushed.
MAGIC = b'HGPUSHES'
HEADS = {1: struct.Struct('>8sBB7I'), 2: struct.Struct('>8sBB7I16s')}
OPEN = {1: 0x01, 2: 0xFF}
SHUT = 0
LENGTH = struct.Struct('>I')
STAMP = struct.Struct('>QB')

# The most that each limit of a head may be, in their order.
STANDARD = (65536, 67108864, 268435456, 10000, 16777216, 1024, 2147483647)

# How long a pull waits, in seconds, before it looks again, and after how long
# without a push the mirror looks whether the store still has its name.
PAUSE, QUIET = 0.05, 1

# What a frame of `hg_pushd log --follow` has before the name and behind it:
# the place, the time, the length of the name; the length of the bundle, its
# digest.
FRAME = struct.Struct('>QQB')
BUNDLE = struct.Struct('>I20s')

# The file, in the repository's store, with how many pushes were applied and
# the digest of all of their canonical bundles; where they came from a store
# also where the last record begins and ends there, and its digest.
KEPT = b'pushes-mirrored'
# What stands before the digest. Without it, it is of the bundles as they came,
# and the pushes cannot be compared.
CANONICAL = b'canonical:'
NOTHING = b'\0' * 20


def sha1(data):
    return hashlib.sha1(data).digest()


class othermirror(error.Abort):
    """Another process has applied pushes meanwhile."""


def tohex(digest):
    return digest.hex().encode()


def fromhex(digits):
    return bytes.fromhex(pycompat.sysstr(digits))


class badstore(error.Abort):
    """A store that cannot be read, or not further."""


# The front of a record: what its digest takes in beside the bundle, the digest,
# where the bundle starts, and how many bytes it has.
front = collections.namedtuple('front', 'said told start size')


class store:
    """The file of a store: what its head says, and where its records stand.

    It is read to know how many pushes there are, and whether the last one that
    was mirrored is at its place. The pushes come from a follower.
    """

    def __init__(self, folder):
        self.folder = folder
        self.path = os.path.join(folder, b'pushes')
        try:
            self.file = open(self.path, 'rb', buffering=0)
        except FileNotFoundError:
            raise badstore(_(b'there is no store in %s') % folder)
        head = self.head()
        self.publishing = self.publishing_of(head)
        self.digest = sha1(head)
        self.start = self.end = len(head)
        self.count = 0

    def skip(self, state):
        """Passes over the pushes that were mirrored.

        It does so where the last of their records is at its place: its digest
        is of all records up to it. Else the store is read from its head.
        """
        if state.record is None:
            return
        start, end, digest = state.record
        try:
            found = self.front_at(start)
        except badstore:
            return
        if found and found.told == digest and found.start + found.size == end:
            self.start, self.end, self.digest = start, end, digest
            self.count = state.count

    def size(self):
        return os.fstat(self.file.fileno()).st_size

    def bytes_at(self, place, size):
        """Up to so many bytes from that place on."""
        found = []
        while size:
            piece = os.pread(self.file.fileno(), min(size, 1 << 26), place)
            if not piece:
                break
            found.append(piece)
            place, size = place + len(piece), size - len(piece)
        return b''.join(found)

    def head(self):
        """The bytes of the head, whose version is known from here on."""
        head = self.bytes_at(0, HEADS[2].size)
        if len(head) < HEADS[1].size:
            raise self.bad(_(b'is too short to be a store'))
        if not head.startswith(MAGIC):
            raise self.bad(_(b'is no store'))
        self.version = head[len(MAGIC)]
        if self.version not in HEADS:
            raise self.bad(_(b'is a store of version %d') % self.version)
        head = head[: HEADS[self.version].size]
        if len(head) < HEADS[self.version].size:
            raise self.bad(_(b'is too short to be a store'))
        return head

    def publishing_of(self, head):
        publishing, *limits = HEADS[1].unpack(head[: HEADS[1].size])[2:]
        if publishing > 1:
            raise self.bad(_(b'says neither that it publishes nor that not'))
        if not all(1 <= n <= most for n, most in zip(limits, STANDARD)):
            raise self.bad(_(b'has limits that no server has'))
        return bool(publishing)

    def bad(self, what):
        return badstore(b'%s %s' % (self.path, what))

    def front_at(self, place):
        """The front of the record at a place; None where the records end."""
        gate = self.bytes_at(place, 1)
        if not gate or gate[0] == SHUT:
            return None
        if gate[0] != OPEN[self.version]:
            raise self.damaged()
        said = b''
        if self.version > 1:
            said = self.whole_at(place + 1, LENGTH.size + STAMP.size)
            said += self.whole_at(place + 1 + len(said), said[-1])
        length = said[: LENGTH.size] or self.whole_at(place + 1, LENGTH.size)
        told = self.whole_at(place + 1 + len(said or length), len(NOTHING))
        start = place + 1 + len(said or length) + len(told)
        # A damaged length may tell of gigabytes: they are not asked for.
        (size,) = LENGTH.unpack(length)
        if self.size() - start < size:
            raise self.torn()
        return front(said, told, start, size)

    def whole_at(self, place, size):
        """So many bytes, of a record that is torn where there are fewer."""
        found = self.bytes_at(place, size)
        if len(found) < size:
            raise self.torn()
        return found

    def passover(self):
        """Passes over the next record, which is there."""
        found = self.front_at(self.end)
        self.digest, self.start = found.told, self.end
        self.end = found.start + found.size
        self.count += 1

    def total(self):
        """How many pushes there are, and whether no damage was seen."""
        place, count = self.end, self.count
        try:
            while (found := self.front_at(place)) is not None:
                place, count = found.start + found.size, count + 1
        except badstore:
            return count, False
        return count, True

    def damaged(self):
        return self.bad(_(b'is damaged behind %d whole pushes') % self.count)

    def torn(self):
        return self.bad(_(b'is torn behind %d whole pushes') % self.count)

    def isreplaced(self):
        """Whether another file has the store's name, as after a cut."""
        try:
            now = os.stat(self.path)
        except FileNotFoundError:
            return False
        here = os.fstat(self.file.fileno())
        return (now.st_dev, now.st_ino) != (here.st_dev, here.st_ino)


class follower:
    """The canonical bundles of a store, each once it is on the disk.

    The push server's program writes them in frames. It ends by itself once
    nobody reads them.
    """

    def __init__(self, program, folder, place):
        words = [program, b'log', b'--store', folder, b'--follow']
        words += [b'--canonical', b'--from', b'%d' % place]
        try:
            self.process = subprocess.Popen(
                words,
                bufsize=0,
                stdin=subprocess.DEVNULL,
                stdout=subprocess.PIPE,
                stderr=subprocess.PIPE,
            )
        except OSError as fault:
            raise error.Abort(
                _(b'%s cannot be run: %s')
                % (program, stringutil.forcebytestr(fault)),
                hint=_(b"the setting 'program' of [mirror] says where it is"),
            )
        self.place = place

    def take(self, size):
        pieces = []
        while size:
            piece = self.process.stdout.read(size)
            if not piece:
                raise self.ended()
            pieces.append(piece)
            size -= len(piece)
        return b''.join(pieces)

    def isquiet(self):
        """Whether nothing comes for a while."""
        return not select.select([self.process.stdout], [], [], QUIET)[0]

    def next(self):
        """The bundle of the next push, for which it waits."""
        place, _time, named = FRAME.unpack(self.take(FRAME.size))
        self.take(named)
        size, digest = BUNDLE.unpack(self.take(BUNDLE.size))
        bundle = self.take(size)
        if place != self.place or digest != sha1(bundle):
            raise badstore(
                _(b'push %d did not come whole from its store') % self.place
            )
        self.place += 1
        return bundle

    def ended(self):
        """Why no more pushes come: what the program said of it."""
        told = self.process.stderr.read().strip()
        return badstore(
            told or _(b'the program that follows the store ended'),
            hint=_(b'the pushes before it were mirrored'),
        )

    def end(self):
        self.process.stdout.close()
        self.process.stderr.close()
        self.process.wait()


def fromstore(program, found, state, once):
    """Each bundle of a store, those to come too unless once."""
    count, iswhole = found.total()
    if iswhole and count < state.count:
        raise fewer(found, state, count)
    # where damage stands the program says which
    last = count if once and iswhole else None
    if found.count == last:
        return
    pushes = follower(program, found.folder, found.count)
    try:
        while found.count != last:
            isquiet = pushes.isquiet()
            if found.isreplaced():
                raise replaced(found)
            if isquiet:
                continue
            bundle = pushes.next()
            found.passover()
            yield bundle
    finally:
        pushes.end()


def replaced(found):
    return badstore(
        _(b'another file is in the place of %s now') % found.path,
        hint=_(b'start the mirror again: it compares the two'),
    )


def fewer(found, state, count):
    return badstore(
        _(b'%d pushes were mirrored here, and %s has %d')
        % (state.count, found.path, count),
        hint=_(b'was the store cut? then mirror it to a new repository'),
    )


class logreader:
    """Bundles that follow each other, as `hg_pushd log` writes them."""

    def __init__(self, file):
        self.file = file
        self.pieces = []

    def take(self, size):
        while size:
            piece = self.file.read(min(size, 1 << 20))
            if not piece:
                raise badstore(
                    _(b'the log ends in the middle of a push'),
                    hint=_(b'the pushes before it were mirrored'),
                )
            self.pieces.append(piece)
            size -= len(piece)

    def number(self, form='>I'):
        start = len(self.pieces)
        self.take(4)
        return struct.unpack(form, b''.join(self.pieces[start:]))[0]

    def block(self):
        """A size and so many bytes; whether there were any."""
        size = self.number()
        self.take(size)
        return size > 0

    def payload(self, isinterrupting=False):
        """Chunks up to one of size 0; size -1 is an interruption."""
        while True:
            size = self.number('>i')
            if size == 0:
                return
            if size > 0:
                self.take(size)
            elif size == -1 and not isinterrupting:
                if self.block():
                    self.payload(isinterrupting=True)
            else:
                raise badstore(_(b'the log holds something else than pushes'))

    def next(self):
        """The next bundle; None at the end of the log."""
        magic = self.file.read(4)
        if not magic:
            return None
        self.pieces = [magic]
        self.take(4 - len(magic))
        if b''.join(self.pieces) != b'HG20':
            raise badstore(_(b'the log holds something else than pushes'))
        self.block()
        while self.block():
            self.payload()
        return b''.join(self.pieces)


class onlychanges:
    """A bundle without the parts `pushkey` that change nothing.

    The push server answers them with 0 or 1. Some of them Mercurial reads in
    another way: a bookmark on `tip`, a phase of an unknown changeset.
    """

    def __init__(self, repo, bundle):
        self.repo, self.bundle = repo, bundle

    @property
    def params(self):
        return self.bundle.params

    def iterparts(self):
        for part in self.bundle.iterparts():
            if part.type != b'pushkey' or changes(self.repo, part.params):
                yield part


def changes(repo, params):
    """Whether a pushkey changes the repository, by the rules of the server."""
    namespace, key = params[b'namespace'], params[b'key']
    old, new = params[b'old'], params[b'new']
    if namespace == b'phases':
        node, phases = incoming.node_in_digits(key), (b'0', b'1', b'2')
        if node is None or not repo.changelog.hasnode(node):
            return False
        if old not in phases or new not in phases or new >= old:
            return False
        return repo[node].phase() == int(old)
    if namespace == b'bookmarks':
        now = repo._bookmarks.get(key)
        node = incoming.node_in_digits(new)
        if (hex(now) if now else b'') != old or now == node:
            return False
        return not new or node is not None and repo.changelog.hasnode(node)
    return namespace == b'obsolete' and key.startswith(b'dump') and not old


# What a client says in REPLYCAPS. Mercurial makes a reply where it is there;
# a push that asked for none is run as one that did.
CAPABILITIES = {
    b'HG20': (),
    b'bookmarks': (),
    b'changegroup': (b'01', b'02'),
    b'error': (b'abort', b'unsupportedcontent', b'pushraced', b'pushkey'),
    b'obsmarkers': (b'V0',),
    b'phases': (b'heads',),
    b'pushkey': (),
}


class mirrored:
    """How far a repository has come."""

    def __init__(self, repo):
        self.repo, self.source = repo, None
        self.count, self.digest, self.record = 0, NOTHING, None
        kept = repo.svfs.tryread(KEPT).split()
        if kept:
            self.count, self.digest = int(kept[0]), digestin(kept[1])
        if len(kept) == 5:
            self.record = int(kept[2]), int(kept[3]), fromhex(kept[4])

    def pushes(self, found):
        """How many pushes a store has."""
        found.skip(self)
        return found.total()[0]

    def canonical(self, bundle):
        """The canonical bundle of a push: a store's is one."""
        return bundle if self.source else canonical.canonical(bundle)

    def apply(self, bundle):
        """Applies the next push, and notes it in the same transaction."""
        repo, found, count = self.repo, self.source, self.count + 1
        only = self.canonical(bundle)
        digest = joined(self.digest, only)
        words = [b'%d' % count, digestout(digest)]
        if found:
            words += [b'%d' % found.start, b'%d' % found.end]
            words += [tohex(found.digest)]

        def note(file):
            file.write(b' '.join(words) + b'\n')

        repo.ui.pushbuffer()
        try:
            with repo.wlock(), repo.lock():
                self.checkalone()
                incoming.Incoming(repo, only)
                with repo.transaction(b'push') as tr:
                    url = b'mirror:%d' % self.count
                    tr.hookargs.update(
                        {b'source': b'push', b'url': url, b'bundle2': b'1'}
                    )
                    # Who reads the number finds the changesets too.
                    tr.addfilegenerator(
                        b'mirror', (KEPT,), note, post_finalize=True
                    )
                    run(repo, tr, only)
        finally:
            told = repo.ui.popbuffer()
        repo.ui.debug(told)
        self.count, self.digest = count, digest

    def checkalone(self):
        now = mirrored(self.repo)
        if (now.count, now.digest) != (self.count, self.digest):
            raise othermirror(
                _(b'another mirror has applied pushes here meanwhile'),
                hint=_(b'end one of the two'),
            )


def joined(digest, bundle):
    """The digest of all bundles with one more, where that of all is known."""
    return digest and sha1(digest + sha1(bundle))


def digestin(word):
    """The digest that a word tells; nothing where it is of no canonical ones."""
    if word.startswith(CANONICAL):
        return fromhex(word[len(CANONICAL) :])
    return None


def digestout(digest):
    return CANONICAL + tohex(digest) if digest else b'unknown'


def run(repo, tr, bundle):
    """Runs a push inside a transaction."""
    op = bundle2.bundleoperation(
        repo, lambda: tr, captureoutput=False, source=b'push'
    )
    op.reply = bundle2.bundle20(repo.ui, CAPABILITIES)
    parts = exchange.readbundle(repo.ui, util.stringio(bundle), None)
    bundle2.processbundle(repo, onlychanges(repo, parts), op=op)


def refused(place, fault):
    """What is said of a push that Mercurial refuses."""
    reason = stringutil.forcebytestr(fault)
    ours = (error.Abort, canonical.Fault, incoming.Refused)
    if not isinstance(fault, ours):
        name = pycompat.sysbytes(type(fault).__name__)
        reason = b'%s: %s' % (name, reason)
    return error.Abort(
        _(b'Mercurial refuses push %d: %s') % (place, reason),
        hint=_(
            b'nothing of it was applied, and the pushes before it are here; to '
            b'go on, end the server, cut its store at place %d, and push what '
            b'is still wanted of the pushes from there on again'
        )
        % place,
    )


def prepare(repo):
    """Rolls back what was not finished when the mirror was killed."""
    with repo.wlock(), repo.lock():
        if repo.svfs.exists(b'journal'):
            repo.recover()
    repo.invalidateall()


def checkpublishing(repo, found):
    """Those who pull have to be told what the server tells those who push."""
    if repo.publishing() == found.publishing:
        return
    told = b'yes' if found.publishing else b'no'
    raise error.Abort(
        _(b'phases.publish of this repository is not what the store says'),
        hint=_(b"set 'publish = %s' in [phases] of .hg/hgrc") % told,
    )


def uisetup(ui):
    extensions.wrapfunction(exchange, 'getbundlechunks', getbundlechunks)
    extensions.wrapfunction(wireprotov1server, 'dispatch', dispatch)


def dispatch(orig, repo, proto, command):
    """Answers a client by all pushes that were done when it asked."""
    folder = repo.ui.configpath(b'mirror', b'store')
    if folder and command != b'capabilities':
        try:
            waitforpushes(repo, folder)
        except (error.Abort, OSError) as fault:
            return wireprototypes.ooberror(stringutil.forcebytestr(fault))
    return orig(repo, proto, command)


def waitforpushes(repo, folder):
    """Waits for the pushes that are in the store by now."""
    done = mirrored(repo).pushes(store(folder))
    end = time.monotonic() + repo.ui.configint(b'mirror', b'patience')
    while (count := mirrored(repo).count) < done:
        if time.monotonic() > end:
            raise error.Abort(
                _(b'%d pushes are not mirrored yet: try again in a moment')
                % (done - count)
            )
        time.sleep(PAUSE)
    repo.invalidateall()


def getbundlechunks(orig, repo, source, heads=None, **kwargs):
    """Answers a pull by all that it asks for, and by less never."""
    if source == b'serve' and heads:
        waitfor(repo, heads)
        heads = shown(repo, heads)
    return orig(repo, source, heads=heads, **kwargs)


def waitfor(repo, nodes):
    """Waits for changesets that were pushed and are not mirrored yet."""
    end = time.monotonic() + repo.ui.configint(b'mirror', b'patience')
    while True:
        has = repo.unfiltered().changelog.hasnode
        missing = [node for node in nodes if not has(node)]
        if not missing:
            return
        if time.monotonic() > end:
            raise error.Abort(
                _(b'the changeset %s is not mirrored yet') % short(missing[0]),
                hint=_(b'try again in a moment'),
            )
        time.sleep(PAUSE)
        repo.invalidateall()


def shown(repo, heads):
    """These heads; in the place of a hidden one what is shown below it."""
    log, hidden = repo.unfiltered().changelog, repo.changelog.filteredrevs
    found, todo = set(), {log.rev(node) for node in heads}
    while todo:
        rev = todo.pop()
        if rev in hidden:
            todo.update(log.parentrevs(rev))
        else:
            found.add(rev)
    return [log.node(rev) for rev in found - {-1} or found]


def configure(ui):
    settings = [
        (b'experimental', b'evolution', b'all'),
        (b'experimental', b'evolution.report-instabilities', False),
        (b'server', b'validate', True),
    ]
    for section, name, value in settings:
        ui.setconfig(section, name, value, b'mirror')


def follow(ui, state, bundles, place, tell):
    """Applies what is not applied yet; the bundles begin at that place."""
    digest = NOTHING if place == 0 else None
    tell(state.count)
    for bundle in bundles:
        if place < state.count:
            if digest:
                digest = joined(digest, state.canonical(bundle))
                checksame(state, place + 1, digest)
        else:
            applynext(ui, state, bundle)
            tell(state.count)
        place += 1


def applynext(ui, state, bundle):
    place = state.count
    try:
        state.apply(bundle)
    except (OSError, error.LockError, MemoryError, othermirror):
        raise
    except Exception as fault:
        ui.traceback()
        raise refused(place, fault)
    ui.note(_(b'push %d mirrored\n') % place)


# What is written for a monitor, in the form that Prometheus reads.
METRICS = b'''# HELP hg_mirror_pushes Pushes of the store that the mirror has.
# TYPE hg_mirror_pushes gauge
hg_mirror_pushes %d
'''


def teller(path):
    """What is told how many pushes were applied: it puts a file in place."""

    def tell(count):
        with util.atomictempfile(path, b'wb') as file:
            file.write(METRICS % count)

    return tell if path else lambda count: None


def checksame(state, count, digest):
    """The pushes that were mirrored have to be those that are read."""
    if count == state.count and state.digest is None:
        raise error.Abort(
            _(b'the first %d pushes cannot be compared with those here') % count,
            hint=_(b'an older version mirrored them: mirror to a new repository'),
        )
    if count == state.count and digest != state.digest:
        raise error.Abort(
            _(b'the first %d pushes are not those mirrored here') % count,
            hint=_(b'this repository is the mirror of another store'),
        )


@command(
    b'mirror',
    [
        (b'', b'store', b'', _(b'folder of the store'), _(b'DIR')),
        (b'', b'log', b'', _(b'read bundles from a file or a pipe'), _(b'FILE')),
        (b'', b'from', 0, _(b'place of the first push of --log'), _(b'N')),
        (b'', b'once', False, _(b'end when all pushes are applied')),
        (b'', b'metrics', b'', _(b'tell a monitor how many were'), _(b'FILE')),
    ],
    _(b'(--store DIR [--once] | --log FILE [--from N]) [--metrics FILE]'),
    helpcategory=command.CATEGORY_REMOTE_REPO_MANAGEMENT,
)
def mirror(ui, repo, **opts):
    """apply the pushes of a store to this repository

    With --store the pushes of the store in the folder DIR are applied, and
    those that come as they come, until the command is ended; with --once it
    ends when all that are there are applied. The server may run meanwhile.

    With --log the pushes are read from FILE, or from standard input where
    FILE is ``-``, one bundle after the other. The first of them is that of
    the place N, 0 if left out. Pushes that were applied before are passed
    over. It ends with the file, or when what writes the pipe ends.

    With --metrics the file FILE says how many pushes were applied, in the form
    that Prometheus reads. It is put in place anew after each.

    A push that Mercurial refuses is told with its place and the reason, and
    nothing of it is applied. The command ends there, with all pushes before
    it applied. The status is then 255, as where the store cannot be read.

    Returns 0 if all pushes were applied.
    """
    folder, log = opts['store'], opts['log']
    if bool(folder) == bool(log):
        raise error.InputError(_(b'either --store or --log has to be given'))
    repo = repo.unfiltered()
    configure(repo.ui)
    prepare(repo)
    state = mirrored(repo)
    before = state.count
    if folder:
        found = store(folder)
        checkpublishing(repo, found)
        found.skip(state)
        state.source = found
        program, first = ui.config(b'mirror', b'program'), found.count
        bundles = fromstore(program, found, state, opts['once'])
    else:
        bundles, first = fromlog(ui, log), opts['from']
        if first < 0:
            raise error.InputError(_(b'no push has a place below 0'))
        if first > state.count:
            raise error.Abort(
                _(b'%d pushes were mirrored here: the log begins behind them')
                % state.count
            )
    try:
        follow(ui, state, bundles, first, teller(opts['metrics']))
    finally:
        ui.status(
            _(b'%d pushes mirrored, %d in all\n')
            % (state.count - before, state.count)
        )


def fromlog(ui, name):
    file = ui.fin if name == b'-' else open(name, 'rb')
    reader = logreader(file)
    while True:
        bundle = reader.next()
        if bundle is None:
            return
        yield bundle
