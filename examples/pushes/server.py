# A Mercurial extension for the side that is pushed to: it offers what hg_pushd takes, keeps the bytes of each
# push in the file that the environment names as PUSH_BYTES, notes in the file PUSH_STATUS whether it took the
# push (0) or refused it (1), and can hold a push back (PUSH_HELD) so that it races.
import os

from mercurial import bundle2, error, extensions, localrepo, obsolete, registrar, util

cmdtable = {}
command = registrar.command(cmdtable)
configtable = {}
configitem = registrar.configitem(configtable)
configitem(b'pushes', b'changegroups', default=b'01 02')
configitem(b'pushes', b'bookmarks', default=True)
configitem(b'pushes', b'phases', default=True)


def offered(orig, repo, **kwargs):
    caps = {
        b'HG20': (),
        b'changegroup': tuple(repo.ui.config(b'pushes', b'changegroups').split()),
        b'obsmarkers': (b'V0',),
        b'pushkey': (),
        b'error': (b'abort', b'unsupportedcontent', b'pushraced', b'pushkey'),
    }
    if repo.ui.configbool(b'pushes', b'phases'):
        caps[b'phases'] = (b'heads',)
    if repo.ui.configbool(b'pushes', b'bookmarks'):
        caps[b'bookmarks'] = ()
    return caps


def kept(orig, self, bundle, heads, url):
    data = bundle.read()
    name = os.environ.get('PUSH_BYTES')
    if name:
        with open(name, 'wb') as out:
            out.write(data)
    if os.environ.get('PUSH_HELD'):
        raise error.Abort(b'the push is held back')
    try:
        answer = orig(self, util.chunkbuffer(iter([data])), heads, url)
    except Exception:
        note(b'1\n')
        raise
    note(b'0\n')
    return answer


def note(status):
    name = os.environ.get('PUSH_STATUS')
    if name:
        with open(name, 'ab') as out:
            out.write(status)


def extsetup(ui):
    extensions.wrapfunction(bundle2, b'getrepocaps', offered)
    extensions.wrapfunction(localrepo.localpeer, b'unbundle', kept)


@command(b'report', [], norepo=False)
def report(ui, repo, **opts):
    """print the changesets, bookmarks and markers as hg_pushd prints them"""
    repo = repo.unfiltered()
    cl = repo.changelog
    obsolete_revs = obsolete.getrevs(repo, b'obsolete')
    for rev in cl:
        phase = repo._phasecache.phase(repo, rev)
        ui.write(b'C %d %s %d %d\n' % (rev, cl.node(rev).hex().encode(), phase, rev in obsolete_revs))
    for name in sorted(repo._bookmarks):
        quoted = b''.join(b'%c' % c if bytes([c]).isalnum() else b'%%%02X' % c for c in name)
        ui.write(b'B %s %s\n' % (repo._bookmarks[name].hex().encode(), quoted))
    for marker in repo.obsstore._all:
        ui.write(b'O %s\n' % obsolete._fm0encodeonemarker(marker).hex().encode())


@command(b'unbundle-push', [], norepo=False)
def unbundle_push(ui, repo, name, **opts):
    """take the push whose bytes are in a file"""
    with open(name, 'rb') as bundle:
        repo.peer().unbundle(bundle, [b'force'], b'')
