"""A repository: changesets in their order, a phase for each, markers, bookmarks; and what follows from these."""
import hashlib

from rules import rule, seen

NULL = bytes(20)
PUBLIC, DRAFT, SECRET = range(3)


class Repository:
    """The changesets as rows of id, parents and text."""

    def __init__(self, publishing):
        self.publishing, self.rows, self.revs, self.phases = publishing, [], {}, []
        self.markers, self.bookmarks = [], {}

    def copy(self):
        it = Repository(self.publishing)
        it.rows, it.revs, it.phases = list(self.rows), dict(self.revs), list(self.phases)
        it.markers, it.bookmarks = list(self.markers), dict(self.bookmarks)
        return it

    def parents(self, rev):
        """The numbers of those parents that are no null."""
        return [self.revs[it] for it in self.rows[rev][1:3] if it != NULL]

    def node(self, rev):
        return self.rows[rev][0]


@rule
def node_id(first, second, text):
    """SHA-1 of the lesser parent, the greater one and the text."""
    return hashlib.sha1(min(first, second) + max(first, second) + text).digest()


@rule
def knows(repo, node):
    """The null id is always known."""
    return node == NULL or node in repo.revs


def text_of(repo, node):
    return b"" if node == NULL else repo.rows[repo.revs[node]][3]


@rule
def heads(repo):
    """The changesets that are nobody's parent, in ascending order of ids, whatever their phase and markers. The null
    id alone where there are no changesets."""
    parents = {it for row in repo.rows for it in row[1:3]}
    return sorted(row[0] for row in repo.rows if row[0] not in parents) or [NULL]


@rule
def ancestors(repo, rev):
    """The changeset itself, and all that its parents have here."""
    found, waiting = set(), [rev]
    while waiting:
        it = waiting.pop()
        if it not in found:
            found.add(it)
            waiting += repo.parents(it)
    return found


@rule
def phase_of(repo, node):
    """The null id is public."""
    return PUBLIC if node == NULL else repo.phases[repo.revs[node]]


@rule
def register(repo, phase):
    """The changeset that was added last gets the greatest of that phase and its parents' phases."""
    repo.phases.append(max([phase, *(repo.phases[it] for it in repo.parents(len(repo.rows) - 1))]))


@rule
def advance(repo, phase, node):
    """That changeset and all its ancestors get the lesser of their phase and that one."""
    for it in ancestors(repo, repo.revs[node]) if node != NULL else ():
        repo.phases[it] = min(repo.phases[it], phase)


@rule
def is_obsolete(repo, node):
    """A changeset that is here and not public, and is the predecessor of a marker."""
    is_predecessor = any(it[6:26] == node for it in repo.markers)
    if is_predecessor and node in repo.revs and phase_of(repo, node) == PUBLIC:
        seen("obsolete: a public predecessor is not")
    return is_predecessor and node in repo.revs and phase_of(repo, node) != PUBLIC


@rule
def hidden(repo):
    """The obsolete changesets of which all children are hidden too."""
    found = set()
    for rev in reversed(range(len(repo.rows))):
        children = [it for it in range(rev + 1, len(repo.rows)) if rev in repo.parents(it)]
        if is_obsolete(repo, repo.node(rev)) and found.issuperset(children):
            found.add(rev)
    return found


ESCAPES = ((b"\\\\", b"\\"), (b"\\n", b"\n"), (b"\\r", b"\r"), (b"\\0", b"\0"))


@rule
def branch_of(text):
    """In the third line, which has an end, behind its second space: pieces with bytes 0 between them and escapes in
    them. The last piece that begins with `branch:` names the branch. With none it is `default`."""
    lines, name = text.split(b"\n"), b"default"
    if len(lines) < 4 or lines[2].count(b" ") < 2:
        return name
    for piece in lines[2].split(b" ", 2)[2].split(b"\0"):
        piece = unescaped(piece)
        if piece.startswith(b"branch:"):
            name = piece.removeprefix(b"branch:")
    return name


def unescaped(piece):
    made = b""
    while piece:
        escape, meant = next((it for it in ESCAPES if piece.startswith(it[0])), (piece[:1], piece[:1]))
        made, piece = made + meant, piece[len(escape):]
    return made
