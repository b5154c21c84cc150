"""The text of each command and page, of a repository as it is."""
import re
import string
from urllib.parse import quote_from_bytes

from keys import id_of
from repository import DRAFT, NULL, PUBLIC, ancestors, branch_of, heads, hidden, is_obsolete, knows, phase_of
from rules import rule, seen

PLAIN = string.ascii_letters + string.digits + "_.-~/"
LETTERS = (string.ascii_letters + string.digits).encode()
CAPABILITIES = (b"batch branchmap bundle2=HG20%0Abookmarks%0Achangegroup%3D01%2C02%0Aerror%3Dabort%2Cunsupportedcontent"
                b"%2Cpushraced%2Cpushkey%0Aobsmarkers%3DV0%0Aphases%3Dheads%0Apushkey getbundle httpheader=1024 known "
                b"lookup pushkey unbundle")


def escaped(data, kept):
    """All but these bytes as `%` and two hexadecimal digits."""
    return b"".join(bytes([it]) if it in kept else b"%%%02X" % it for it in data)


@rule
def report(repo, pushes):
    """A line for each changeset, bookmark, marker, and push that is done."""
    lines = [b"C %d %s %d %d" % (rev, row[0].hex().encode(), repo.phases[rev], is_obsolete(repo, row[0]))
             for rev, row in enumerate(repo.rows)]
    lines += [b"B %s %s" % (node.hex().encode(), escaped(name, LETTERS))
              for name, node in sorted(repo.bookmarks.items())]
    lines += [b"O " + it.hex().encode() for it in repo.markers]
    lines += [b"J %d" % it for it in pushes]
    return b"".join(it + b"\n" for it in lines)


@rule
def capabilities(repo, words):
    return CAPABILITIES


@rule
def heads_text(repo, words):
    return b" ".join(it.hex().encode() for it in heads(repo)) + b"\n"


@rule
def known(repo, words):
    """For each id, with one space between, whether it is known; what is no id is not."""
    nodes = words.get(b"nodes", b"")
    ids = [id_of(it) for it in nodes.split(b" ")] if nodes else []
    return b"".join(b"1" if it is not None and knows(repo, it) else b"0" for it in ids)


@rule
def draft_roots(repo):
    """Each draft changeset without a draft parent, in order; where the server publishes, it says so behind them."""
    pairs = [(row[0].hex().encode(), b"1") for rev, row in enumerate(repo.rows)
             if repo.phases[rev] == DRAFT and DRAFT not in (repo.phases[it] for it in repo.parents(rev))]
    return pairs + ([(b"publishing", b"True")] if repo.publishing else [])


@rule
def told_bookmarks(repo):
    """In order of the names, without those on null, and those whose name would break a line."""
    return [(name, node.hex().encode()) for name, node in sorted(repo.bookmarks.items())
            if node != NULL and not set(name) & {9, 10, 13}]


@rule
def listkeys(repo, words):
    """Key, tab, value, a line each, without an end of the last line."""
    namespace = words.get(b"namespace")
    if namespace == b"phases":
        pairs = draft_roots(repo)
    elif namespace == b"bookmarks":
        pairs = told_bookmarks(repo)
    elif namespace == b"namespaces":
        pairs = [(it, b"") for it in (b"bookmarks", b"namespaces", b"obsolete", b"phases")]
    else:
        pairs = []
    return b"\n".join(b"\t".join(it) for it in pairs)


@rule
def branch_map(repo, words):
    """A line for each branch in order of the names: those of its changesets that are not hidden and no ancestor of
    another such one of the branch. All but letters, digits and `_ . - ~ /` of the name is escaped."""
    gone, branches = hidden(repo), {}
    for rev, row in enumerate(repo.rows):
        if rev in gone:
            seen("branch: a changeset is hidden")
        else:
            branches.setdefault(branch_of(row[3]), []).append(rev)
    lines = []
    for name, revs in sorted(branches.items()):
        below = set().union(*(ancestors(repo, it) - {it} for it in revs))
        tips = [repo.node(it).hex() for it in revs if it not in below]
        lines.append(" ".join((quote_from_bytes(name, PLAIN), *tips)).encode())
    return b"\n".join(lines)


@rule
def lookup(repo, words):
    """`tip`, `.`, `null`, a whole id, a bookmark, the beginning of one changeset's id, in this order."""
    key, last = words.get(b"key", b""), repo.node(-1) if repo.rows else NULL
    node = {b"tip": last, b".": last, b"null": NULL}.get(key)
    if node is None and id_of(key) is not None and knows(repo, id_of(key)):
        node = id_of(key)
    if node is None:
        node = repo.bookmarks.get(key)
    if node is None and key:
        begun = [row[0] for row in repo.rows if row[0].hex().encode().startswith(key)]
        if len(begun) > 1:
            seen("lookup: ambiguous")
            return b"0 ambiguous identifier\n"
        if begun:
            seen("lookup: the beginning of an id")
            node = begun[0]
    if node is None:
        seen("lookup: unknown")
        return b"0 unknown revision '%s'\n" % key.replace(b"\n", b" ")
    return b"1 %s\n" % node.hex().encode()


BATCHED = {b"heads": heads_text, b"known": known, b"listkeys": listkeys, b"branchmap": branch_map, b"lookup": lookup}
TEXTS = {**BATCHED, b"capabilities": capabilities}
SPELT = ((b":", b":c"), (b",", b":o"), (b";", b":s"), (b"=", b":e"))


def spelt(data):
    """The escapes of a batch."""
    for plain, escape in SPELT:
        data = data.replace(plain, escape)
    return data


def unspelt(data):
    for plain, escape in reversed(SPELT):
        data = data.replace(escape, plain)
    return data


@rule
def batch(repo, words):
    """Commands with `;` between, each a name, a space, and arguments with `,` between: the answers in the same
    manner. Where it has none, or one that only stands alone, it is refused."""
    answers = []
    for item in words.get(b"cmds", b"").split(b";"):
        name, _, rest = item.partition(b" ")
        pairs = (it.partition(b"=") for it in rest.split(b",")) if rest else ()
        told = BATCHED.get(unspelt(name))
        if told is None:
            seen("batch: refused")
            return None
        answers.append(spelt(told(repo, {unspelt(key): unspelt(value) for key, _, value in pairs})))
    return b";".join(answers)


@rule
def form(text):
    """Pieces with `&` between, name and value with the first `=` between; `+` is a space, `%` and two hexadecimal
    digits are a byte. The later of two values counts."""
    return {plain(name): plain(value) for name, _, value in (it.partition(b"=") for it in text.split(b"&") if it)}


def plain(text):
    return re.sub(rb"%([0-9A-Fa-f]{2})", lambda found: bytes.fromhex(found[1].decode()), text.replace(b"+", b" "))


@rule
def numbers(repo):
    """What the page and the counters show of a repository."""
    by_phase = {name: repo.phases.count(phase) for phase, name in enumerate(("public", "draft", "secret"))}
    return {**by_phase, "changesets": len(repo.rows), "heads": len(heads(repo)) if repo.rows else 0,
            "bookmarks": len(repo.bookmarks), "markers": len(repo.markers)}
