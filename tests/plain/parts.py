"""Handling the parts of a push, and the reply to it."""
from bundles import bundle
from changegroups import Malformed, Unfit, add, read_changegroup
from container import is_mandatory_type, read_bundle
from keys import merge, push_key, read_markers
from repository import DRAFT, PUBLIC, SECRET, advance, heads, knows, phase_of
from rules import rule, seen

NONE = b"\xff" * 20
KNOWN = {
    b"replycaps": (), b"check:heads": (), b"check:phases": (), b"phase-heads": (), b"obsmarkers": (), b"output": (),
    b"bookmarks": (), b"check:bookmarks": (), b"error:abort": (b"message", b"hint"),
    b"changegroup": (b"version", b"nbchanges", b"targetphase"), b"pushkey": (b"namespace", b"key", b"old", b"new"),
}


class Refused(Exception):
    """What ends a push: why, and the part that tells it."""

    def __init__(self, reason, kind, *params):
        super().__init__(reason)
        self.part = (kind, tuple((key, value[:255]) for key, value in params), b"")


def aborted(reason, message):
    return Refused(reason, b"ERROR:ABORT", (b"message", message.encode()))


def raced(what):
    return Refused(what, b"ERROR:PUSHRACED", (b"message", what.encode()))


def entries(payload, size):
    """A payload of entries of one size."""
    if len(payload) % size:
        raise Malformed
    return [payload[at:at + size] for at in range(0, len(payload), size)]


def all_known(repo, nodes, place):
    if not all(knows(repo, it) for it in nodes):
        raise aborted("unknown node", f"part {place} names an unknown node")


@rule
def check_heads(repo, part, place):
    """Ids, which sorted are the heads of all that is here."""
    if sorted(entries(part.payload, 20)) != heads(repo):
        raise raced("heads changed")


@rule
def phase_entries(payload):
    """A phase of four bytes and an id, for each."""
    pairs = [(int.from_bytes(it[:4], "big"), it[4:]) for it in entries(payload, 24)]
    if any(phase > SECRET for phase, _ in pairs):
        raise Malformed
    return pairs


@rule
def check_phases(repo, part, place):
    """Each id is known and has that phase; the first where it is not so decides."""
    for phase, node in phase_entries(part.payload):
        all_known(repo, [node], place)
        if phase_of(repo, node) != phase:
            raise raced("phases changed")


@rule
def phase_heads(repo, part, place):
    """All ids are known; then each one and its ancestors are lowered to its phase."""
    pairs = phase_entries(part.payload)
    all_known(repo, [node for _, node in pairs], place)
    for phase, node in pairs:
        advance(repo, phase, node)


@rule
def bookmark_entries(payload):
    """An id, the size of a name in two bytes, and the name, for each. An id of bytes ff is no bookmark."""
    pairs = []
    while payload:
        size = 22 + int.from_bytes(payload[20:22], "big")
        if len(payload) < max(22, size):
            raise Malformed
        pairs.append((payload[22:size], None if payload[:20] == NONE else payload[:20]))
        payload = payload[size:]
    return pairs


@rule
def check_bookmarks(repo, part, place):
    """Each id is known, and the bookmark is on it; the first where it is not so decides."""
    for name, node in bookmark_entries(part.payload):
        all_known(repo, [node] if node is not None else [], place)
        if repo.bookmarks.get(name) != node:
            raise raced("bookmarks changed")


@rule
def set_bookmarks(repo, part, place):
    """All ids are known; then each bookmark is set or deleted, whatever its name."""
    pairs = bookmark_entries(part.payload)
    all_known(repo, [node for _, node in pairs if node is not None], place)
    for name, node in pairs:
        if node is None:
            repo.bookmarks.pop(name, None)
        else:
            repo.bookmarks[name] = node


def params_of(part):
    return {key: value for _, key, value in part.params}


@rule
def changegroup(repo, part, place, is_seed=False):
    """Adds the changesets. A push makes all of them, known ones too, draft at most, or public where the server
    publishes; a seed gives new ones the phase that it asks for. The result is how many heads there are more, and
    one; or where there are fewer, how many fewer, negative, less one."""
    params, before = params_of(part), len(heads(repo))
    target = params.get(b"targetphase", b"1")
    changesets = read_changegroup(params.get(b"version", b"01"), part.payload)
    if target not in (b"0", b"1", b"2"):
        raise Malformed
    phase = int(target) if is_seed else PUBLIC if repo.publishing else DRAFT
    for it in changesets:
        add(repo, it, phase)
    for it in changesets if not is_seed else ():
        advance(repo, phase, it[0])
    more = len(heads(repo)) - before
    return b"reply:changegroup", (b"return", b"%d" % (more + 1 if more >= 0 else more - 1))


@rule
def obsmarkers(repo, part, place):
    return b"reply:obsmarkers", (b"new", b"%d" % merge(repo, read_markers(part.payload)))


@rule
def pushkey(repo, part, place):
    """All four parameters are there. What is mandatory and not granted ends the push."""
    params = params_of(part)
    if not all(key in params for key in KNOWN[b"pushkey"]):
        raise Malformed
    asked = [params[key] for key in KNOWN[b"pushkey"]]
    is_granted = push_key(repo, *asked)
    if is_mandatory_type(part.kind) and not is_granted:
        namespace, key, old, new = asked
        raise Refused("key not set", b"ERROR:PUSHKEY", (b"in-reply-to", b"%d" % part.id), (b"namespace", namespace),
                      (b"key", key), (b"new", new), (b"old", old))
    return b"reply:pushkey", (b"return", b"%d" % is_granted)


HANDLERS = {
    b"check:heads": check_heads, b"check:phases": check_phases, b"check:bookmarks": check_bookmarks,
    b"phase-heads": phase_heads, b"bookmarks": set_bookmarks, b"changegroup": changegroup,
    b"obsmarkers": obsmarkers, b"pushkey": pushkey,
}


@rule
def is_ignored(part):
    """What is of no known type, or has a mandatory parameter that is not known, is ignored where it is advisory and
    ends the push where it is mandatory."""
    known = KNOWN.get(part.kind.lower())
    wrong = [key for is_mandatory, key, _ in part.params if is_mandatory and known is not None and key not in known]
    if (wrong or known is None) and is_mandatory_type(part.kind):
        params = ((b"params", b"\0".join(wrong)),) if wrong else ()
        raise Refused("unsupported content", b"ERROR:UNSUPPORTEDCONTENT", (b"parttype", part.kind.lower()), *params)
    return bool(wrong) or known is None


@rule
def handle(repo, part, place, is_seed=False):
    """Changes the repository as the part asks. Gives the type and the result of a reply, or nothing."""
    kind = part.kind.lower()
    if is_ignored(part) or kind in (b"replycaps", b"output"):
        seen("part without effect")
        return None
    if kind == b"error:abort":
        raise aborted("client aborted", "client aborted")
    seeding = (is_seed,) if kind == b"changegroup" else ()
    try:
        return HANDLERS[kind](repo, part, place, *seeding)
    except Malformed:
        raise aborted("malformed part", f"part {place} is malformed") from None
    except Unfit:
        raise aborted("bad changeset", f"part {place} holds a bad changeset") from None


@rule
def run(repo, parts, is_seed=False):
    """All parts in order, on a copy. Replies are those to the parts behind the first `replycaps` that is not
    ignored. The first part that is refused ends it."""
    repo, replies, is_replying = repo.copy(), [], False
    for place, part in enumerate(parts):
        answer = handle(repo, part, place, is_seed)
        if part.kind.lower() == b"replycaps" and not is_ignored(part):
            is_replying = True
        if answer is not None and is_replying:
            kind, result = answer
            replies.append((kind, ((b"in-reply-to", b"%d" % part.id), result), b""))
    return repo, replies


@rule
def push(repo, data):
    """The repository after a push, why it was aborted or nothing, and the reply. An aborted push changes nothing, and
    its reply is one part, whether replies were asked for or not."""
    parts, fault = read_bundle(data)
    try:
        if fault is not None:
            seen(f"stream fault: {fault}")
            raise aborted("stream fault", f"stream fault {fault}")
        repo, replies = run(repo, parts)
    except Refused as refused:
        reason = refused.args[0]
        seen(f"aborted: {reason}")
        return repo, reason, bundle(refused.part)
    return repo, None, bundle(*replies)
