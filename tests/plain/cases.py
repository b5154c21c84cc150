"""Cases that were written by hand, beside the random ones: a name, whether the server publishes, what is pushed, what
is asked, and the answer."""
from bundles import NULL, ROOT, node_of
from choices import TAILS
from pushes import Part, Push

ROOT_ID, NONE = ROOT.hex(), NULL.hex()
CHILDREN = [node_of(text, ROOT).hex() for text in (b"one", b"two")]


def changeset(node, parent, text):
    """As a delta on nothing."""
    return ("changeset", "02", node, parent, NONE, NONE, [(0, 0, text)] if text else [])


# Whether a changeset is obsolete asks for its phase: a public one never is, so it is not hidden.
MARKED = Push([Part("REPLYCAPS", 0, [], []),
               Part("CHANGEGROUP", 1, [(True, b"version", b"02")],
                    [changeset(ROOT_ID, NONE, b""), changeset(CHILDREN[0], ROOT_ID, b"one"),
                     changeset(CHILDREN[1], ROOT_ID, b"two"), TAILS[0][0]]),
               Part("OBSMARKERS", 2, [], [b"\0", ("marker", [], 0, CHILDREN[0], b"")])], {})
CASES = [
    ("a public changeset with a marker is a head of its branch", True, [("push", MARKED)], (b"branchmap", b"", []),
     f"default {CHILDREN[0]} {CHILDREN[1]}".encode()),
    ("a draft one is hidden", False, [("push", MARKED)], (b"branchmap", b"", []), f"default {CHILDREN[1]}".encode()),
]
