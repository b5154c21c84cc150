# rules.py - rules of a team for what may be pushed
#
# Copyright the authors of Deqtorap
#
# This software may be used and distributed according to the terms of the
# GNU General Public License version 2 or any later version.

"""Rules of a team for what may be pushed: three examples, to be copied and changed.

Each function of this file whose name does not begin with `_` is a rule. The hook calls it with each push that is
sound. It returns nothing where the push may run; else a line, which the client is told, and the push is refused.
`mirror/README.md` says what a push has.
"""

from fnmatch import fnmatch

# who may push changesets to a branch, or move a bookmark, of that name; anybody may to others
OWNERS = {"stable": {"ann", "bob"}, "release": {"ann"}}

# the most bytes of a file, and names of files that do not belong here
LARGEST = 10 * 1024 * 1024
FORBIDDEN = ["*.orig", "*.pem", "secrets/*"]


def only_owners(push):
    for name in sorted(push.branches | set(push.bookmarks)):
        if name in OWNERS and push.user not in OWNERS[name]:
            return f"only {' and '.join(sorted(OWNERS[name]))} may push to {name}"


def no_large_or_forbidden_files(push):
    for file in push.files:
        if file.size > LARGEST:
            return f"{file.name} has {file.size:,} bytes, and {LARGEST:,} are the most"
        for pattern in FORBIDDEN:
            if fnmatch(file.name, pattern):
                return f"{file.name} does not belong here ({pattern})"


def no_new_heads(push):
    for branch in sorted(push.branches):
        before, after = push.heads(branch)
        if after > max(before, 1):
            return f"the branch {branch} would have {after} heads in the place of {before}: pull, and merge or rebase"
