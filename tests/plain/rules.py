"""Which rules were driven, and how often: each function that says a rule, and each case that it names."""
import collections
import functools
import glob
import os
import re

HERE = os.path.dirname(os.path.abspath(__file__))
DRIVEN = collections.Counter()
NAMED = re.compile(r'^@rule\ndef (\w+)|\bseen\("([^"]+)"\)', re.M)
# the cases that come by number or by name
CASES = {
    "stream fault": range(1, 11),
    "event": ("push", "key", "not forced", "cut off"),
    "command": ("one", "replay", "report", "serve, behind a seed"),
    "aborted": ("heads changed", "phases changed", "bookmarks changed", "unsupported content", "key not set",
                "malformed part", "bad changeset", "unknown node", "client aborted", "stream fault"),
}


def rule(body):
    """Counts the calls of a function."""
    @functools.wraps(body)
    def counted(*words, **named_words):
        DRIVEN[body.__name__] += 1
        return body(*words, **named_words)
    return counted


def seen(case):
    DRIVEN[case] += 1


def named():
    """The rules and cases that stand in these files."""
    found = {f"{kind}: {it}" for kind, all_of_it in CASES.items() for it in all_of_it}
    for path in glob.glob(f"{HERE}/*.py"):
        with open(path, encoding="utf-8") as file:
            found.update(function or case for function, case in NAMED.findall(file.read()))
    return sorted(found)
