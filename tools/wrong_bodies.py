#!/usr/bin/env python3
"""Tries the wrong bodies (mutation tests of the contracts): edits of the code that turn its meaning, each of which the
prover has to refuse.

    tools/wrong_bodies.py [CRATE..]                 over the crates below, as `make build` left them
    tools/wrong_bodies.py --built FOLDER [CRATE..]  over those of another folder
    tools/wrong_bodies.py --write [CRATE..]         writes at the head of each what was seen to refuse it
    tools/wrong_bodies.py --take [CRATE..]          writes the goals there that the last run saw, and tries nothing
    tools/wrong_bodies.py --right [CRATE..]         asks the same goals of the right bodies, which have to be proved
    tools/wrong_bodies.py --selftest                tests, on hg_delta, how wrong bodies are judged

CRATE/NAME names one wrong body in the place of all of a crate.

They stand in crates/NAME/wrong/*.edit:

    breaks: FUNCTION, GOAL      what refuses it: a clause of the function's contract, or another goal of its proof
    goal: NAME ARGUMENTS        that goal as the prover names it, and what its answer takes (written by --write), or
                                'all', where no tactic by itself proves it of the right body (by --right --write)
    steps: all                  the right body wants all that `grind` may count, and not a tenth (by --right --write)
    turns: TEXT                 what it does, and where that is not plain, why the goal is false then
    file: src/FILE              the file that the next lines speak of
    old: TEXT                   stands in it once
    new: TEXT                   stands there in the wrong body

Many are tried at once, in one check of a copy of the crate. There each wrong body stands beside the function that
it turns, as a function of its own with the same contract and proof; every function that is not tried has a hole in
the place of its proof, and no body. A method of a trait, or a function that calls itself, is turned in its place,
once in a check; what changes no function is tried by itself. Where a head has the goal, that goal alone
is asked for: by the answer that the function's proof has, or else by the tactics that the prover tries first. All other
goals of that function are left. Where a head has none, a check before lists the goals that are the clause it names;
where it has 'all', the prover goes through all goals by itself, with whatever it tries.

That a goal is refused so shows something only where the same way proves it of the right body. --right looks at that.

A wrong body is refused where the prover does not prove a goal of the function that its head names. That a
caller is not proved any more, or that the check ends in some other way, counts for nothing: such a wrong body is
tried once more alone, in its place and with all goals, and what then is not refused fails the script, as does one
that the compiler refuses, and one without a head.
"""
import os
import sys

import sources
from wrong_bodies import selftest
from wrong_bodies.crate import LOGS, MORE_STEPS, Crate
from wrong_bodies.edits import edits_of, write_head
from wrong_bodies.prover import Prover


def tell(name, crate, edits, words):
    """Prints what came of the edits of a crate, and writes what their heads want; returns how many are refused."""
    for edit in edits:
        if not edit.why and "--write" in words:
            write_head(edit)
        elif not edit.why and not edit.function:
            edit.why = f"it has no head; {edit.seen}"
        if edit.why:
            print(f"wrong body {name}/{edit.name}: NOT REFUSED: {edit.why}")
        elif edit.named and edit.asked_why:
            print(f"wrong body {name}/{edit.name}: refused, but not by its goal alone: {edit.asked_why}")
    with open(f"{LOGS}/{name}.goals", "w", encoding="utf-8") as file:
        file.writelines(f"{it.name} {it.to_ask}\n" for it in edits if it.to_ask and not it.why and not it.named)
    refused = sum(not it.why for it in edits)
    print(f"{name}: {refused} of {len(edits)} wrong bodies refused, in {crate.rounds} checks", flush=True)
    return refused


def chosen_of(crate, names):
    """The edits of a crate that are named, each by itself or with all of the crate."""
    return [it for it in edits_of(crate.folder) if {crate.name, f"{crate.name}/{it.name}"} & set(names)]


def ask_right(prover, name, names, words):
    """Asks of the right bodies of a crate what is asked of the wrong ones, and writes the heads of those whose goal is
    not proved so; returns how many were proved, and how many not."""
    crate = Crate(prover, name, turns=False)
    edits = chosen_of(crate, names)
    tried = crate.try_right(edits)
    missed = {(it.function, it.named): it.why for it in tried if it.why}
    for edit in (it for it in tried if it.why):
        print(f"right body {name}/{edit.name}: NOT PROVED: {edit.why}")
    for edit in edits if "--write" in words else ():
        why = missed.get((edit.function, edit.named))
        if why and not edit.searches_all:
            edit.steps, edit.searches_all = "", why != MORE_STEPS
            edit.to_ask, edit.asked_why = edit.named, ""
            write_head(edit)
    print(f"{name}: {len(tried) - len(missed)} of {len(tried)} goals proved of right bodies", flush=True)
    return len(tried) - len(missed), len(missed)


def take_goals(name):
    """Writes the goals that the last run saw at the heads of those that have none."""
    path = f"{LOGS}/{name}.goals"
    goals = dict(it.split(" ", 1) for it in sources.read(path).splitlines()) if os.path.exists(path) else {}
    for edit in edits_of(f"{sources.ROOT}/crates/{name}"):
        if edit.name in goals and edit.function and not edit.named:
            edit.to_ask = goals[edit.name]
            write_head(edit)


def main(words):
    built = sources.ROOT
    if "--built" in words:
        at = words.index("--built")
        built = os.path.abspath(words[at + 1])
        del words[at : at + 2]
    if sources.shows_usage(__doc__, [it.partition("/")[0] for it in words], ("--write", "--take", "--right", "--selftest")):
        return 2
    names = [it for it in words if not it.startswith("--")]
    names = names or sources.with_wrong_bodies()
    if "--take" in words:
        for name in names:
            take_goals(name)
        return 0
    prover, failed, passed = Prover(built), 0, 0
    if "--selftest" in words:
        return selftest.run(prover)
    for name in dict.fromkeys(it.partition("/")[0] for it in names if "--right" in words):
        proved, missed = ask_right(prover, name, names, words)
        failed, passed = failed + missed, passed + proved
    for name in dict.fromkeys(it.partition("/")[0] for it in names if "--right" not in words):
        crate = Crate(prover, name)
        edits = crate.try_all(chosen_of(crate, names))
        refused = tell(name, crate, edits, words)
        failed, passed = failed + len(edits) - refused, passed + refused
    print(f"{passed} passed, {failed} failed")
    return 1 if failed else 0


if __name__ == "__main__":
    sys.exit(main(sys.argv[1:]))
