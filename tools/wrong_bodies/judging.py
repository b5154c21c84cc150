"""What the prover said of a check, and whether that refuses a wrong body."""
import re

from wrong_bodies.edits import spoken

# what a proof file says that names something which the edit took away
GONE = re.compile(
    r"has no field|is not in scope|is no name|has no `|operand is missing|cannot continue|can be named from here|nearest: |"
    r"^: module $|has no *$")
# what a tactic says where it finds no proof
FOUND_NOTHING = re.compile(r"`(search|grind)`")
# why a goal is not asked of a right body
NO_SUCH_GOAL = "the right body has no such goal"


def answers_to(answers, goals):
    """A file of answers without those of other goals, and without what only these name."""
    kept, owner = [], ""
    for line in answers.splitlines():
        named = re.match(r"pub (\S+) :", line)
        word = re.match(r"[^\s)\]}-]\S*", line)
        if named:
            owner = named[1]
        elif word and word[0] not in (owner, "unfolding"):
            owner = ""
        if not owner or owner in goals:
            kept.append(line)
    told = "\n".join(it for it in kept if not it.startswith("use "))
    return "\n".join(without_unused(it, told) for it in kept) + "\n"


def without_unused(line, told):
    """A line without the branches of its function's goals that it brings and that what is told does not name: an edit
    may have no such branch."""
    found = re.fullmatch(r"(use .*\.Goals\.\{)(.*)\}", line)
    if not found:
        return line
    names = [it for it in found[2].split(", ") if it in told]
    return f"{found[1]}{', '.join(names)}}}" if names else ""


def left_goals(crate, there, said):
    """The goals of a function that a check lists above the line that it has for it."""
    above = said.partition(f"\nfn {crate}::{there}: ")[0].split("\nfn ")[-1]
    return re.findall(r"^note: src/.*\(`([^`]+)`\)", above, re.M)


def first_error(said):
    lines = [it for it in said.splitlines() if ": error" in it] or said.splitlines()[:1] or ["the prover said nothing"]
    return f"it did not reach the prover: {lines[0][:200]}"


def plain(name):
    """A function's name without the mark of a closure inside of it: `table::fn::Row::knows::any` is
    `table::Row::knows::any`."""
    return "::".join(it for it in name.split("::") if it != "fn")


def open_goals(crate, said):
    """For each function the goals that are its own and that were not proved."""
    found = {}
    for name, told in re.findall(rf"^fn {crate}::(\S+): (.*)$", said, re.M):
        goals = []
        for reason in told.split("; "):
            quoted = re.findall(r"`([^`]+)`", reason)
            if "did not prove" in reason:
                goals += [it for it in quoted if it != "search"]
            elif reason.startswith("it stands on") and "which antt refuses" in reason:
                own = f"Rattle.{crate}.proofs.{plain(name).replace('::', '.')}."
                refused = [it.rpartition(".")[2] for it in quoted if it.startswith(own)]
                goals += those_that_fit(refused, plain(name), said)
        if told.startswith("not proved") and not goals:
            goals = refused_answers(plain(name), said)
        if goals:
            found[plain(name)] = goals
    return found


def answer_errors(name, said):
    """What is said of the files of a function's proof: for each error the goal or the lemma, and whether it names what
    is not there any more."""
    place = rf"^\./proofs/{name.replace('::', '/')}/\w+\.antt"
    errors = re.findall(place + r":\d+:\d+: error: (?:`([^`]+)`: )?(.*)$", said, re.M)
    return [(goal, bool(GONE.search(re.sub(r"`[^`]*`", "", it)))) for goal, it in errors]


def those_that_fit(goals, name, said):
    """Of the goals whose answers are refused, those whose answers name nothing that is gone: such an answer says
    nothing of the clause. None where a lemma beside the answers names it."""
    gone = {goal for goal, is_gone in answer_errors(name, said) if is_gone}
    return [it for it in goals if it not in gone] if gone <= set(goals) else []


def refused_answers(name, said):
    """The goals whose answers, in the files of a function's proof, are refused; none where a file names what is gone.
    """
    errors = answer_errors(name, said)
    return [] if any(is_gone for _, is_gone in errors) else [goal for goal, _ in errors if goal]


def judge(edit, names, goals, said):
    """Says why an edit is not refused, or notes which goals refused it. `names` has for each function that is asked
    for its name in the copy."""
    own = {}
    for fn, there in names.items():
        own.update({f"{fn}{it.removeprefix(there)}": opened for it, opened in goals.items()
                    if f"{it}::".startswith(f"{there}::")})
    wanted = {name: it for name, it in own.items() if not edit.function or name.startswith(edit.function)}
    if not own:
        there = "|".join(map(re.escape, names.values()))
        told = [it for it in said.splitlines() if re.match(rf"fn \S+::({there}):", it)]
        edit.why = f"no goal of {', '.join(sorted(names))} is open: {'; '.join(told)[:300]}"
    elif not wanted:
        edit.why = f"what is open is not of {edit.function}: {own}"
    elif edit.goal and not any(edit.goal == spoken(it) for opened in wanted.values() for it in opened):
        edit.why = f"{edit.goal} is not open, but {wanted}"
    edit.seen = [(name, [spoken(it) for it in opened]) for name, opened in own.items()]
    edit.to_ask = goal_to_ask(edit, names, wanted, said)


def goal_to_ask(edit, names, wanted, said):
    """The goal that refuses an edit, as a head may have it: its name, and what an answer to it takes."""
    for fn, opened in wanted.items():
        fitting = [it for it in opened if not edit.goal or edit.goal == spoken(it)]
        if fn not in names or not fitting:
            continue
        place = f"./proofs/{names[fn].replace('::', '/')}/Answers.antt"
        refused = re.findall(rf"^{re.escape(place)}:\d+:\d+: error: `([^`]+)`", said, re.M)
        for goal in fitting:
            if goal in refused:
                return goal
        # what the prover offers to write stands below the line that names the file
        offered = re.search(rf"^help: (?:write|add these lines to) {re.escape(place)}\b.*\n((?: .*\n|\n)*)", said, re.M)
        for goal in fitting:
            found = offered and re.search(rf"^    ({re.escape(goal)}(?: \S+)*) = \?$", offered[1], re.M)
            if found:
                return found[1]
    return ""


def judge_asked(edit, function, there, tactics, said):
    """Says why an edit is not refused by the goals that were asked for, or notes which one refused it. `there` is the
    function's name in the copy; `tactics` has how many were tried on each goal, 0 where the proof has an answer."""
    place = re.escape(f"./proofs/{there.replace('::', '/')}/Answers.antt")
    told = dict(re.findall(rf"^{place}:\d+:\d+: error: (?:`([^`]+)`: )?(.*)$", said, re.M))
    line = re.search(rf"^fn \S+::{re.escape(there)}: not proved\b(?:; it stands on (.*?), which antt refuses)?", said, re.M)
    refused = [it.rpartition(".")[2] for it in re.findall(r"`([^`]+)`", line[1] or "")] if line else []
    # an answer in a block `mutual` stays refused, and the line of its function does not name it
    refused += [it for it in told if line and tactics.get(it)]
    gone = any(GONE.search(re.sub(r"`[^`]*`", "", it)) for it in told.values())
    for place, ask in enumerate(edit.asks):
        goal = ask.split()[0]
        tries = [goal, *(f"tried-{place}-{number}" for number in range(1, tactics[goal]))]
        found_nothing = all(FOUND_NOTHING.match(told.get(it, "")) for it in tries) if tactics[goal] else not gone
        if goal in refused and found_nothing and edit.goal in ("", spoken(goal)):
            edit.why = edit.asked_why = ""
            edit.seen, edit.to_ask = [(function, [spoken(goal)])], ask if tactics[goal] else goal
            return
    edit.why = edit.asked_why = f"no goal that was asked for is refused ({', '.join(edit.asks)}): {told}"[:1000]


def not_proved(crate, edit, there, tactics, said):
    """Why what an edit's head asks for is not proved of a right body, which is `there` in the copy; nothing where it
    is."""
    if not re.search(rf"^fn \S+::{re.escape(there)}: ", said, re.M):
        return first_error(said)
    if edit.searches_all:
        opened = {it: goals for it, goals in open_goals(crate, said).items() if f"{it}::".startswith(f"{there}::")}
        return f"not all is proved: {opened}"[:1000] if opened else ""
    place = re.escape(f"./proofs/{there.replace('::', '/')}/Answers.antt")
    told = dict(re.findall(rf"^{place}:\d+:\d+: error: (?:`([^`]+)`: )?(.*)$", said, re.M))
    goal = edit.named.split()[0]
    tries = [goal, *(f"tried-0-{number}" for number in range(1, tactics[goal]))]
    if any(it not in told for it in tries):
        return ""
    is_there = not any(GONE.search(re.sub(r"`[^`]*`", "", told[it])) for it in tries)
    return f"{edit.named} is not proved: {told}"[:1000] if is_there else NO_SUCH_GOAL
