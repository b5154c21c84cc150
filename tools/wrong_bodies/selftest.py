"""Tests how wrong bodies are judged, on a small crate: what `tools/wrong_bodies.py` has to let through and to report.
"""
import os
import tempfile

import sources
from wrong_bodies.crate import Crate, Room
from wrong_bodies.edits import Edit
from wrong_bodies.judging import answers_to, open_goals

CRATE = "hg_delta"
# the end of a text is not appended
TAIL = ("src/text.rt", "text.extend_from_slice(&base[end..])?;", "text.extend_from_slice(&base[base.len()..])?;")
# want of memory is told as a short delta, by a method of a trait
METHOD = ("src/fault.rt", "fn from(_refused: E) -> Self {",
          "fn from(_refused: E) -> Self { if true { return DeltaFault::Short; }")
# a hunk may end before it begins
HUNK = ("src/hunk.rt", "if header.start < before || header.end < header.start {", "if header.start < before {")

# a file of answers, and what is left of it where the goal `returns` alone is asked for
ANSWERS = """use Rattle.hg_delta.proofs.text.apply.Goals as goal

helper : (n : ℕ) → n ≤ n
helper n = omega arith

pub returns-2 : goal.returns-2
unfolding outcome_of
returns-2 c =
    search rules {
    }

pub returns-3 : goal.returns-3
returns-3 c = record {
  one = c.one;
}

pub returns : goal.returns
returns c = helper c.args.max
"""
LEFT = """use Rattle.hg_delta.proofs.text.apply.Goals as goal

helper : (n : ℕ) → n ≤ n
helper n = omega arith

pub returns : goal.returns
returns c = helper c.args.max
"""

# a function whose contract opens a record at the end of a line, and another one
FUNCTIONS = """impl Row {
    fn turn(&mut self)
        ensures view { view self.new ≡ record (view self.old) {
            turned = true;
        } }
    {
        self.turned = true;
    }
}

fn next(row: &Row) -> u32 {
    row.next
}
"""

# a constant that one function speaks of, and one that a type has too; a method that calls a function of its name
CONSTANTS = """const MOST: u32 = 8;
const SIZE: usize = 4;

struct Row {
    bytes: [u8; SIZE],
}

impl Row {
    fn turn(&mut self) {
        turn(self);
    }
}

fn is_within(number: u32) -> bool
    ensures { result ≡ nat_leb number 8 }
{
    number <= MOST
}

fn size() -> usize {
    SIZE
}
"""

# what the prover says of a function with two answers that it refuses, of which one names what is gone
REFUSED = """./proofs/text/apply/Answers.antt:10:14: error: `returns-clause-ok`: record `c` has no field `rest`
./proofs/text/apply/Answers.antt:14:14: error: `returns-clause-fault`: as printed, the two types differ
fn hg_delta::text::apply: not proved; it stands on `Rattle.hg_delta.proofs.text.apply.Answers.returns-clause-ok`, \
`Rattle.hg_delta.proofs.text.apply.Answers.returns-clause-fault`, which antt refuses
"""


def edit(place, name, breaks, *pairs, goal=""):
    path = f"{place}/{name}.edit"
    with open(path, "w", encoding="utf-8") as file:
        file.write(f"breaks: {breaks}\n" if breaks else "")
        file.write(f"goal: {goal}\n" if goal else "")
        for changed, old, new in pairs:
            file.write(f"file: {changed}\nold: {old}\nnew: {new}\n")
    return Edit(path)


def nothing_is_open(crate):
    """A round without edits: the functions that would be turned are proved as they stand."""
    kept = tempfile.mkdtemp(prefix="wrong-kept-")
    asked = {"text::write_text", "text::apply", "hunk::read_hunk"}
    said = crate.check(Room(), asked, kept)
    return open_goals(CRATE, said) == {} and f"fn {CRATE}::text::apply: depends on a hole" in said


def wanted_of(place):
    """The edits that are tried together, each with a part of what is to be said of it, and nothing where it is to be
    refused."""
    file, old, _ = TAIL
    nothing, ok, alone = (file, old, f"{old} // as before"), "text::write_text, clause ok", "returns-clause-ok g c"
    return {
        edit(place, "refused", ok, TAIL): "",
        edit(place, "changes_nothing", "", nothing): "no goal of",
        edit(place, "another_clause", "text::write_text, clause fault", TAIL): "is not open",
        edit(place, "not_seen_by_the_public_clause", "text::apply, clause text", TAIL): "is not of",
        edit(place, "a_private_function", "hunk::read_hunk, clause placed", HUNK): "",
        edit(place, "a_method_of_a_trait", "fault::DeltaFaultFrom::from, its clause", METHOD): "",
        edit(place, "does_not_compile", "text::apply", (file, "return Err(DeltaFault::TooLong);", "return 7;")):
            "did not reach the prover",
        edit(place, "no_such_text", "text::apply", (file, "there is no such text", "none")): "does not stand",
        edit(place, "one_goal_refused", ok, TAIL, goal=alone): "",
        edit(place, "one_goal_and_nothing_changed", ok, nothing, goal=alone): "no goal of",
        edit(place, "one_goal_that_is_proved", "text::write_text, clause fault", TAIL,
             goal="returns-in_err-hunk-clause-fault g c"): "is not open",
        edit(place, "one_goal_that_is_not_there", ok, TAIL, goal="returns-then-never-clause-ok g c"): "",
        edit(place, "all_goals_asked_for", ok, TAIL, goal="all"): "",
        edit(place, "all_goals_and_nothing_changed", ok, nothing, goal="all"): "no goal of",
    }


def bodies_of(text):
    """The lines with which the bodies of the functions of a file begin."""
    with tempfile.TemporaryDirectory(prefix="edits-") as place:
        path = f"{place}/row.rt"
        with open(path, "w", encoding="utf-8") as file:
            file.write(text)
        return [text[it.begin :].partition("\n")[0] for it in sources.functions_of(path, place)]


def by_a_constant(prover):
    """Whether a constant is turned beside the function that its head names, and not where a type has it too; and
    whether a method that calls a function of its name stands beside itself."""
    with tempfile.TemporaryDirectory(prefix="edits-") as place:
        os.makedirs(f"{place}/src")
        with open(f"{place}/src/row.rt", "w", encoding="utf-8") as file:
            file.write(CONSTANTS)
        crate = Crate(prover, CRATE, place)
        most = edit(place, "most", "row::is_within, its clause", ("src/row.rt", "MOST: u32 = 8;", "MOST: u32 = 9;"),
                    goal="returns c")
        size = edit(place, "size", "row::size, its clause", ("src/row.rt", "SIZE: usize = 4;", "SIZE: usize = 5;"))
        turn = edit(place, "turn", "row::Row::turn, its clause", ("src/row.rt", "turn(self);", "let _none = self;"))
        for it in (most, size, turn):
            it.place = crate.placed(it)
        text = crate.made([most]).texts["src/row.rt"]
        parts = ("const MOST: u32 = 8;\nconst MOST_WRONG_0: u32 = 9;\n", "fn is_within_wrong_0(", "<= MOST_WRONG_0\n")
        return (most.place == ("row::is_within", True) and size.place is None
                and turn.place == ("row::Row::turn", True) and all(it in text for it in parts))


def by_right_bodies(prover):
    """Whether a goal that is asked of the right body is proved, and told where the body is wrong."""
    with tempfile.TemporaryDirectory(prefix="edits-") as place:
        tail = edit(place, "tail", "text::write_text, clause ok", TAIL, goal="returns-clause-ok g c")
        told = [Crate(prover, CRATE, turns=it).try_right([tail])[0].why for it in (False, True)]
        return not told[0] and told[1].startswith("returns-clause-ok g c is not proved")


def by_answers_that_fit():
    """Whether an answer counts that does not fit, and none that names what is gone, nor any beside such a lemma."""
    told = open_goals(CRATE, REFUSED)
    beside = open_goals(CRATE, REFUSED.replace("`returns-clause-ok`: record", "`lemma`: record"))
    return told == {"text::apply": ["returns-clause-fault"]} and beside == {}


def by_its_goal_alone(edits):
    """Whether one goal was enough where it should be, and nowhere else."""
    enough = {it.name: not it.asked_why for it in edits if it.named and not it.searches_all}
    return [it for it, is_enough in enough.items() if is_enough] == ["one_goal_refused"]


def run(prover):
    """Runs all of them, over the crates below hg_delta as the prover has them; returns the status."""
    crate = Crate(prover, CRATE)
    with tempfile.TemporaryDirectory(prefix="edits-") as place:
        wanted = wanted_of(place)
        crate.try_all(list(wanted))
        told = {it.name: it.why == why if not why else why in it.why for it, why in wanted.items()}
        for it in wanted:
            if not told[it.name]:
                print(f"{it.name}: {it.why or 'it was refused'}")
    told["a_round_without_edits"] = nothing_is_open(crate)
    told["one_goal_is_enough_where_it_should_be"] = by_its_goal_alone(wanted)
    told["a_goal_is_asked_of_the_right_body"] = by_right_bodies(crate.prover)
    told["an_answer_that_names_what_is_gone_counts_for_nothing"] = by_answers_that_fit()
    told["answers_of_other_goals_are_left_out"] = answers_to(ANSWERS, ["returns"]) == LEFT
    told["a_constant_stands_beside_its_function"] = by_a_constant(crate.prover)
    told["a_contract_is_no_body"] = bodies_of(FUNCTIONS) == ["    {", "fn next(row: &Row) -> u32 {"]
    for name, is_right in told.items():
        print(f"{name}: {'as it should be' if is_right else 'WRONG'}")
    passed = sum(told.values())
    print(f"{passed} passed, {len(told) - passed} failed")
    return int(passed < len(told))
