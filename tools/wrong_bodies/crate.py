"""A crate whose wrong bodies are tried: many stand in one copy of it, each beside the function that it turns."""
import os
import re
import shutil
import tempfile

import sources
from wrong_bodies.edits import spoken
from wrong_bodies.judging import (NO_SUCH_GOAL, answers_to, first_error, judge, judge_asked, left_goals, not_proved,
                                  open_goals)

PARTS = ("src", "specs", "proofs")
# what the prover said in each check
LOGS = f"{sources.ROOT}/build/wrong"
# the proof of a function that the prover makes by itself, as of some that call themselves: no file may stand there
RESERVED = re.compile(r"^\./proofs/(\S+)/Proof\.antt: error\[reserved-name\]", re.M)
# where the compiler found an error
ERROR = re.compile(r"^(?:\./)?(src/\S+\.rt):(\d+):\d+: error", re.M)
# the tactics by which a goal is asked for that has no answer: those that the prover tries first
SEARCH, GRIND = "search tried.rules", "grind (tried.arith, steps.common_steps)"
# a file of answers that is refused: the prover lists the goals then, and does not try to offer answers to them
NO_ANSWER = "listed : Unit\nlisted = no_answer\n"
# the attribute of a function that says which lemmas and definitions its goals want
LISTS = re.compile(r"#\[tactic\(((?:[^\[\]])*?)\)\]\s*(?:#\[[^\n]*\]\s*|///[^\n]*\n\s*)*$")
# a constant or a static of a file
CONSTANT = re.compile(r"^(?:pub(?:\([a-z]+\))? )?(?:const|static) (\w+):.*?;$", re.M | re.S)
# the most wrong bodies that stand beside each other in one check
MOST = 64
# why a head does not fit a right body
MORE_STEPS = "it is proved where `grind` counts further"


class Crate:
    """A crate whose wrong bodies are tried."""

    def __init__(self, prover, name, folder=None, turns=True):
        # whether functions are turned, or what is asked of the wrong bodies is asked of them as they are
        self.prover, self.name, self.turns = prover, name, turns
        self.folder = folder or f"{sources.ROOT}/crates/{name}"
        self.functions = sources.functions(f"{self.folder}/src")
        self.rounds, self.reserved = 0, set()

    def asked(self, edit):
        """The functions that are proved for an edit: those that it turns and the one that its head names."""
        named = {edit.function} if edit.function else set()
        return edit.turned(self.folder, self.functions) | named

    def placed(self, edit):
        """The function that an edit turns by itself, and whether it can stand beside it as a function of its own, or
        has to take its place; nothing where it turns none or several, or its head names another. An edit of a
        constant turns the function that its head names, where that speaks of the constant."""
        turned = edit.turned(self.folder, self.functions)
        edit.constant = None if turned else self.constant(edit)
        if edit.constant:
            turned = {edit.function}
        name = next(iter(turned), "")
        if len(turned) != 1 or "+" in name or not f"{edit.function or name}::".startswith(f"{name}::"):
            return None
        fn, text = self.functions[name], self.text_of(name)
        by_hand = os.path.exists(f"{self.folder}/proofs/{name.replace('::', '/')}/Proof.antt")
        if by_hand or not (edit.constant or all(text.count(old) == 1 for _, old, _ in edit.pairs)):
            return None
        # a bare name is that of a function of the file, and of no method
        own = "|".join(["Self::", "self\\.", rf"\b{fn.of}::"]) if fn.of else r"(?<![.:\w])"
        calls_itself = re.search(rf"(?:{own}){fn.name}\s*(?:::<[^>]*>)?\(", text.partition("{\n")[2])
        is_of_trait = fn.of_trait or (text[0].isspace() and not fn.of)
        if not (is_of_trait or calls_itself or name in self.reserved):
            return name, True
        return None if edit.has_all_asked() or edit.constant or self.tactics(name) else (name, False)

    def constant(self, edit):
        """The constant that an edit changes: its file, where it stands there, and its name. Nothing where the function
        that the head names does not speak of it, or something else of the file does, as a type that has its size."""
        fn = self.functions.get(edit.function)
        if not fn or any(f"{self.folder}/{file}" != fn.path for file, _, _ in edit.pairs):
            return None
        text = sources.read(fn.path)
        for found in CONSTANT.finditer(text):
            spoken_of = [it.start() for it in re.finditer(rf"\b{found[1]}\b", text)]
            others = [it for it in spoken_of if not (found.start() <= it < found.end() or fn.start <= it < fn.end)]
            is_here = all(text.count(old) == 1 and old in found[0] for _, old, _ in edit.pairs)
            if is_here and not others and any(fn.begin <= it < fn.end for it in spoken_of):
                return fn.path, found.start(), found.end(), found[1]
        return None

    def next_round(self, left):
        """Edits for one check: as many as may stand beside their functions, and with them those that are turned in
        their place, each function at most once. What changes no function is tried alone."""
        beside = [it for it in left if it.place and it.place[1]][:MOST]
        copied = {it.place[0] for it in beside}
        taken, chosen, texts = set(), list(beside), {}
        for edit in left:
            if edit.place and edit.place[1]:
                continue
            asked, made = self.asked(edit), edit.apply(self.folder, texts)
            if not edit.turned(self.folder, self.functions):
                if not chosen:
                    return [edit]
                continue
            # what has a place is put into the text of its function, in which its old texts stand once
            if asked & (taken | copied) or not (made or edit.place):
                continue
            taken |= asked
            texts = made or texts
            chosen.append(edit)
        return chosen

    def text_of(self, name):
        fn = self.functions[name]
        return sources.read(fn.path)[fn.start : fn.end]

    def tactics(self, name):
        """What the attribute of a function says to its goals."""
        fn = self.functions[name]
        found = LISTS.search(sources.read(fn.path)[: fn.start].rstrip() + "\n")
        return found[1] if found else ""

    def made(self, edits, alone=False):
        """The copy of the crate in which these edits are tried."""
        room = Room()
        whole = [it for it in edits if alone or not it.place]
        for edit in edits:
            if edit in whole:
                room.names[edit] = {it: it for it in self.asked(edit)}
            else:
                self.put(room, edit, *edit.place)
        if room.pieces:
            asked = {it for names in room.names.values() for it in names.values()}
            for name, fn in self.functions.items():
                if self.has_hole(name, asked):
                    self.empty(room, fn)
        for path, pieces in room.pieces.items():
            text = sources.read(path)
            for start, end, piece in sorted(pieces, reverse=True):
                text = f"{text[:start]}{piece}{text[end:]}"
            room.texts[os.path.relpath(path, self.folder)] = text
        for edit in whole:
            room.texts = edit.apply(self.folder, room.texts)
        return room

    def put(self, room, edit, name, is_beside):
        """Puts a wrong body beside the function that it turns, or in its place, with what that function's proof has.
        """
        fn, text, lists = self.functions[name], self.text_of(name), self.tactics(name)
        made = f"{fn.name}_wrong_{edit.number}" if is_beside else fn.name
        if edit.constant:
            text = self.with_constant(room, edit, text)
        elif self.turns:
            text = edit.turn(text)
        text = re.sub(rf"\bfn {fn.name}\b", f"fn {made}", text, count=1)
        attribute = lists if edit.has_all_asked() else "none"
        if attribute:
            text = f"{text[: len(text) - len(text.lstrip())]}#[tactic({attribute})]\n{text}"
        full = f"{name.rpartition('::')[0]}::{made}".removeprefix("::")
        room.names[edit] = {name: full}
        room.put.append(edit)
        piece = (fn.end, fn.end, f"\n{text}") if is_beside else (fn.start, fn.end, text)
        room.pieces.setdefault(fn.path, []).append(piece)
        proofs = {}
        for kind in ("Answers", "Invariants"):
            path = f"{self.folder}/proofs/{name.replace('::', '/')}/{kind}.antt"
            proof = sources.read(path) if os.path.exists(path) else ""
            proof = proof.replace(*(f"proofs.{it.replace('::', '.')}." for it in (name, full)))
            proofs[kind] = self.in_its_names(edit, proof)
        if edit.asks:
            asks = [self.in_its_names(edit, it) for it in edit.asks]
            proofs["Answers"], tactics = self.asking(asks, full, proofs["Answers"], lists, edit.steps)
            room.tactics[edit] = {self.in_old_names(edit, it): count for it, count in tactics.items()}
        elif not edit.has_all_asked():
            proofs["Answers"] = NO_ANSWER
        for kind, text in proofs.items():
            if text:
                room.proofs[f"proofs/{full.replace('::', '/')}/{kind}.antt"] = text

    def constant_names(self, edit):
        """The name of the constant that an edit changes, as a pattern, and the name of the changed one beside it."""
        name = edit.constant[3]
        return rf"\b{name}\b", f"{name}_WRONG_{edit.number}"

    def in_its_names(self, edit, text):
        """A text of a proof, as it speaks of a wrong body beside its function: goals and steps are named after the
        constants that they look at."""
        return re.sub(*self.constant_names(edit), text) if edit.constant else text

    def in_old_names(self, edit, text):
        """What is said of such a wrong body, in the names that its function has."""
        return text.replace(self.constant_names(edit)[1], edit.constant[3]) if edit.constant else text

    def with_constant(self, room, edit, text):
        """Puts the constant that an edit changes beside that one under a name of its own. Gives the function that takes
        it."""
        path, start, end, _ = edit.constant
        name, made = self.constant_names(edit)
        item = sources.read(path)[start:end]
        item = re.sub(name, made, edit.turn(item) if self.turns else item, count=1)
        room.pieces.setdefault(path, []).append((end, end, f"\n{item}"))
        return re.sub(name, made, text)

    def asking(self, asks, function, answers, lists, steps):
        """Answers that ask for these goals alone: by the answers that they have, and each other one by every tactic
        that the prover would try. Also how many tactics that is for each. `lists` has the lemmas and the definitions
        that the function's attribute names for them; `steps` how far `grind` counts."""
        goals = dict(it.partition(" ")[::2] for it in asks)
        answered = [it for it in goals if re.search(rf"^pub {re.escape(it)} :", answers, re.M)]
        kept = answers_to(answers, answered) if answered else ""
        if len(answered) == len(goals):
            return kept, {it: 0 for it in goals}
        listed = {"using": [], "unfolding": []}
        lines = ["use Rattle.std.proofs.Common as tried", "use Rattle.std.proofs.lemmas.Grind as steps"]
        for word, names in listed.items():
            found = re.search(rf"{word}\(([^)]*)\)", lists)
            for path in re.findall(r"[\w:]+", found[1]) if found else []:
                module, _, name = re.sub(r"^crate\b", self.name, path).replace("::", ".").rpartition(".")
                names.append(name)
                use = f"use Rattle.{module}.{{{name}}}"
                if use not in lines and not re.search(rf"^use .*[{{ ]{name}[,}}]", kept, re.M):
                    lines.append(use)
        more = [f"grind (tried.arith, {', '.join(listed['using'])}){steps}"] if listed["using"] else []
        tactics = [SEARCH, GRIND + steps, *more]
        if not answered:
            lines.append(f"use Rattle.{self.name}.proofs.{function.replace('::', '.')}.Goals as goal")
        lines += kept.splitlines()
        for place, (goal, arguments) in enumerate(goals.items()):
            for number, tactic in enumerate(tactics if goal not in answered else []):
                name = f"tried-{place}-{number}" if number else goal
                # in a block `mutual` antt does not look further for what a refusal may wait on
                lines += ["", "mutual"]
                lines += [f"  unfolding {' '.join(listed['unfolding'])}"] if listed["unfolding"] else []
                lines.append(f"  {'' if number else 'pub '}{name} : goal.{goal}")
                lines.append(f"  {name} {arguments} = {tactic}")
        return "\n".join(lines) + "\n", {it: 0 if it in answered else len(tactics) for it in goals}

    def arguments(self, name):
        """What an answer to a goal of a function takes: the types that it has as parameters, and what is known."""
        fn, text = self.functions[name], self.text_of(name)
        head = text.partition(f"fn {fn.name}")[2].partition("(")[0]
        above = sources.read(fn.path)[: fn.start]
        impl = re.findall(r"^(?:unsafe )?impl<(.*?)> \w", above, re.M | re.S)[-1:] if text[0].isspace() else []
        opened = re.findall(r"^(?:unsafe )?impl\b(<?)", above, re.M)[-1:]
        generic = head.partition("<")[2] + "," + (impl[0] if impl and opened == ["<"] else "")
        return "g c" if re.search(r"(?:^|[<,]\s*)(?:const )?[A-Z]", generic) else "c"

    def has_hole(self, name, asked):
        """Whether a function that is not asked for can have a hole in the place of its proof. What stands in an impl
        of a trait is small, and its name in the prover's words is not always plain."""
        return not (name in asked or name in self.reserved or "+" in name or self.functions[name].of_trait)

    def empty(self, room, fn):
        """Takes away the body of a function that has a hole: what it calls is then not read for it."""
        text = sources.read(fn.path)
        line = text[fn.begin : fn.end].partition("\n")[0]
        if line.endswith("{") and " const fn " not in f" {text[fn.start : fn.begin + len(line)]}":
            start = fn.begin + len(line)
            indent = re.match(r" *", text[fn.start :])[0]
            room.pieces.setdefault(fn.path, []).append((start, fn.end, f"\n{indent}    unreachable!()\n{indent}}}\n"))

    def hole(self, room, function):
        """Puts a hole in the place of a function's proof."""
        proof = f"{room}/proofs/{function.replace('::', '/')}"
        for name in ("Answers.antt", "Invariants.antt", "Proof.antt"):
            if os.path.exists(f"{proof}/{name}"):
                os.remove(f"{proof}/{name}")
        os.makedirs(proof, exist_ok=True)
        path, last = function.replace("::", "."), function.rpartition("::")[2]
        with open(f"{proof}/Proof.antt", "w", encoding="utf-8") as file:
            file.write(f"use Rattle.{self.name}.proofs.{path}.Statement.{{statement}}\n\n")
            file.write(f"pub {last}_spec : {{M : Type 1}} → statement M\n{last}_spec = ?\n")

    def check(self, made, asked, kept):
        """What a check says of a copy, in which only the functions that are asked for are proved. Where a function
        can have no hole, it is checked once more without that one."""
        while True:
            said = self.check_once(made, asked, kept)
            found = {it.replace("/", "::") for it in RESERVED.findall(said)} - self.reserved
            if not found:
                return said
            self.reserved |= found

    def check_once(self, made, asked, kept):
        with tempfile.TemporaryDirectory(prefix="wrong-") as room:
            for part in PARTS:
                if os.path.isdir(f"{self.folder}/{part}"):
                    shutil.copytree(f"{self.folder}/{part}", f"{room}/{part}")
            for file, text in {**made.texts, **made.proofs}.items():
                os.makedirs(os.path.dirname(f"{room}/{file}"), exist_ok=True)
                with open(f"{room}/{file}", "w", encoding="utf-8") as it:
                    it.write(text)
            for function in self.functions:
                if self.has_hole(function, asked):
                    self.hole(room, function)
            self.rounds += 1
            # most crates have one check, which would keep for nothing what it went through
            said = self.prover.check(self.name, room, sorted(asked), kept if self.rounds > 1 else "")
            os.makedirs(LOGS, exist_ok=True)
            with open(f"{LOGS}/{self.name}-{self.rounds}.log", "w", encoding="utf-8") as log:
                log.write(said)
            return said

    def try_round(self, chosen, kept, alone=False):
        """Tries edits in one check. Where that could not read them, tries those that it does not name, or each half.
        """
        made = self.made(chosen, alone)
        asked = {it for names in made.names.values() for it in names.values()}
        said = self.check(made, asked, kept)
        if not re.search(r"^only=\d+ ", said, re.M):
            bad = chosen if len(chosen) == 1 else made.named_by(said)
            for edit in bad:
                edit.why = first_error(said)
            left = [it for it in chosen if it not in bad]
            if bad and left:
                self.try_round(left, kept)
            if bad:
                return
            print(f"{self.name}: {len(chosen)} wrong bodies are tried by halves: {first_error(said)}")
            for half in (chosen[: len(chosen) // 2], chosen[len(chosen) // 2 :]):
                self.try_round(half, kept)
            return
        goals = open_goals(self.name, said)
        for edit in chosen:
            names = made.names[edit]
            (name, there), *_ = names.items()
            if edit in made.tactics:
                judge_asked(edit, name, there, made.tactics[edit], self.in_old_names(edit, said))
            elif edit in made.put and not edit.has_all_asked():
                edit.asks = [f"{it} {self.arguments(name)}" for it in left_goals(self.name, there, said)
                             if spoken(it) == edit.goal]
                edit.why = edit.asked_why = "" if edit.asks else f"it has no goal that is {edit.goal}"
            else:
                judge(edit, names, goals, said)

    def try_rounds(self, left, kept):
        while left:
            chosen = self.next_round(left)
            self.try_round(chosen, kept)
            left = [it for it in left if it not in chosen]

    def try_goals(self, left):
        """Asks of the right bodies the goals that refuse these wrong ones. What is not proved so has a reason."""
        while left:
            chosen = self.next_round(left)
            left = [it for it in left if it not in chosen]
            made = self.made(chosen)
            said = self.check(made, {it for names in made.names.values() for it in names.values()}, "")
            for edit in chosen:
                there, told = made.names[edit][edit.place[0]], self.in_old_names(edit, said)
                edit.why = not_proved(self.name, edit, there, made.tactics.get(edit), told)

    def try_right(self, edits):
        """Asks of the right bodies the goals that refuse these wrong ones, each once, and gives those that they have.
        What is not proved so has a reason. What is proved where `grind` counts further wants a head that says so."""
        asked = {(it.function, it.named): it for it in sorted(edits, key=lambda it: not it.steps) if it.named}
        for number, edit in enumerate(asked.values()):
            edit.number, edit.place = number, self.placed(edit)
        self.try_goals([it for it in asked.values() if it.place])
        further = [it for it in asked.values() if it.why not in ("", NO_SUCH_GOAL) and it.steps and not it.searches_all]
        for edit in further:
            edit.steps = ""
        self.try_goals(further)
        for edit in further:
            edit.why = edit.why or MORE_STEPS
        # a branch that the wrong body alone has brings goals of its own
        return [it for it in asked.values() if it.place and it.why != NO_SUCH_GOAL]

    def try_all(self, edits):
        """Tries edits: in rounds, and each that was not refused once more alone. What is then not refused has a
        reason."""
        kept = tempfile.mkdtemp(prefix="wrong-kept-")
        try:
            left = []
            for edit in edits:
                if edit.apply(self.folder, {}) is None or not edit.pairs:
                    edit.why = "an old text does not stand in its file once"
                elif not self.asked(edit):
                    edit.why = "it turns no function, and its head names none"
                else:
                    left.append(edit)
            for number, edit in enumerate(left):
                edit.number, edit.place = number, self.placed(edit)
            # the goals of those without one are listed first; of those without a head all are asked for
            unlisted = [it for it in left if it.place and not it.asks and not it.has_all_asked()]
            self.try_rounds(unlisted, kept)
            self.try_rounds([it for it in left if it not in unlisted or it.asks], kept)
            for edit in edits:
                if edit.why and self.asked(edit) and edit.apply(self.folder, {}):
                    edit.why = ""
                    self.try_round([edit], kept, alone=True)
        finally:
            shutil.rmtree(kept, ignore_errors=True)
        return edits


class Room:
    """A copy of a crate: the texts that differ there, the functions that were put there, beside others or in their
    place, by the file that they stand in, with their proofs and the edits that they are of; for each edit the names
    that its functions have there, and how many tactics are tried on its goal."""

    def __init__(self):
        self.texts, self.pieces, self.proofs, self.names, self.tactics = {}, {}, {}, {}, {}
        self.put = []

    def named_by(self, said):
        """The edits that stand beside their functions and that the errors of a check are in."""
        found = set()
        for file, line in ERROR.findall(said):
            above = "\n".join(self.texts.get(file, "").split("\n")[: int(line)])
            found.update(re.findall(r"\bfn (\w+_wrong_\d+)\b", above)[-1:])
        return [edit for edit, names in self.names.items() for it in names.values() if it.rpartition("::")[2] in found]
