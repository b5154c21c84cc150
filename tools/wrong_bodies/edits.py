"""The files wrong/*.edit: what each turns, and what its head says that refuses it."""
import os
import re

import sources

# the most that `grind` counts for a goal, a tenth of what it may by itself; a head that says so has it count as far
FEW_STEPS = " steps 400000"
# what a head has in the place of a goal where all of them are asked for
ALL = "all"


class Edit:
    """A wrong body: its name, what is to refuse it, and the texts that it changes."""

    def __init__(self, path):
        self.path, self.name = path, os.path.basename(path).removesuffix(".edit")
        self.function, self.goal, self.named, self.pairs = "", "", "", []
        # what it does, and what the goal then finds, in words
        self.words = ""
        # how far `grind` counts for it
        self.steps = FEW_STEPS
        file, old = None, None
        for line in sources.read(path).splitlines():
            word, _, text = line.partition(":")
            text = text.removeprefix(" ")
            if word == "breaks":
                self.function, _, self.goal = (it.strip() for it in text.partition(","))
            elif word == "goal":
                self.named = text.strip()
            elif word == "turns":
                self.words = text.strip()
            elif word == "steps":
                self.steps = ""
            elif word == "file":
                file = text.strip()
            elif word == "old":
                old = text
            elif word == "new":
                self.pairs.append((file, old, text))
        # the goals that are asked for, and the one that refused it; why those alone did not
        self.searches_all = self.named == ALL
        self.asks, self.to_ask, self.asked_why = [self.named] if self.named and not self.searches_all else [], "", ""
        self.why, self.seen = "", []
        # the function that it turns by itself, and whether it stands beside it; the constant by which it turns it
        self.number, self.place, self.constant = 0, None, None

    def has_all_asked(self):
        """Whether all goals of its function are asked for: its head says so, or not which one refuses it."""
        return self.searches_all or not (self.asks or self.function and self.goal)

    def turned(self, folder, functions):
        """The functions that its texts stand in; none where it changes a constant or a type."""
        found = set()
        for file, old, _ in self.pairs:
            path = f"{folder}/{file}"
            place = sources.read(path).find(old)
            found |= {it for it, fn in functions.items() if fn.path == path and fn.start <= place < fn.end}
        return found

    def turn(self, text):
        """A piece of a file with the new texts in the place of the old ones."""
        for _, old, new in self.pairs:
            text = text.replace(old, new)
        return text

    def apply(self, folder, texts):
        """The texts with this edit, over those that earlier ones changed; nothing where an old text is not there
        once."""
        made = dict(texts)
        for file, old, new in self.pairs:
            text = made.get(file) or sources.read(f"{folder}/{file}")
            if text.count(old) != 1:
                return None
            made[file] = text.replace(old, new)
        return made


def edits_of(folder):
    return [Edit(path) for path in sources.files(f"{folder}/wrong", ".edit")]


def spoken(goal):
    """A goal in words: `returns-in-Ok-clause-text` is the clause `text`, where the function returns in that case."""
    found = re.fullmatch(r"returns\b.*?(?:-clause(?:-([A-Za-z]\w*))?(?:-\d+)?)?", goal)
    if not found:
        return goal
    return f"clause {found[1]}" if found[1] else "its clause"


def write_head(edit):
    """Writes what was seen to refuse an edit at its head."""
    if not edit.function:
        (edit.function, opened), *_ = edit.seen
        clauses = [it for it in opened if it.startswith(("clause ", "its clause"))]
        edit.goal = (clauses or opened)[0]
    head = [f"breaks: {edit.function}, {edit.goal}" if edit.goal else f"breaks: {edit.function}"]
    # a goal that was asked for alone and not refused so is left out
    goal = ALL if edit.searches_all else edit.to_ask
    head += [f"goal: {goal}"] if goal and not (edit.asked_why and goal == edit.named) else []
    head += ["steps: all"] if not (edit.steps or edit.searches_all) else []
    heads = ("breaks:", "goal:", "steps:")
    rest = [it for it in sources.read(edit.path).splitlines() if not it.startswith(heads)]
    with open(edit.path, "w", encoding="utf-8") as file:
        file.write("\n".join([*head, *rest]) + "\n")
