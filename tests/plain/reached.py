"""Lists the definitions that no plain rule reaches, with the reason: reached.py

The modules of specs/ that contracts may cite stand in reached.txt, with the rules that reach them, or in
not_reached.txt, with a reason. It fails where one stands in neither or in both, and where a line names no module or
no rule.
"""
import os
import re
import sys

HERE = os.path.dirname(os.path.abspath(__file__))
sys.path[:0] = [HERE, f"{os.path.dirname(os.path.dirname(HERE))}/tools"]
import rules
from documents import index


def modules():
    """Each module with its words: by its name, and by its name and each word."""
    found = {}
    for crate in index.crates():
        here = {}
        for word, (module, _) in index.definitions(crate).items():
            if not index.is_of_code(module):
                here.setdefault(module, []).append(word)
        for module, words in here.items():
            found.setdefault(module, []).append((crate, words))
    return found


def table(name):
    """The modules of each line of a table, and what is said of them."""
    with open(f"{HERE}/{name}", encoding="utf-8") as file:
        for line in file:
            if line.strip() and not line.startswith("#"):
                names, _, said = line.strip().partition(": ")
                yield from ((it, said) for it in names.split())


def named_by(key, found):
    """The modules that a key of a table names: (crate, words) of each."""
    name, word = re.fullmatch(r"([\w.]+)(?:\((\w+)\))?", key).groups()
    return [(crate, name, words) for crate, words in found.get(name, ()) if word is None or word in words]


def read():
    """What the tables say of each module, and what is wrong with them."""
    found, faults, told, rule_names = modules(), [], {}, sorted(rules.named(), key=len, reverse=True)
    for file in ("reached.txt", "not_reached.txt"):
        for key, said in table(file):
            here, left = named_by(key, found), said if file == "reached.txt" else ""
            if len(here) != 1:
                faults.append(f"{file}: {key} names {len(here)} modules")
            for crate, name, words in here:
                if (crate, name) in told:
                    faults.append(f"{file}: {crate} {name} stands there twice")
                told[crate, name] = (file, said, words)
            for rule in rule_names:
                left = re.sub(rf"(^|, ){re.escape(rule)}(?=, |$)", "", left)
            if left:
                faults.append(f"{file}: {key}: no such rule: {left}")
    every = [(crate, name) for name, here in found.items() for crate, _ in here]
    return told, faults + [f"{crate} {name} stands in no table" for crate, name in every if (crate, name) not in told]


def main():
    told, faults = read()
    for (crate, name), (file, said, words) in sorted(told.items()):
        if file == "not_reached.txt":
            print(f"{crate} {name}: {' '.join(words)}\n    {said}")
    for it in faults:
        print(f"FAILED: {it}")
    print(f"{len(told)} modules, {sum(it[0] == 'reached.txt' for it in told.values())} of them reached by a rule")
    return 1 if faults else 0


if __name__ == "__main__":
    sys.exit(main())
