#!/usr/bin/env python3
"""What each crate's proof, wrong bodies and tests may take, and what they were measured to take, in processor seconds.

    tools/costs.py            writes the table of bench/proof-costs.md
    tools/costs.py --check    fails where that table is another one, where a piece takes more than its budget, and
                              where the longest chain of crates does
    tools/costs.py --run      says what took more than its budget in the last run of the gate, by the speed of its
                              machine, and fails where something took more than twice that
    tools/costs.py --take     takes what the last run of the gate measured into bench/proof-costs.csv

bench/proof-costs.csv has a line for each piece: its name, processor seconds, budget. Lines of code, tests,
definitions and proofs are counted in the sources. Its first line, and that of a run, has the seconds of a fixed piece
of work, by which two machines compare.
"""
import csv
import os
import re
import sys
import textwrap
import threading
import time

import sources

PAGE, FIGURES = f"{sources.ROOT}/bench/proof-costs.md", f"{sources.ROOT}/bench/proof-costs.csv"
MEASURED = f"{sources.ROOT}/build/gate/costs.csv"
BEGIN, END = "<!-- table -->\n", "<!-- end -->\n"
KINDS = ("code", "tests", "definitions", "proofs")
CHAIN = "longest chain"
TICK = os.sysconf("SC_CLK_TCK")
STEPS = ("proof", "wrong bodies", "tests")
COLUMNS = [it for step in STEPS for it in (step, f"{step}, budget")]


class Watch:
    """Looks at the processes that work in a stand three times a second, and adds up what each crate takes.

    A process that ends between two looks is counted as it was last seen, so a sum is a little too small.
    """

    def __init__(self, stand):
        self.stand, self.seen, self.is_over = f"{os.path.realpath(stand)}/crates/", {}, False
        self.thread = threading.Thread(target=self.work, daemon=True)
        self.thread.start()

    def work(self):
        while not self.is_over:
            self.look()
            time.sleep(0.3)

    def look(self):
        for process in os.listdir("/proc"):
            if not process.isdigit():
                continue
            try:
                where = os.readlink(f"/proc/{process}/cwd")
                if where.startswith(self.stand):
                    stat = sources.stat_of(process)
                    crate = where.removeprefix(self.stand).split("/")[0]
                    self.seen[process, stat[19]] = crate, (int(stat[11]) + int(stat[12])) / TICK
            except (OSError, IndexError):
                continue

    def end(self):
        """The seconds of each crate."""
        self.is_over = True
        self.thread.join()
        sums = {}
        for crate, seconds in self.seen.values():
            sums[crate] = sums.get(crate, 0) + seconds
        return sums


def write_run(path, costs, minutes, spent, processors, selftest, kept=0):
    """Writes what each crate took, and a line that tells of the run, and of how many crates the proof was kept."""
    told = f"{minutes:.0f} minutes on {processors} processors, {spent:.0f} processor minutes"
    told += f", without the proofs of {kept} crates that were kept" if kept else ""
    with open(path, "w", encoding="utf-8") as file:
        file.write(f"# processor seconds; the whole took {told}; `rt selftest` took {selftest:.0f} s\n")
        file.write(",".join(["crate", *STEPS]) + "\n")
        for name in dict.fromkeys(name for name, _ in costs):
            row = [f"{costs[name, it]:.0f}" if (name, it) in costs else "" for it in STEPS]
            file.write(",".join([name, *row]) + "\n")


def lines(crate):
    """Lines of a crate's code, tests, definitions and proofs."""
    found = dict.fromkeys(KINDS, 0)
    for folder in (crate, f"{crate}_tests"):
        top = f"{sources.ROOT}/crates/{folder}"
        for path in [*sources.files(top, ".rt"), *sources.files(top, ".antt")]:
            inside = os.path.relpath(path, f"{sources.ROOT}/crates")
            part = inside.split("/")[1]
            kind = {"src": "code", "specs": "definitions", "proofs": "proofs"}[part]
            if kind == "code" and "tests" in inside:
                kind = "tests"
            found[kind] += sources.read(path).count("\n")
    return found


def wrong_bodies(crate):
    return sum(1 for _ in sources.files(f"{sources.ROOT}/crates/{crate}/wrong", ".edit"))


def figures():
    """The line that tells of the run, and what each piece took and may take."""
    told, *rows = sources.read(FIGURES).splitlines()
    found = {row["piece"]: {it: int(row[it]) for it in COLUMNS if row[it]} for row in csv.DictReader(rows)}
    return told.removeprefix("# "), found


def chain(seconds):
    """The longest chain of crates that stand on each other, and its seconds."""
    used, best = sources.uses(), {}

    def longest(crate):
        if crate not in best:
            below = max((longest(it) for it in used[crate]), default=(0, []))
            best[crate] = (below[0] + seconds.get(crate, 0), [*below[1], crate])
        return best[crate]

    return max(longest(it) for it in used if not it.endswith("_tests"))


def shown(number):
    return "" if number is None else f"{number:,}"


def table():
    told, found = figures()
    crates = sources.crates()
    out = ["| crate | code | tests | definitions | proofs | wrong bodies | proof, s | of | wrong bodies, s | of |",
           "|---" * 10 + "|"]
    sums = [0] * 9
    for crate in crates:
        count, piece = lines(crate), found.get(crate, {})
        row = [*(count[kind] for kind in KINDS), wrong_bodies(crate), *(piece.get(it) for it in COLUMNS[:4])]
        sums = [a + (b or 0) for a, b in zip(sums, row)]
        out.append(f"| `{crate}` | {' | '.join(map(shown, row))} |")
    out.append(f"| all | {' | '.join(map(shown, sums))} |")
    out += ["", "| tests that are compiled together | s | of |", "|---|---|---|"]
    for name, piece in found.items():
        if "tests" in piece:
            out.append(f"| {name} | {shown(piece['tests'])} | {shown(piece.get('tests, budget'))} |")
    took, names = chain({it: piece.get("proof", 0) for it, piece in found.items()})
    is_whole = all("proof" in found.get(it, {}) for it in crates)
    told_chain = f"{len(names)} crates, `{names[0]}` to `{names[-1]}`: {took:,} s" if is_whole else "no figure yet"
    last = f"The longest chain: {told_chain}. {told[0].upper()}{told[1:]}."
    out += ["", *textwrap.wrap(last, 110, break_long_words=False, break_on_hyphens=False)]
    return "\n".join(out) + "\n"


def beyond():
    """What takes more than its budget."""
    _, found = figures()
    for name, piece in found.items():
        for step in STEPS:
            if step in piece and piece[step] > piece.get(f"{step}, budget", 0):
                yield f"{name}: {step} take {piece[step]} s of {piece.get(f'{step}, budget', 0)}"
    took, _ = chain({it: piece.get("proof", 0) for it, piece in found.items()})
    most = found.get(CHAIN, {}).get("proof, budget", 0)
    if took > most:
        yield f"the longest chain of crates takes {took} s of {most}"


def speed_of(told):
    """The seconds of the fixed piece of work, of the line that tells of a run."""
    return int(re.search(r"`rt selftest` took (\d+) s", told)[1])


def run_beyond():
    """What took more than its budget in the last run, with how many times that it took."""
    first, *rows = sources.read(MEASURED).splitlines()
    told, found = figures()
    slower = max(1, speed_of(first) / speed_of(told))
    for row in csv.DictReader(rows):
        for step in STEPS:
            budget = found.get(row["crate"], {}).get(f"{step}, budget")
            if row[step] and budget and int(row[step]) > budget * slower:
                yield int(row[step]) / (budget * slower), f"{row['crate']}: {step} took {row[step]} s of {budget * slower:.0f}"


def check_run():
    """Says what took more than its budget. One piece may take twice as long on a busy machine, so more fails."""
    said = list(run_beyond())
    for times, it in said:
        print(f"costs: {it}{', more than twice that' if times > 2 else ''}")
    return int(any(times > 2 for times, _ in said))


def take():
    """Takes the last run's figures. A piece that is new gets a budget of a quarter more than it took."""
    told, *rows = sources.read(MEASURED).splitlines()
    _, found = figures()
    for row in csv.DictReader(rows):
        piece = found.setdefault(row["crate"], {})
        for step in STEPS:
            if row[step]:
                piece[step] = int(row[step])
                piece.setdefault(f"{step}, budget", -(-piece[step] * 5 // 40) * 10)
    with open(FIGURES, "w", encoding="utf-8", newline="") as file:
        file.write(f"# {told.removeprefix('# ')}\n")
        made = csv.DictWriter(file, ["piece", *COLUMNS], lineterminator="\n")
        made.writeheader()
        made.writerows({"piece": name, **piece} for name, piece in found.items())


def main(words):
    if words == ["--take"]:
        take()
        return 0
    if words == ["--run"]:
        return check_run()
    page = sources.read(PAGE)
    begin, end = page.index(BEGIN) + len(BEGIN), page.index(END)
    made = page[:begin] + table() + page[end:]
    if words == ["--check"]:
        said = [f"costs: {it}" for it in beyond()]
        if made != page:
            said.append("costs: bench/proof-costs.md has another table: python3 tools/costs.py")
        for it in said:
            print(it)
        return int(bool(said))
    with open(PAGE, "w", encoding="utf-8") as file:
        file.write(made)
    return 0


if __name__ == "__main__":
    sys.exit(main(sys.argv[1:]))
