"""What reads cost where a repository has many changesets, heads or branches: branches.py PROGRAM.. [SHAPE=COUNT..]

The figures of `tests/reads.py`, of several programs beside each other and in other sizes: a row for each program, shape
and request, with the changesets, the bytes of the answer, the milliseconds, and those that are wanted.
"""
import os
import sys

sys.path.insert(0, os.path.join(os.path.dirname(os.path.realpath(__file__)), "..", "..", "tests"))
from reads import SHAPES, longest, measure  # noqa: E402

MAKERS = {name: make for name, (make, _) in SHAPES.items()}
ROWS = [("lone", 20_000), ("lone", 40_000), ("lone", 80_000), ("merged", 10_000), ("merged", 20_000), ("merged", 50_000),
        ("twice", 20_000), ("twice", 50_000), ("twice", 100_000), ("line", 200_000), ("fan", 200_000), ("under", 200_000)]


def main(words):
    programs = [it for it in words if os.path.exists(it)]
    rows = [it.split("=") for it in words if "=" in it] or ROWS
    for name, count in rows:
        for program in programs:
            changesets, told = measure(os.path.abspath(program), MAKERS[name], int(count))
            for what, (spent, size) in told.items():
                print(f"{os.path.basename(program)} | {name} | {changesets} | {what} | {size} | {1000 * spent:.2f} |"
                      f" {1000 * longest(size):.2f}", flush=True)


if __name__ == "__main__":
    main(sys.argv[1:])
