#!/usr/bin/env python3
"""Tells the middle of rounds that took turns.

    bench/store/middle.py FILE

FILE has a line for each round: the way, the bytes of a push, the threads, batches a second, and pushes a second. Of
each way's figure the middle one is told, and of each comparison the middle of the rounds' own quotients."""
import sys
from statistics import median_low

WAYS = ["host", "threads", "group", "digest", "lock", "sqlite", "append", "batch"]
PAIRS = [("threads", "group"), ("threads", "digest"), ("threads", "lock"), ("threads", "sqlite"), ("host", "group"),
         ("host", "lock"), ("append", "batch")]


def rounds(file):
    """What each way made at each size and number of threads, round by round."""
    made = {}
    with open(file, encoding="ascii") as lines:
        for line in lines:
            way, size, number, batches, pushes = line.split()
            made.setdefault((int(size), int(number)), {}).setdefault(way, []).append((float(pushes), float(batches)))
    return made


def main(file):
    for (size, number), ways in sorted(rounds(file).items()):
        print(f"{size} bytes, {number}:")
        for way in filter(ways.get, WAYS):
            pushes, batches = zip(*ways[way])
            print(f"  {way:8} {median_low(pushes):9,.0f} pushes a second, from {min(pushes):,.0f} to {max(pushes):,.0f}"
                  + (f", {median_low(batches):,.0f} batches" if any(batches) else ""))
        for one, other in PAIRS:
            if one in ways and other in ways:
                quotients = [a / b for (a, _), (b, _) in zip(ways[one], ways[other])]
                print(f"  {one} to {other}: {median_low(quotients):.2f}, from {min(quotients):.2f} to"
                      f" {max(quotients):.2f}")


if __name__ == "__main__":
    main(sys.argv[1])
