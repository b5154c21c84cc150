"""Whether crates.txt is in the order of the layers, where a row uses crates of rows above it alone, and the picture of
docs/architecture.md shows them: a crate uses crates to its right and in the rows below it.
"""
import re

import sources

PAGE = f"{sources.ROOT}/docs/architecture.md"


def check():
    used, above = sources.uses(), set()
    for crate in used:
        yield from (f"crates.txt: {crate} uses {it}, which stands below it" for it in used[crate] if it not in above)
        above.add(crate)
    drawn = re.findall(r"hg_\w+", re.search(r"```\n(.*?)```", sources.read(PAGE), re.S)[1])
    if sorted(drawn) != sorted(sources.crates()):
        yield f"docs/architecture.md: its picture has not each crate once: {set(drawn) ^ set(sources.crates())}"
    for place, crate in enumerate(drawn):
        wrong = set(used.get(crate, [])) & set(drawn[:place])
        yield from (f"docs/architecture.md: {crate} uses {it}, which stands before it in the picture" for it in wrong)
