#!/usr/bin/env python3
"""Makes the table of docs/ARCHITECTURE.md that draws the house by layer: the crates of each, from the highest to the
lowest, with their lines of source, of definitions and of proofs. A crate's layer is one above the highest of those on
which it stands. Without --write it compares the table with that.
"""
import functools
import pathlib
import re
import sys

TOP = pathlib.Path(__file__).resolve().parent.parent
PAGE = TOP / "docs" / "ARCHITECTURE.md"
ROW = re.compile(r"\| (\d+|all) \| ")


def listed():
    """Returns what crates.txt lists for each crate, in its order."""
    pairs = re.findall(r"^(\w+)[^:#\n]*:([^#\n]*)", (TOP / "crates.txt").read_text(), re.MULTILINE)
    return {name: deps.split() for name, deps in pairs}


def lines(crate):
    """Returns how many lines of source, of definitions and of proofs a crate has."""
    parts = ("src", "specs", "proofs")
    found = [(TOP / "crates" / crate / part).rglob("*") for part in parts]
    return [sum(len(it.read_text().splitlines()) for it in files if it.suffix in (".rt", ".antt")) for files in found]


def said(counts):
    """Returns counts of lines as the page spells them."""
    return " / ".join(f"{it:,}" for it in counts)


def rows():
    """Returns the rows of the table, the highest layer first, and one of all crates."""
    crates = listed()

    @functools.lru_cache(maxsize=None)
    def layer(crate):
        return 1 + max((layer(dep) for dep in crates[crate] if dep in crates), default=0)

    counted = {crate: lines(crate) for crate in crates}
    for number in range(max(map(layer, crates)), 0, -1):
        cells = [f"{crate} {said(counted[crate])}" for crate in crates if layer(crate) == number]
        yield f"| {number} | {'; '.join(cells)} |"
    yield f"| all | {said(map(sum, zip(*counted.values())))} |"


def main():
    made, page = list(rows()), PAGE.read_text().splitlines()
    at = [k for k, it in enumerate(page) if ROW.match(it)]
    if not at:
        print("docs/ARCHITECTURE.md has no table by layer")
        return 1
    if page[at[0] : at[-1] + 1] == made:
        return 0
    if "--write" in sys.argv:
        page[at[0] : at[-1] + 1] = made
        PAGE.write_text("\n".join(page) + "\n")
        return 0
    print("docs/ARCHITECTURE.md: the table by layer isn't what the sources say: make pages")
    return 1


if __name__ == "__main__":
    sys.exit(main())
