#!/usr/bin/env python3
"""Compares the line of docs/ARCHITECTURE.md that names the crates whose definitions the clauses of the top call
don't reach with the files of definitions: those that top_call.rt of vkray names, those that these name, and so on.
With --write it puts the line in.
"""
import pathlib
import re
import sys

TOP = pathlib.Path(__file__).resolve().parent.parent
PAGE = TOP / "docs" / "ARCHITECTURE.md"
BEGINNING = "Not reached: "
NAMED = re.compile(r"\bRattle\.(\w+)\.specs\.([\w.]+)")


def named(file):
    """Returns what a file names: the crates, and the files of definitions, also where a path leads to a word of one."""
    crates, files = set(), set()
    for crate, path in NAMED.findall(file.read_text()):
        crates.add(crate)
        parts = path.strip(".").split(".")
        folder = TOP / "crates" / crate / "specs"
        ways = (folder.joinpath(*parts[:k]).with_suffix(".antt") for k in range(1, len(parts) + 1))
        files.update(way for way in ways if way.is_file())
    return crates, files


def reached(file):
    """Returns the crates to which a file leads."""
    found, seen, waiting = set(), {file}, [file]
    while waiting:
        crates, files = named(waiting.pop())
        found |= crates
        waiting += files - seen
        seen |= files
    return found


def line():
    """Returns the line, with the crates in the order of crates.txt."""
    crates = re.findall(r"^(\w+)[^:#]*:", (TOP / "crates.txt").read_text(), re.MULTILINE)
    top = reached(TOP / "crates/vkray/src/top_call.rt")
    return BEGINNING + ", ".join(crate for crate in crates if crate not in top) + "."


def main():
    made, page = line(), PAGE.read_text().splitlines()
    at = [k for k, it in enumerate(page) if it.startswith(BEGINNING)]
    if len(at) == 1 and page[at[0]] == made:
        return 0
    if len(at) == 1 and "--write" in sys.argv:
        page[at[0]] = made
        PAGE.write_text("\n".join(page) + "\n")
        return 0
    print(f"docs/ARCHITECTURE.md: {made}")
    return 1


if __name__ == "__main__":
    sys.exit(main())
