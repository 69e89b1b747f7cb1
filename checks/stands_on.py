#!/usr/bin/env python3
"""Compares three statements of what each crate stands on: its files, its line of crates.txt, and its row of
docs/ARCHITECTURE.md. With --write it puts the first into the row.

A crate stands on another where one of its files names it, by `use`, `ghost use` or a path.
"""
import pathlib
import re
import sys

TOP = pathlib.Path(__file__).resolve().parent.parent
PAGE = TOP / "docs" / "ARCHITECTURE.md"
# `name::` in code and `Rattle.name.` in a definition or a proof.
NAMED = re.compile(r"\bRattle\.(\w+)\.|(?<![\w:])(\w+)::|(?<!\w)use (\w+)::")


def listed():
    """Returns what crates.txt lists for each crate, in its order."""
    lines = (line.split("#")[0] for line in (TOP / "crates.txt").read_text().splitlines())
    pairs = (line.split(":", 1) for line in lines if ":" in line)
    return {name.split()[0]: deps.split() for name, deps in pairs}


def named(crate, known):
    """Returns which of the known crates the files of a crate name."""
    found = set()
    for part in ("src", "specs", "proofs"):
        for file in (TOP / "crates" / crate / part).rglob("*"):
            if file.suffix in (".rt", ".antt"):
                text = re.sub(r"^\s*(//|--).*$", "", file.read_text(), flags=re.MULTILINE)
                found.update(name for match in NAMED.finditer(text) for name in match.groups() if name)
    return found & known - {crate}


def column(deps, ours):
    """Returns what a row of the page says: crates of the kit in backticks."""
    return ", ".join(dep if dep in ours else f"`{dep}`" for dep in deps)


def main():
    crates, faults = listed(), []
    known = set(crates) | {dep for deps in crates.values() for dep in deps}
    page = PAGE.read_text().splitlines()
    rows = {line.split("|")[1].strip(): at for at, line in enumerate(page) if re.match(r"\| (ray|vkray)", line)}
    for crate, deps in crates.items():
        found = named(crate, known)
        faults += [f"crates.txt: {crate} lists {dep}, which no file of it names" for dep in deps if dep not in found]
        faults += [f"crates.txt: {crate} names {dep} and doesn't list it" for dep in sorted(found - set(deps))]
        if crate not in rows:
            faults.append(f"docs/ARCHITECTURE.md has no row of {crate}")
            continue
        cells = page[rows[crate]].split("|")
        if cells[2].strip() != column(deps, crates):
            if "--write" not in sys.argv:
                faults.append(f"docs/ARCHITECTURE.md: {crate} stands on '{column(deps, crates)}'")
            cells[2] = f" {column(deps, crates)} ".replace("  ", " ")
            page[rows[crate]] = "|".join(cells)
    faults += [f"docs/ARCHITECTURE.md has a row of {row}, which is no crate" for row in rows if row not in crates]
    if "--write" in sys.argv:
        PAGE.write_text("\n".join(page) + "\n")
    for fault in faults:
        print(fault)
    return 1 if faults else 0


if __name__ == "__main__":
    sys.exit(main())
