#!/usr/bin/env python3
"""Makes docs/INDEX.md: the terms of docs/DEFINITIONS.md in the order of the alphabet, each with its crate, and its
words with the file and the line where they are defined; and the crates in the order of crates.txt, each with its
section and its terms. Without --write it compares the page with that.
"""
import pathlib
import re
import sys

TOP = pathlib.Path(__file__).resolve().parent.parent
PAGE = TOP / "docs" / "INDEX.md"
ROW = re.compile(r"\| (.*?) \| (.*) \| (.*?) \| (.*?) \|$")


def rows():
    """Returns the section, the crates, the term, the plain words, the files and the source of each definition."""
    section, crates = "", []
    for line in (TOP / "docs" / "DEFINITIONS.md").read_text().splitlines():
        if line.startswith("## "):
            section, crates = line[3:], re.findall(r"crates/(\w+)/specs", line)
        row = ROW.match(line)
        if row and crates and row[1] not in ("Definition", "---", "Step"):
            yield section, crates, row[1], row[2], re.findall(r"`([\w/.]+)`", row[3]), row[4]


def sources(crates, files):
    """Returns the files of these names in specs/ of the crates, or below their folders."""
    named = [pathlib.Path("crates", crate, *way) for crate in crates for file in files
             for way in (("specs", f"{file}.antt"), (file,))]
    return [it for it in named if (TOP / it).is_file()]


def defined(word, files):
    """Returns a link to the line that defines a word, if one of the files does."""
    start = re.compile(rf"\s*(?:\w+ )*{re.escape(word)}(?![\w-])(?= *(?::|\(|$))")
    for file in files:
        for number, line in enumerate((TOP / file).read_text().splitlines(), 1):
            if start.match(line) and re.match(r"\s*(abbrev|unfoldable|record|data|pub|struct|enum)\b", line):
                return f"[`{word}`](../{file}#L{number})"
    return None


def all_of(file):
    """Returns links to the last eight things that a file defines for others, and to it where there are more, or none."""
    start = re.compile(r"\s*(?:abbrev pub|unfoldable pub|pub record|pub data|pub (?:struct|enum|trait)) (\S+)")
    told = [(number, start.match(line)) for number, line in enumerate((TOP / file).read_text().splitlines(), 1)]
    links = [f"[`{it[1].rstrip(':;')}`](../{file}#L{number})" for number, it in told if it and "◌" not in it[1]]
    return links[-8:] + ([f"[{file.name}](../{file})"] if len(links) > 8 or not links else [])


def by_crate():
    """Returns a row a crate that has a section: where that is, and its terms."""
    sections, terms = {}, {}
    for section, crates, term, *_ in rows():
        for crate in crates:
            sections[crate] = section
            terms.setdefault(crate, []).append(term)
    order = re.findall(r"^(\w+)[^:#\n]*:", (TOP / "crates.txt").read_text(), re.MULTILINE)
    for crate in (it for it in order if it in sections):
        anchor = re.sub(r"[^\w\- ]", "", sections[crate].lower()).replace(" ", "-")
        title = sections[crate].split(" (crates/")[0]
        yield f"| {crate} | [{title}](DEFINITIONS.md#{anchor}) | {'; '.join(terms[crate])} |"


def page():
    """Returns the text of the page."""
    made = [
        "# Index of definitions",
        "",
        "Made by `checks/index.py` from `docs/DEFINITIONS.md`, which says each in plain words, and from the files that define them. A word's link leads to its line. [By crate](#by-crate) comes after the terms.",
        "",
        "## By term",
        "",
        "| Term | Crate | Words | Source |",
        "|---|---|---|---|",
    ]
    found = []
    for _, crates, term, plain, names, source in rows():
        files = sources(crates, names)
        words = [defined(word, files) for word in dict.fromkeys(re.findall(r"`([\w-]+)`", plain))]
        links = [it for it in words if it] or [it for file in files for it in all_of(file)]
        if links:
            found.append(f"| {term} | {', '.join(crates)} | {', '.join(links)} | {source} |")
    ends = ["", "## By crate", "", "| Crate | Section of DEFINITIONS | Terms |", "|---|---|---|", *by_crate()]
    return "\n".join(made + sorted(found, key=str.casefold) + ends) + "\n"


def main():
    made = page()
    if "--write" in sys.argv:
        PAGE.write_text(made)
    elif not PAGE.exists() or PAGE.read_text() != made:
        print("docs/INDEX.md isn't what the sources say: make pages")
        return 1
    return 0


if __name__ == "__main__":
    sys.exit(main())
