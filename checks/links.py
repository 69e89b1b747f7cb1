#!/usr/bin/env python3
"""Follows each link of the pages: its file has to be there, and of a page the heading that it names, as a browser
of repositories spells it.
"""
import pathlib
import re
import sys

TOP = pathlib.Path(__file__).resolve().parent.parent
PAGES = [TOP / "README.md", TOP / "conformance/README.md", TOP / "examples/c/README.md", *TOP.glob("crates/*/*.md")]
LINK = re.compile(r"\]\(([^)\s]+)\)")


def headings(page):
    """Returns the headings of a page, in lower case, with hyphens for blanks and without other signs."""
    text = re.sub(r"^```.*?^```", "", page.read_text(), flags=re.MULTILINE | re.DOTALL)
    found = re.findall(r"^#+ (.*)$", text, re.MULTILINE)
    return {re.sub(r"[^\w\- ]", "", it.lower()).replace(" ", "-") for it in found}


def faults(page):
    """Returns a line for each link of a page that leads nowhere."""
    for link in LINK.findall(page.read_text()):
        way, _, heading = link.partition("#")
        file = (page.parent / way).resolve() if way else page
        if ":" in way:
            continue
        if not file.exists():
            yield f"{page.relative_to(TOP)}: {link} isn't there"
        elif heading and file.suffix == ".md" and heading not in headings(file):
            yield f"{page.relative_to(TOP)}: {link} names no heading"


def main():
    told = [fault for page in PAGES + sorted((TOP / "docs").rglob("*.md")) for fault in faults(page)]
    for fault in told:
        print(fault)
    return 1 if told else 0


if __name__ == "__main__":
    sys.exit(main())
