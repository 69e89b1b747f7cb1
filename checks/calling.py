#!/usr/bin/env python3
"""Compares what the pages crates/NAME/CALLING.md quote with the files: each block of code comes after a line that
links a file, and its lines stand there one after the other, as they are or all of them further right.
"""
import pathlib
import re
import sys

TOP = pathlib.Path(__file__).resolve().parent.parent
QUOTED = re.compile(r"^From \[`[^`]*`\]\((\S+)\):\n\n```\w+\n(.*?)^```$", re.MULTILINE | re.DOTALL)


def stands(block, file):
    """Returns whether the lines of a block stand in a file."""
    lines = file.read_text().splitlines() if file.is_file() else []
    for indent in ("", "    "):
        wanted = [indent + line if line else "" for line in block]
        if any(lines[k : k + len(wanted)] == wanted for k in range(len(lines))):
            return True
    return False


def faults(page):
    """Returns a line for each block of a page that isn't a quotation."""
    text = page.read_text()
    quoted = QUOTED.findall(text)
    if len(quoted) != len(re.findall(r"^```\w+$", text, re.MULTILINE)):
        yield f"{page.relative_to(TOP)}: a block of code doesn't come after the link of its file"
    for link, block in quoted:
        if not stands(block.splitlines(), (page.parent / link).resolve()):
            yield f"{page.relative_to(TOP)}: a block isn't what {link} says: {block.splitlines()[0]}"


def main():
    told = [fault for page in sorted(TOP.glob("crates/*/CALLING.md")) for fault in faults(page)]
    for fault in told:
        print(fault)
    return 1 if told else 0


if __name__ == "__main__":
    sys.exit(main())
