#!/usr/bin/env python3
"""Makes docs/RULES.md: for each rule and each status its sentence, its definition, the function that decides it, its
cases and its wrong bodies, read off docs/RECORDING.md, README.md, the sources and the corpus. Without --write it
compares the page with that.
"""
import collections
import json
import pathlib
import re
import sys

TOP = pathlib.Path(__file__).resolve().parent.parent
PAGE = TOP / "docs" / "RULES.md"
# The crates that define and decide data rules, lowest first, and the rules that compare two commands.
DATA = ["ray_primitives", "ray_top", "ray_action"]
DECIDING = ["ray_primitives", "ray_top", "ray_device"]
HAZARDS = {"V25", "V26", "V27", "V32"}
# And those on timeline semaphores.
SEMAPHORES = {"V33", "V34"}
# Of each status the words that say when it comes, and the functions that find it so: crate, file, name.
STATUSES = {
    "0": [("vkray", "specs/Answer.antt", "answer_of")], "1": [("vkray", "specs/Answer.antt", "refused_before")],
    "2": [("ray_cmd", "specs/Recordings.antt", "recording_in"), ("ray_inputs", "specs/Inputs.antt", "queued_in")],
    "3": [("vkray", "specs/Words.antt", "AreWords")], "4": [("vkray", "specs/Call.antt", "IsEnding")],
    "5": [("vkray", "specs/Call.antt", "IsSent")], "6": [("vkray", "specs/Call.antt", "IsTooLong")],
    "7": [("vkray", "specs/Call.antt", "IsOutOfMemory")],
}
FINDING = {
    "0": [("vkray", "src/executing.rt", "execute")],
    "1": [("ray_check", "src/verdict.rt", "check_rules"), ("ray_exec", "src/running.rt", "run_waves")],
    "2": [("ray_cmd", "src/reading.rt", "read_recording"), ("ray_inputs", "src/queued.rt", "read_queued")],
    "3": [("vkray", "src/request.rt", "of_words")], "4": [("ray_io", "src/reading.rt", "read_all")],
    "5": [("ray_io", "src/writing.rt", "write_all")], "6": [("ray_io", "src/reading.rt", "read_all")],
    "7": [("vkray", "src/top_call.rt", "vkray")],
}
WORD = re.compile(r"^(?:abbrev |unfoldable |record |data )?(?:pub )?(?:record |data )?(\w[\w-]*)(?: |$)", re.MULTILINE)
FUNCTION = re.compile(r"\bfn (\w+)")


def sentences():
    """Returns the sentence of each rule, from the tables of docs/RECORDING.md."""
    text = (TOP / "docs" / "RECORDING.md").read_text()
    return {it[1]: it[2].strip() for it in re.finditer(r"^\| ([VX]\d+) \| (.*?) \| ", text, re.MULTILINE)}


def causes():
    """Returns when each status comes, from the table of README."""
    return dict(re.findall(r"^\| (\d) \| (.*?) \| ", (TOP / "README.md").read_text(), re.MULTILINE))


def files(crates, part, ending):
    """Returns the files of a part of some crates, in the crates' order."""
    return [it for crate in crates for it in sorted((TOP / "crates" / crate / part).rglob(f"*{ending}"))]


def said(file, name):
    """Returns a link to the line of a file of the repository that defines a name."""
    inside = file.relative_to(TOP)
    start = re.compile(rf"^\s*(?:[\w()]+ )*{re.escape(name)}(?![\w-])")
    lines = [number for number, line in enumerate(file.read_text().splitlines(), 1) if start.match(line)]
    return f"[`{name}`](../{inside}#L{lines[0]}) of {inside.parts[1]}"


def after_comment(rule, found, mark, named):
    """Returns what follows the comment that begins with a rule, in each file that has one."""
    told = []
    for file in found:
        text = file.read_text()
        at = re.search(rf"^\s*{mark} {rule}(:| of a build)", text, re.MULTILINE)
        if at:
            rest = re.sub(rf"^\s*{mark}.*\n|^\s*#\[.*\n", "", text[at.start() :], flags=re.MULTILINE)
            told.append((file, named.search(rest)[1]))
    return told


def around(rule, found, named):
    """Returns what stands around the first naming of a rule, in the first file that names it."""
    for file in found:
        lines = file.read_text().splitlines()
        for at, line in enumerate(lines):
            if re.search(rf"\b{rule}\b", line) and not line.lstrip().startswith(("//", "--", "use ", "ghost use ")):
                for before in reversed(lines[: at + 1]):
                    name = named.match(before) if named is WORD else named.search(before)
                    if name and not before.startswith((" ", "use ")) or name and named is FUNCTION:
                        return [(file, name[1])]
    return []


def places(rule):
    """Returns where a rule is defined, and where it is decided."""
    if rule in HAZARDS:
        defined = after_comment(rule, files(["ray_rules"], "specs", ".antt"), "--", WORD)
        crates = ["ray_sync", "ray_queue_check"]
        return defined, [(TOP / f"crates/{crate}/src/check.rt", rule.lower()) for crate in crates]
    if rule in SEMAPHORES:
        defined = after_comment(rule, files(["ray_submits"], "specs", ".antt"), "--", WORD)
        return defined, [(TOP / "crates/ray_submits/src/check.rt", "check_semaphores")]
    if rule.startswith("V"):
        return (
            after_comment(rule, files(["ray_rules"], "specs", ".antt"), "--", WORD),
            after_comment(rule, files(["ray_valid", "ray_infos"], "src", ".rt"), "//", FUNCTION)
            + after_comment(rule, files(["ray_infos"], "src", ".rt"), "///", FUNCTION),
        )
    return around(rule, files(DATA, "specs", ".antt"), WORD), around(rule, files(DECIDING, "src", ".rt"), FUNCTION)


def corpus():
    """Returns how many answers of each family name a rule or have a status."""
    rules, statuses = collections.defaultdict(collections.Counter), collections.defaultdict(collections.Counter)
    for file in sorted((TOP / "crates/vkray_cases/data").glob("*/*.json")):
        for answer in json.loads(file.read_text())["answers"]:
            named = re.match(r"refused \d+ ([VX]\d+)", answer["text"])
            statuses[str(answer["status"])][file.parent.name] += 1
            if named:
                rules[named[1]][file.parent.name] += 1
    return rules, statuses


def counted(families):
    """Returns the families with their numbers of answers."""
    return ", ".join(f"{name} {number}" for name, number in sorted(families.items())) or "none"


def wrong_bodies(places):
    """Returns the names of the wrong bodies of the crates of some places."""
    folders = sorted({file.parents[-len(TOP.parts) - 2] for file, _ in places})
    return [edit.stem for folder in folders for edit in sorted((folder / "must-fail").glob("*.edit"))]


def page():
    """Returns the text of the page."""
    rules, statuses = corpus()
    rows = [
        "# Rules: where each is defined, decided and tested",
        "",
        "Made by `checks/rules.py` from the sources, and compared by the gate's side checks. `docs/RECORDING.md` says each rule whole, with its places. Cases are answers of the conformance corpus that name the rule, by family.",
        "",
        "| Rule | Broken where | Defined | Decided | Cases | Wrong bodies of that crate |",
        "|---|---|---|---|---|---|",
    ]
    for rule, sentence in sentences().items():
        defined, decided = places(rule)
        cells = [
            rule,
            sentence,
            ", ".join(said(*it) for it in defined),
            ", ".join(said(*it) for it in decided),
            counted(rules[rule]),
            ", ".join(f"`{it}`" for it in wrong_bodies(decided)),
        ]
        rows.append("| " + " | ".join(cells) + " |")
    rows += ["", "| Status | Comes | Defined | Decided | Cases | Wrong bodies of that crate |", "|---|---|---|---|---|---|"]
    for status, comes in causes().items():
        defined, decided = ([(TOP / "crates" / crate / file, name) for crate, file, name in table[status]]
                            for table in (STATUSES, FINDING))
        cells = [
            status,
            comes,
            ", ".join(said(*it) for it in defined),
            ", ".join(said(*it) for it in decided),
            counted(statuses[status]),
            ", ".join(f"`{it}`" for it in wrong_bodies(decided)),
        ]
        rows.append("| " + " | ".join(cells) + " |")
    rows += ["", "Statuses 4, 5 and 7 want streams or memory that fail: tests of vkray_rows, and `make hostile`."]
    return "\n".join(rows) + "\n"


def main():
    made = page()
    if "--write" in sys.argv:
        PAGE.write_text(made)
    elif not PAGE.exists() or PAGE.read_text() != made:
        print("docs/RULES.md isn't what the sources say: make pages")
        return 1
    return 0


if __name__ == "__main__":
    sys.exit(main())
