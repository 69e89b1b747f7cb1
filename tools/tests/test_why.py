"""vkray_why: of every case that asks `check` its first line and its status are those of the case, and each refusal is told."""

import concurrent.futures
import json
import os
import pathlib
import subprocess
import unittest

from helpers import CASES, TOP

WHY = pathlib.Path(os.environ.get("VKRAY_WHY", TOP / "crates" / "vkray_why" / "out" / "vkray_why")).absolute()

needs_why = unittest.skipUnless(os.access(WHY, os.X_OK), f"there is no program {WHY.name} (VKRAY_WHY, make)")


def given(case):
    """Returns the bytes of a case's input."""
    if "recording" in case:
        return json.dumps(case["recording"]).encode()
    if "pieces" in case:
        return b"".join(piece["text"].encode() * piece["times"] for piece in case["pieces"])
    return bytes.fromhex(case["hex"])


def checked():
    """Returns each case that asks `check`, with its name, its text and its status."""
    for path in sorted(CASES.glob("*/*.json")):
        case = json.loads(path.read_text(encoding="utf-8"))
        for answer in case["answers"]:
            if answer["words"] == ["check"]:
                yield f"{path.parent.name}/{path.stem}", case, answer["text"], answer["status"]


def told(case, *words):
    """Returns the status and the lines that vkray_why gives of a case."""
    done = subprocess.run([WHY, *words], input=given(case), stdout=subprocess.PIPE, timeout=120)
    return done.returncode, done.stdout.decode().splitlines()


def place(line):
    """Returns the number of the command of a line `refused I RULE` and that of its rule."""
    _, command, rule = line.split()[:3]
    return int(command), int(rule[1:])


def is_told(line, lines):
    """Whether something stands below the first line, and of a refusal below the sentence of the rule."""
    if not line.startswith("refused"):
        return len(lines) > 1 or line in ("ok", "too-long")
    return len(lines) > 2


@needs_why
class Tells(unittest.TestCase):
    def test_every_case_that_asks_check(self):
        cases = list(checked())
        self.assertGreater(len(cases), 1400)
        with concurrent.futures.ThreadPoolExecutor(os.cpu_count()) as workers:
            answers = list(workers.map(lambda it: told(it[1]), cases))
        for (name, case, text, status), (came, lines) in zip(cases, answers):
            self.assertEqual((came, lines[0] + "\n"), (status, text), name)
            self.assertTrue(is_told(lines[0], lines), name)

    def test_the_first_is_the_least_of_all(self):
        cases = [it for it in checked() if it[2].startswith("refused")]
        self.assertGreater(len(cases), 400)
        with concurrent.futures.ThreadPoolExecutor(os.cpu_count()) as workers:
            answers = list(workers.map(lambda it: told(it[1], "--all"), cases))
        for (name, _, text, status), (came, lines) in zip(cases, answers):
            every = [it for it in lines[1:] if it.startswith("refused")]
            self.assertEqual((came, min(every, key=place) + "\n"), (status, text), name)
