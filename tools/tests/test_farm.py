"""docs/FARM.md: its recipes do conformance cases, the first one two hundred, and go on after a stop."""

import json
import os
import pathlib
import re
import shutil
import subprocess
import tempfile
import unittest

from helpers import CASES, PROGRAM, TOP, needs_program

needs_parallel = unittest.skipUnless(shutil.which("parallel"), "GNU parallel isn't installed")


def recipes():
    """Returns the shell lines of the page, by the title of their section, the first of each."""
    text = (TOP / "docs" / "FARM.md").read_text(encoding="utf-8")
    sections = re.split(r"^## ", text, flags=re.M)[1:]
    return {it.split("\n")[0]: re.findall(r"```bash\n(.*?)```", it, re.S) for it in sections}


def cases(number):
    """Returns the name, the recording, the text and the status of so many cases."""
    found = []
    for path in sorted(CASES.glob("*/*.json")):
        case = json.loads(path.read_text(encoding="utf-8"))
        for answer in case["answers"]:
            if "recording" in case and answer["words"] == ["run"]:
                found.append((f"{path.parent.name}-{path.stem}", case["recording"], answer["text"], answer["status"]))
    return found[:: len(found) // number][:number]


@needs_program
class Farms(unittest.TestCase):
    def setUp(self):
        self.room = tempfile.TemporaryDirectory()
        self.addCleanup(self.room.cleanup)
        self.folder = pathlib.Path(self.room.name)
        (self.folder / "recordings").mkdir()
        shutil.copy(PROGRAM, self.folder / "vkray")

    def take(self, number):
        """Puts the recordings of so many cases into the folder."""
        self.cases = cases(number)
        self.assertEqual(len(self.cases), number)
        for name, recording, _, _ in self.cases:
            (self.folder / "recordings" / f"{name}.json").write_text(json.dumps(recording))

    def run_lines(self, lines, **more):
        """Runs shell lines in the folder."""
        environment = {**os.environ, "HOME": self.room.name, "PARALLEL_HOME": f"{self.room.name}/home", **more}
        done = subprocess.run(["bash", "-c", lines], cwd=self.folder, capture_output=True, text=True, env=environment)
        self.assertEqual(done.returncode, 0, done.stdout + done.stderr[-2000:])

    def all_are_right(self):
        """Compares texts and statuses with those of the cases."""
        for name, _, text, status in self.cases:
            self.assertEqual((self.folder / "answers" / f"{name}.txt").read_text(), text, name)
            self.assertEqual((self.folder / "answers" / f"{name}.status").read_text(), f"{status}\n", name)

    @needs_parallel
    def test_one_machine_and_on_after_a_stop(self):
        self.take(200)
        lines = recipes()["One machine"][0]
        self.run_lines(lines.replace(":::: list", ":::: <(head -n 80 list)"))
        log = self.folder / "answers" / "log"
        self.assertEqual(len(log.read_text().splitlines()), 81)
        done = {it: it.stat().st_mtime_ns for it in (self.folder / "answers").glob("*.status")}
        self.run_lines(lines)
        self.assertEqual(len(log.read_text().splitlines()), 201)
        self.assertEqual({it: it.stat().st_mtime_ns for it in done}, done)
        self.all_are_right()

    @needs_parallel
    def test_many_machines_of_which_this_is_one(self):
        self.take(40)
        (self.folder / "machines").write_text("2/:\n")
        self.run_lines(recipes()["Many machines"][0])
        self.all_are_right()

    def test_the_tasks_of_the_array(self):
        self.take(40)
        script, begin = recipes()["A Slurm array"]
        (self.folder / "farm.sbatch").write_text(script)
        self.run_lines(begin.replace("sbatch farm.sbatch", "for SLURM_ARRAY_TASK_ID in {0..99}; do export SLURM_ARRAY_TASK_ID; bash farm.sbatch; done"))
        self.all_are_right()
