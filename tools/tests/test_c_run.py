"""include/vkray_run.h: a program in C runs recordings by starting the program."""

import os
import pathlib
import shutil
import subprocess
import tempfile
import unittest

from helpers import PROGRAM, TOP, needs_program

needs_compiler = unittest.skipUnless(shutil.which("cc") and os.uname().sysname == "Linux", "no cc, or no pipe2")


@needs_compiler
class RunsFromC(unittest.TestCase):
    @classmethod
    def setUpClass(cls):
        cls.room = tempfile.TemporaryDirectory()
        cls.addClassCleanup(cls.room.cleanup)
        cls.run_by_c = str(pathlib.Path(cls.room.name) / "run")
        strict = ["-std=c99", "-Wall", "-Wextra", "-Werror", "-pedantic", "-Iinclude"]
        subprocess.run(["cc", *strict, "-o", cls.run_by_c, "examples/c/run.c"], cwd=TOP, check=True)

    def ask(self, program, file, *words):
        """Returns the status and what is printed."""
        run = subprocess.run([self.run_by_c, program, str(file), *words], capture_output=True, check=False)
        return run.returncode, run.stdout

    @needs_program
    def test_examples_end_as_by_the_program(self):
        for name, words in (("triangle", ["run"]), ("hazard", ["check"]), ("two-queues", ["queues", "--workers", "2"])):
            file = TOP / "examples" / f"{name}.json"
            wanted = subprocess.run([PROGRAM, *words], input=file.read_bytes(), capture_output=True, check=False)
            self.assertEqual(self.ask(PROGRAM, file, *words), (wanted.returncode, wanted.stdout))

    def test_more_than_a_pipe_holds_goes_both_ways(self):
        file = pathlib.Path(self.room.name) / "long"
        file.write_bytes(bytes(range(256)) * 10_000)
        self.assertEqual(self.ask("cat", file, "-"), (0, file.read_bytes()))

    def test_what_reads_nothing_is_no_fault(self):
        file = pathlib.Path(self.room.name) / "unread"
        file.write_bytes(bytes(1 << 20))
        self.assertEqual(self.ask("true", file, "word"), (0, b""))

    def test_what_isnt_there_or_is_killed(self):
        self.assertEqual(self.ask("./no-such-program", TOP / "VERSION", "run"), (16, b""))
        self.assertEqual(self.ask("sh", TOP / "VERSION", "-c", "echo text; kill -9 $$"), (17, b""))


if __name__ == "__main__":
    unittest.main()
