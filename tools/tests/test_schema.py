"""The schema says of each conformance case what it should, but for the listed exceptions."""

import subprocess
import sys
import unittest

from helpers import TOOLS


class Schema(unittest.TestCase):
    def test_the_schema_and_the_cases(self):
        done = subprocess.run([sys.executable, "-B", TOOLS / "check-schema"], capture_output=True, text=True)
        if done.stdout.startswith("skipped: "):
            self.skipTest(done.stdout.strip().removeprefix("skipped: "))
        self.assertEqual(done.returncode, 0, done.stdout + done.stderr)
