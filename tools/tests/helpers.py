"""What the tests share: the folders, the tools as commands, and the program."""

import functools
import os
import pathlib
import subprocess
import sys
import unittest

TOP = pathlib.Path(__file__).resolve().parent.parent.parent
TOOLS = TOP / "tools"
DATA = TOOLS / "data"
CASES = TOP / "crates" / "vkray_cases" / "data"
PROGRAM = pathlib.Path(os.environ.get("VKRAY", TOP / "vkray")).absolute()

needs_program = unittest.skipUnless(os.access(PROGRAM, os.X_OK), f"there is no program {PROGRAM.name} (VKRAY, make)")


def tool(name, *words, given=b""):
    """Runs a tool; returns its status, its output and what it told on standard error."""
    command = [sys.executable, "-B", str(TOOLS / name), *map(str, words)]
    done = subprocess.run(command, input=given, capture_output=True, cwd=TOP, timeout=120)
    return done.returncode, done.stdout, done.stderr.decode()


def vkray(*words, given=b""):
    """Runs the program; returns its status and its text."""
    done = subprocess.run([PROGRAM, *words], input=given, capture_output=True, timeout=120)
    return done.returncode, done.stdout.decode()


@functools.lru_cache(maxsize=None)
def packed(*words):
    """Returns the recording that vkraypack makes for these words."""
    status, text, told = tool("vkraypack", *words)
    assert status == 0, told
    return text


@functools.lru_cache(maxsize=None)
def hits_of(*words):
    """Returns the text of the run of such a recording."""
    status, text = vkray("run", given=packed(*words))
    assert status == 0, text
    return text


TORUS = ("obj", DATA / "torus.obj", "--scale", "1000", "--image", "40x30")
EVERY_FILE = (
    TORUS,
    ("gltf", DATA / "pyramids.gltf", "--scale", "100", "--image", "16x12"),
    ("gltf", DATA / "mirrored.gltf", "--scale", "100", "--image", "16x12"),
    ("scene", DATA / "boxes.json"),
    ("scene", DATA / "fan.json"),
)
