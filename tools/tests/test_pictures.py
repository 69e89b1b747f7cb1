"""The pictures of docs/pictures are what the tools make; vkraydraw tells what barriers name."""

import json
import pathlib
import re
import tempfile
import unittest

from helpers import CASES, DATA, TOP, hits_of, needs_program, packed, tool, vkray
from vkraydraw.chain import chain, told_buffers
from vkraypack import Camera, with_rays
from vkraypack.recording import recording_text
from vkrayhits import read_hits
from vkrayhits.geometry import Geometry
from vkrayhits.picture import picture
from vkrayhits.png import rows_of

PICTURES = TOP / "docs" / "pictures"
SPARSE = 97  # of so many pixels of the made-up scene one is looked at


@needs_program
class Pictures(unittest.TestCase):
    def drawn(self, kind, recording, text):
        """Returns what vkraydraw draws of a recording and a text."""
        with tempfile.TemporaryDirectory() as folder:
            folder = pathlib.Path(folder)
            (folder / "recording").write_bytes(recording)
            (folder / "text").write_text(text)
            return tool("vkraydraw", kind, folder / "recording", folder / "text")

    def test_the_fan(self):
        words = ("scene", DATA / "fan.json")
        status, made, told = self.drawn("owners", packed(*words), hits_of(*words))
        self.assertEqual((status, told), (0, ""))
        self.assertEqual(made, (PICTURES / "fan.svg").read_bytes())

    def test_the_chain(self):
        recording = (TOP / "examples" / "hazard.json").read_bytes()
        status, made, told = self.drawn("chain", recording, vkray("check", given=recording)[1])
        self.assertEqual((status, told), (0, ""))
        self.assertEqual(made, (PICTURES / "chain.svg").read_bytes())

    def test_the_made_up_scene(self):
        page = (PICTURES / "README.md").read_text(encoding="utf-8")
        line = next(it for it in page.splitlines() if it.startswith("./vkray gen 8 2 64"))
        numbers = list(map(int, re.findall(r"-?\d+", line.split("--image")[1].split(">")[0])))
        (width, height), origin, target, angle = numbers[:2], numbers[2:5], numbers[5:8], numbers[8]
        rays = Camera(origin, target, width, height, (0, 0, 1), angle).rays()
        commands = with_rays(json.loads(vkray("gen", "8", "2", "64")[1]), rays[::SPARSE])
        hits = read_hits(vkray("run", given=recording_text(commands).encode())[1], "run")
        pixels = picture(hits, len(hits), 1, "primitive", Geometry(commands, "gen"))[0]
        kept = rows_of((PICTURES / "gen.png").read_bytes())
        zoom = len(kept) // height
        wanted = [kept[place // width * zoom][place % width * zoom] for place in range(0, width * height, SPARSE)]
        self.assertEqual(pixels, wanted)

    def test_a_ray_that_is_askew_is_not_drawn(self):
        words = ("gltf", DATA / "mirrored.gltf", "--scale", "100", "--image", "16x12")
        status, _, told = self.drawn("owners", packed(*words), hits_of(*words))
        self.assertEqual((status, told), (1, "vkraydraw: " + told.split(": ")[1] + ": a ray doesn't go straight down\n"))


class Chains(unittest.TestCase):
    def test_barriers_that_name_buffers(self):
        case = json.loads((CASES / "limited-barriers" / "example-two-uploads.json").read_text(encoding="utf-8"))
        drawn = chain(case["recording"], "ok\n")
        self.assertEqual(re.findall(r">(buffers [^<]*)<", drawn), ["buffers 0", "buffers 3", "buffers 3"])
        self.assertEqual(drawn.count(">structure_copy<"), 1)

    def test_what_a_barrier_names_is_told_in_order_and_once(self):
        self.assertEqual(told_buffers([7, 1, 7]), "buffers 1, 7")
        self.assertEqual(told_buffers(range(9)), "buffers 0, 1, 2, 3 and 5 more")
        self.assertEqual(told_buffers([]), "no buffers")
