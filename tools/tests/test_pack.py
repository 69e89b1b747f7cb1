"""vkraypack: what it makes is accepted, means what was asked, and errors say what is wrong and where."""

import json
import pathlib
import tempfile
import unittest
from fractions import Fraction

from helpers import DATA, EVERY_FILE, TOP, hits_of, needs_program, packed, tool, vkray
from vkraypack import Camera, Instance, PackError, Ray, Recording
from vkraypack.gltf import read_gltf
from vkraypack.grid import Grid
from vkraypack.obj import read_obj


class Recordings(unittest.TestCase):
    def test_the_buffers_of_the_first_example(self):
        made = Recording()
        mesh = made.mesh([(0, 0, 0), (4, 0, 0), (0, 4, 0)], [(0, 1, 2)])
        made.trace(made.top([Instance(mesh)]), [Ray((1, 1, 5), (0, 0, -1), 0, 256)])
        commands = json.loads(made.text())
        example = json.loads((TOP / "examples" / "triangle.json").read_text())
        data = [it["data"] for it in commands if "data" in it]
        self.assertEqual(data[0], example[0]["data"][:72])
        self.assertEqual(data[2], example[0]["data"][128:256])
        self.assertEqual(data[3], example[3]["data"])
        sizes = [it["size"] for it in commands if it["op"] == "structure"]
        self.assertEqual(sizes, [512, 512])

    @needs_program
    def test_everything_passes_check(self):
        for words in EVERY_FILE:
            with self.subTest(file=words[1].name):
                self.assertEqual(vkray("check", given=packed(*words)), (0, "ok\n"))

    @needs_program
    def test_the_order_of_commands_is_kept(self):
        made = Recording()
        first = made.numbers(["transfer_src", "transfer_dst"], [1, 2], bits=64)
        made.device("fill", buffer=first, offset=0, size=8, value=7)
        second = made.buffer(["transfer_dst"], size=16)
        made.device("copy", src=first, dst=second, regions=[{"src_offset": 0, "dst_offset": 8, "size": 8}])
        made.read(second, 0, 16, "u64")
        made.device("fill", buffer=second, offset=0, size=4, value=9)
        made.read(second, 0, 4, "hex")
        self.assertEqual(vkray("run", given=made.text().encode()), (0, "0 30064771079\n09000000\n"))

    @needs_program
    def test_without_barriers_the_program_refuses(self):
        made = Recording(barriers=False)
        mesh = made.mesh([(0, 0, 0), (4, 0, 0), (0, 4, 0)], [(0, 1, 2)])
        made.trace(made.top([Instance(mesh)]), [Ray((1, 1, 5), (0, 0, -1))])
        status, text = vkray("check", given=made.text().encode())
        self.assertEqual((status, text.split()[2]), (1, "V25"))

    def test_barriers_go_by_what_commands_access(self):
        made = Recording(barriers=False)
        made.barrier("copy_structure serialize", "build")
        made.barrier("fill", "copy read", [0, 3])
        first, second = made.commands[1:]
        self.assertEqual(first, {
            "op": "barrier", "src_stages": ["structure_copy"], "src_access": ["structure_write", "transfer_write"],
            "dst_stages": ["build"], "dst_access": ["shader_read", "structure_read", "structure_write"]})
        self.assertEqual(second, {
            "op": "barrier", "src_stages": ["transfer"], "src_access": ["transfer_write"], "dst_stages": ["transfer", "host"],
            "dst_access": ["transfer_read", "transfer_write", "host_read"], "buffers": [0, 3]})

    @needs_program
    def test_barriers_that_name_buffers(self):
        for named, wanted in (([0, 1], (0, "ok\n")), ([0], (1, "refused 8 V25 with 5\n"))):
            made = Recording(barriers=False)
            one, other, both = (made.buffer(["transfer_src", "transfer_dst"], size=16) for _ in range(3))
            for buffer in (one, other):
                made.device("fill", buffer=buffer, offset=0, size=8, value=7)
            made.barrier("fill", "copy", named)
            for place, buffer in enumerate((one, other)):
                regions = [{"src_offset": 0, "dst_offset": 8 * place, "size": 8}]
                made.device("copy", src=buffer, dst=both, regions=regions)
            self.assertEqual(vkray("check", given=made.text().encode()), wanted)

    @needs_program
    def test_boxes_by_hand(self):
        lines = hits_of("scene", DATA / "boxes.json").splitlines()
        self.assertEqual(lines[0], "0 box inst 1 custom 0 sbt 0 geom 0 prim 0 face 0 t 10/1 u 0/1 v 0/1")
        self.assertEqual(lines[1], "1 tri inst 2 custom 0 sbt 0 geom 0 prim 0 face 1 t 30/1 u 9/20 v 1/5")
        self.assertEqual(lines[2], "2 box inst 0 custom 7 sbt 0 geom 0 prim 0 face 0 t 5/3 u 0/1 v 0/1")

    @needs_program
    def test_a_camera_for_a_made_up_scene(self):
        given = vkray("gen", "2", "1", "1")[1].encode()
        words = ("--image", "4x3", "--from", 8, -20, 30, "--at", 8, 8, 0)
        status, text, told = tool("vkraypack", "camera", *words, given=given)
        self.assertEqual((status, told), (0, ""))
        status, text = vkray("run", given=text)
        self.assertEqual((status, len(text.splitlines())), (0, 12))


class Files(unittest.TestCase):
    def obj(self, text, scale=1):
        with tempfile.TemporaryDirectory() as folder:
            path = pathlib.Path(folder) / "a.obj"
            path.write_text(text)
            grid = Grid(Fraction(scale))
            return read_obj(path, grid), grid

    def test_obj_corners_and_fans(self):
        model, _ = self.obj("v 0 0 0\nv 1 0 0\nv 1 1 0\nv 0 1 0\nf 1/1 2//2 3/3/3 \\\n -1\n")
        vertices, triangles = model.bottoms[0][0]
        self.assertEqual(vertices, [(0, 0, 0), (1, 0, 0), (1, 1, 0), (0, 1, 0)])
        self.assertEqual(triangles, [(0, 1, 2), (0, 2, 3)])

    def test_rounding_and_clipping_are_told(self):
        model, grid = self.obj("v 0.29 0 0\nv 1.255 0 0\nv 0 9000 0\nf 1 2 3\n", 100)
        self.assertEqual(model.bottoms[0][0][0], [(29, 0, 0), (126, 0, 0), (0, 524288, 0)])
        self.assertEqual((grid.rounded, grid.farthest, grid.clipped, grid.flat), (1, Fraction(1, 2), 1, 0))
        self.assertIn("vertex 2, at 0, 900000, 0", "\n".join(grid.report()))

    def test_errors_say_where(self):
        for text, told in (
            ("v 0 0\n", "line 1: a vertex of 2 numbers"), ("v 0 0 nan\n", "line 1: 'nan' is no decimal number"),
            ("v 0 0 0\nf 1 1\n", "line 2: a face of 2 corners"), ("v 0 0 0\nf 1 0 1\n", "line 2: '0' names no vertex"),
            ("v 0 0 0\nf 1 1 2\n", "triangle 0 names vertex 2 of 1"), ("v 0 0 0\n", "it has no face"),
        ):
            with self.subTest(text=text), self.assertRaises(PackError) as caught:
                self.obj(text)
            self.assertIn(told, str(caught.exception))

    def test_gltf_nodes(self):
        grid = Grid(100)
        model = read_gltf(DATA / "pyramids.gltf", grid)
        plain, turned, baked = model.instances
        self.assertEqual(plain, (0, ((1, 0, 0, 0), (0, 1, 0, 0), (0, 0, 1, 0))))
        self.assertEqual(turned, (0, ((0, 0, 2, 500), (0, 2, 0, 0), (-2, 0, 0, 25))))
        self.assertEqual(baked, (1, ((1, 0, 0, 0), (0, 1, 0, 0), (0, 0, 1, 0))))
        self.assertEqual(model.bottoms[1][0][0][1], (-400, 0, -141))  # the corner (1, 0, -1), turned by an eighth
        self.assertIn("node 3", grid.notes[0])

    def test_gltf_with_a_file_beside_it(self):
        model = read_gltf(DATA / "mirrored.gltf", Grid(2))
        self.assertEqual(model.instances, [(0, ((-1, 0, 0, 6), (0, 1, 0, 0), (0, 0, 1, 0)))])
        self.assertEqual(model.bottoms[0][0][0], [(-2, 0, -2), (2, 0, -2), (2, 0, 2), (-2, 0, 2), (0, 3, 0)])

    def test_scene_errors_say_where(self):
        for scene, told in (
            ({}, "scene: it has no member 'structures'"),
            ({"structures": [{"vertices": [[0, 0]], "triangles": []}]}, "structure 0, vertex 0"),
            ({"structures": [{"vertices": [], "triangles": [[0, 1, 2]]}]}, "triangle 0: there is no vertex 2"),
            ({"structures": [], "rays": [{"origin": [0, 0, 0.5], "direction": [0, 0, 1]}]}, "ray 0, vector 0, number 2: 0.5"),
        ):
            status, _, error = tool("vkraypack", "scene", "-", given=json.dumps(scene).encode())
            self.assertEqual(status, 1)
            self.assertIn(told, error)


class Cameras(unittest.TestCase):
    def test_rays_go_through_pixels(self):
        rays = Camera((0, 0, 10), (0, 0, 0), 2, 2, angle=90).rays()
        self.assertEqual(len({(x > 0, y > 0) for x, y, _ in (it.direction for it in rays)}), 4)
        x, y, z = rays[0].direction  # the upper left one
        self.assertTrue(x < 0 < y and abs(2 * x - z) <= 2 and abs(2 * y + z) <= 2)
        self.assertEqual(len({it.direction[2] for it in rays}), 1)
