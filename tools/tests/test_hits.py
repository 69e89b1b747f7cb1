"""vkrayhits: hits are read, drawn and compared; what may differ is told apart from what may not."""

import csv
import io
import json
import pathlib
import struct
import tempfile
import unittest
from fractions import Fraction

from helpers import DATA, TOP, TORUS, hits_of, needs_program, packed, tool, vkray
from vkrayhits import read_hits
from vkrayhits.compare import NEEDED, last_place
from vkrayhits.png import png_of, rows_of

ONE = "0 tri inst 0 custom 0 sbt 0 geom 0 prim 0 face 1 t 5/1 u 1/4 v 1/4\n"
EDGE = "1 tri inst 0 custom 0 sbt 0 geom 0 prim 0 face 1 t 5/1 u 0/1 v 1/2\n"
NONE = "2 none\n"


def rounded(value):
    """Returns a fraction rounded to 24 bits, halves to even, as binary32 does."""
    unit = last_place(value)
    return round(value / unit) * unit


def floats(hits):
    """Returns CSV as a driver gives it: the hits with all their numbers rounded to 24 bits."""
    text = io.StringIO()
    table = csv.writer(text)
    table.writerow(NEEDED)
    for it in hits:
        numbers = [repr(float(rounded(value))) for value in (it.t, it.u, it.v)] if it.t is not None else [""] * 3
        table.writerow([it.ray, it.kind, *(it.identity() if it.t is not None else [""] * 3), *numbers])
    return text.getvalue()


class Comparing(unittest.TestCase):
    def compare(self, first, second, *words, after=None):
        with tempfile.TemporaryDirectory() as folder:
            folder = pathlib.Path(folder)
            for name, text in (("first", first), ("second", second), ("after", after)):
                if text is not None:
                    (folder / name).write_text(text)
            more = ("--next", folder / "after") if after else ()
            status, out, told = tool("vkrayhits", "compare", folder / "first", folder / "second", *more, *words)
        return status, out.decode() + told

    @needs_program
    def test_floats_of_24_bits_agree(self):
        text = hits_of(*TORUS)
        hits = read_hits(text, "torus")
        self.assertGreater(sum(it.kind == "tri" for it in hits), 100)
        status, told = self.compare(text, floats(hits), "--tolerance", "0.5")
        self.assertEqual(status, 0, told)
        self.assertIn("no difference", told)

    @needs_program
    def test_one_changed_primitive_is_found(self):
        text = hits_of(*TORUS)
        hits = read_hits(text, "torus")
        place = next(it.ray for it in hits if it.kind == "tri" and 0 < it.u and 0 < it.v and it.u + it.v < 1)
        hits[place] = hits[place]._replace(primitive=hits[place].primitive + 1)
        status, told = self.compare(text, floats(hits))
        self.assertEqual(status, 1)
        self.assertIn("\n1 differ\n", told)
        self.assertTrue(told.startswith(f"ray {place} hits tri"), told)

    @needs_program
    def test_edges_are_told_apart(self):
        text = hits_of("scene", DATA / "fan.json")
        hits = read_hits(text, "fan")
        on_edges = [it for it in hits if it.kind == "tri" and (0 in (it.u, it.v) or it.u + it.v == 1)]
        moved = [it._replace(primitive=(it.primitive + 1) % 8) if it in on_edges else it for it in hits]
        status, told = self.compare(text, floats(moved))
        self.assertEqual(status, 0, told)
        self.assertIn(f"on an edge or a vertex {len(on_edges):>20}{0:>11}{0:>11}{len(on_edges):>11}", told)
        self.assertEqual(self.compare(text, floats(moved), "--strict")[0], 1)

    @needs_program
    def test_equal_distances_are_told_by_a_second_run(self):
        square = {"vertices": [[0, 0, 0], [9, 0, 0], [0, 9, 0]], "triangles": [[0, 1, 2]]}
        rays = [{"origin": [x, 2, 5], "direction": [0, 0, -1]} for x in (1, 2)]
        scene = {"structures": [square, square], "rays": rays,
                 "instances": [{"structure": 0}, {"structure": 1, "matrix": [[1, 0, 0, 0], [0, 1, 0, -1], [0, 0, 1, 0]]},
                               {"structure": 1, "matrix": [[1, 0, 0, 0], [0, 1, 0, 0], [0, 0, 1, -1]]}]}
        recording = tool("vkraypack", "scene", "-", given=json.dumps(scene).encode())[1]
        text = vkray("run", given=recording)[1]
        with tempfile.TemporaryDirectory() as folder:
            folder = pathlib.Path(folder)
            (folder / "recording").write_bytes(recording)
            (folder / "run").write_text(text)
            status, second, told = tool("vkrayhits", "next", folder / "recording", folder / "run")
        self.assertEqual(status, 0, told)
        status, after = vkray("run", given=second)
        self.assertEqual((status, [it.instance for it in read_hits(after, "after")]), (0, [1, 1]))
        hits = read_hits(text, "run")
        other = floats([hits[0]._replace(instance=1), hits[1]])
        self.assertEqual(self.compare(text, other)[0], 1)
        status, told = self.compare(text, other, after=after)
        self.assertEqual(status, 0, told)

    def test_kind_distance_and_missing_rays(self):
        head = ",".join(NEEDED) + "\n"
        for rows, words in (
            ("0,none,,,,,,\n", "ray 0 hits tri instance 0 geometry 0 primitive 0 at t 5.0, and the second text hits nothing: kind"),
            ("0,tri,0,0,0,5.000001,.25,.25\n", ": distance"), ("", "is in the first text alone: missing"),
        ):
            status, told = self.compare(ONE, head + rows)
            self.assertEqual(status, 1)
            self.assertIn(words, told)
        self.assertEqual(self.compare(ONE, head + "0,tri,0,0,0,5.000001,.25,.25\n", "--tolerance", "3")[0], 0)

    def test_a_rim_is_an_edge(self):
        head = ",".join(NEEDED) + "\n"
        self.assertEqual(self.compare("0 none\n", head + "0,tri,0,0,0,5,0,.25\n")[0], 0)
        self.assertEqual(self.compare("0 none\n", head + "0,tri,0,0,0,5,.1,.25\n")[0], 1)

    def test_errors_say_where(self):
        for first, second, words in (
            ("refused 10 V25 with 8\n", ONE, "first, line 1: the run has no hits, but says 'refused 10 V25 with 8'"),
            (ONE, "ray,kind\n", "second, line 1: it has no column 'instance'"),
            (ONE, ",".join(NEEDED) + "\n0,tri,0,0,x,5,0,0\n", "second, line 2: primitive 'x' is no whole number"),
            (ONE + NONE, ONE, "first, line 2: ray 2 comes out of order"),
            (ONE + ONE, ONE, "first: it has 2 reads of hits"),
        ):
            status, told = self.compare(first, second)
            self.assertEqual(status, 2)
            self.assertIn(words, told)

    def test_units_of_the_last_place(self):
        for value in (1.0, 1.5, 3.0, 0.1, 524288.0, 2.0**-130):
            bits = struct.unpack("<I", struct.pack("<f", value))[0]
            low = struct.unpack("<f", struct.pack("<I", bits))[0]
            high = struct.unpack("<f", struct.pack("<I", bits + 1))[0]
            self.assertEqual(last_place(Fraction(low)), Fraction(high) - Fraction(low))
        self.assertEqual(float(rounded(Fraction(1, 3))), struct.unpack("<f", struct.pack("<f", 1 / 3))[0])


class Showing(unittest.TestCase):
    def test_json_and_csv(self):
        given = ("152 176 0 1\n" + ONE + EDGE + NONE).encode()
        status, text, _ = tool("vkrayhits", "json", "-", given=given)
        made = json.loads(text)
        self.assertEqual((status, made[0]["t"], made[0]["face"], made[2]), (0, [5, 1], "front", {"ray": 2, "kind": "none"}))
        status, text, _ = tool("vkrayhits", "csv", "-", given=given)
        rows = list(csv.DictReader(io.StringIO(text.decode())))
        self.assertEqual((status, rows[1]["v"], rows[2]["t"], len(rows)), (0, "0.5", "", 3))

    def test_a_picture_has_a_square_a_ray(self):
        given = (ONE + EDGE + NONE + "3 none\n").encode()
        status, data, _ = tool("vkrayhits", "picture", "-", "--image", "2x2", "--zoom", "3", given=given)
        rows = rows_of(data)
        self.assertEqual((status, len(rows), len(rows[0])), (0, 6, 6))
        self.assertEqual(len({rows[y][x] for y in (0, 5) for x in (0, 5)}), 2)

    def test_a_png_is_read_again(self):
        rows = [[(1, 2, 3), (4, 5, 6)], [(7, 8, 9), (255, 0, 255)]]
        self.assertEqual(rows_of(png_of(rows)), rows)

    @needs_program
    def test_every_way_to_draw(self):
        with tempfile.TemporaryDirectory() as folder:
            recording = pathlib.Path(folder) / "recording"
            recording.write_bytes(packed(*TORUS))
            for by in ("primitive", "instance", "depth", "normal"):
                status, data, told = tool("vkrayhits", "picture", "-", "--image", "40x30", "--by", by,
                                          "--recording", recording, given=hits_of(*TORUS).encode())
                self.assertEqual((status, told), (0, ""))
                self.assertGreater(len({pixel for row in rows_of(data) for pixel in row}), 5 if by != "instance" else 2)

    def test_a_picture_of_another_number_of_rays(self):
        status, _, told = tool("vkrayhits", "picture", "-", "--image", "2x2", given=ONE.encode())
        self.assertEqual((status, "an image of 2x2 has 4 rays, and there are 1" in told), (2, True))
