"""glTF 2.0: the triangles of a scene's nodes, from data URIs or files beside it.

A node whose matrix has whole entries becomes an instance of its mesh, with its translation on the grid.
Of any other node the vertices are moved by the matrix before they go to the grid, as a mesh of its own.
"""

import base64
import json
import pathlib
import struct
import urllib.parse
from fractions import Fraction

from .grid import number
from .model import Model, mapped
from .records import IDENTITY, PackError

FORMS = {5120: ("b", 1), 5121: ("B", 1), 5122: ("h", 2), 5123: ("H", 2), 5125: ("I", 4), 5126: ("f", 4)}
PARTS = {"SCALAR": 1, "VEC2": 2, "VEC3": 3, "VEC4": 4}
NEAR = Fraction(1, 10**6)  # an entry of a matrix as near as this to a whole number is taken as that number
LARGEST = 2**12  # the greatest absolute value of an entry of an instance's matrix
TRIANGLES = 4  # the mode of primitives that is read


def read_gltf(path, grid):
    """Returns the model of the default scene of a .gltf file."""
    return Reader(path, grid).model()


class Reader:
    """A glTF file, and what of it is read so far."""

    def __init__(self, path, grid):
        self.path, self.grid = pathlib.Path(path), grid
        text = self.path.read_bytes()
        if text[:4] == b"glTF":
            raise PackError(f"{path}: it is a binary .glb, and only .gltf is read")
        try:
            self.root = json.loads(text, parse_float=lambda it: number(it, str(path)))
        except ValueError as error:
            raise PackError(f"{path}: {error}") from None
        version = str(self.root.get("asset", {}).get("version", "none"))
        if not version.startswith("2."):
            raise PackError(f"{path}: its asset version is {version}, and 2.0 is wanted")
        self.buffers = {}
        self.bottoms = {}  # the number of the bottom, by mesh and by node where it has one of its own
        self.made = Model()

    def model(self):
        """Returns the model of the nodes of the scene."""
        scene = self.item("scenes", self.root.get("scene", 0), "the file")
        for node in scene.get("nodes", []):
            self.visit(node, IDENTITY, ())
        if not self.made.instances:
            raise PackError(f"{self.path}: its scene shows no triangles")
        return self.made

    def item(self, family, place, where):
        """Returns an item of a list of the file."""
        found = self.root.get(family, [])
        if not isinstance(place, int) or not 0 <= place < len(found):
            raise PackError(f"{self.path}: {where} names {family} {place!r} of {len(found)}")
        return found[place]

    def visit(self, place, above, way):
        """Takes a node and those below it."""
        if place in way:
            raise PackError(f"{self.path}: node {place} is below itself")
        node = self.item("nodes", place, "a node or scene")
        matrix = product(above, local(node, f"{self.path}: node {place}"))
        if "mesh" in node:
            self.show(node["mesh"], place, matrix)
        for child in node.get("children", []):
            self.visit(child, matrix, (*way, place))

    def show(self, mesh, place, matrix):
        """Puts an instance of a mesh, by a matrix in units of the file."""
        linear = [[near_whole(it) for it in row[:3]] for row in matrix]
        if all(it.denominator == 1 and abs(it) <= LARGEST for row in linear for it in row):
            moved = self.grid.point([row[3] for row in matrix], f"translation of node {place}")
            key, inside = (mesh, None), None
            instance = tuple((*map(int, row), to) for row, to in zip(linear, moved))
        else:
            self.grid.notes.append(f"node {place}: its matrix has entries that aren't whole numbers or are "
                                   "too large, so its vertices are moved by it")
            key, inside, instance = (mesh, place), matrix, IDENTITY
        if key not in self.bottoms:
            parts = self.parts(mesh, inside)
            self.bottoms[key] = len(self.made.bottoms) if parts else None
            if parts:
                self.made.bottoms.append(parts)
        if self.bottoms[key] is not None:
            self.made.instances.append((self.bottoms[key], instance))

    def parts(self, mesh, matrix):
        """Returns (vertices, triangles) of each primitive of a mesh that is of triangles."""
        found = []
        for place, primitive in enumerate(self.item("meshes", mesh, "a node").get("primitives", [])):
            where = f"mesh {mesh}, primitive {place}"
            if primitive.get("mode", TRIANGLES) != TRIANGLES:
                self.grid.notes.append(f"{where}: its mode {primitive['mode']} isn't {TRIANGLES}, triangles; left out")
                continue
            if "POSITION" not in primitive.get("attributes", {}):
                raise PackError(f"{self.path}: {where} has no POSITION")
            points = self.numbers(primitive["attributes"]["POSITION"], "VEC3", f"{where}, POSITION")
            if matrix:
                points = [mapped(matrix, it) for it in points]
            if "indices" in primitive:
                corners = [it[0] for it in self.numbers(primitive["indices"], "SCALAR", f"{where}, indices")]
            else:
                corners = list(range(len(points)))
            if corners and max(corners) >= len(points):
                raise PackError(f"{self.path}: {where} names vertex {max(corners)} of {len(points)}")
            triangles = [tuple(map(int, it)) for it in zip(corners[0::3], corners[1::3], corners[2::3])]
            found.append((self.grid.mesh(points, triangles, f"{where}, vertex"), triangles))
        return found

    def numbers(self, place, kind, where):
        """Returns the elements of an accessor, each a tuple of exact numbers."""
        accessor = self.item("accessors", place, where)
        if "sparse" in accessor or accessor.get("type") != kind or "bufferView" not in accessor:
            raise PackError(f"{self.path}: {where}, accessor {place}: a dense one of type {kind} is wanted")
        if accessor["componentType"] not in FORMS or (kind == "VEC3") != (accessor["componentType"] == 5126):
            raise PackError(f"{self.path}: {where}, accessor {place}: component type {accessor['componentType']} isn't read")
        letter, size = FORMS[accessor["componentType"]]
        parts = PARTS[kind]
        view = self.item("bufferViews", accessor["bufferView"], f"accessor {place}")
        step = view.get("byteStride", parts * size)
        at = view.get("byteOffset", 0) + accessor.get("byteOffset", 0)
        data = self.buffer(view["buffer"])
        if accessor["count"] and at + (accessor["count"] - 1) * step + parts * size > len(data):
            raise PackError(f"{self.path}: {where}, accessor {place}: it ends beyond its buffer of {len(data)} bytes")
        form = f"<{parts}{letter}"
        found = [struct.unpack_from(form, data, at + it * step) for it in range(accessor["count"])]
        try:
            return [tuple(map(Fraction, it)) for it in found]
        except (OverflowError, ValueError):
            raise PackError(f"{self.path}: {where}, accessor {place}: it has a number that isn't finite") from None

    def buffer(self, place):
        """Returns the bytes of a buffer."""
        if place not in self.buffers:
            uri = self.item("buffers", place, "a buffer view").get("uri", "")
            if uri.startswith("data:"):
                head, _, text = uri.partition(",")
                if not head.endswith(";base64"):
                    raise PackError(f"{self.path}: buffer {place}: its data URI isn't base64")
                self.buffers[place] = base64.b64decode(text)
            elif ":" in uri or uri.startswith("/") or not uri:
                raise PackError(f"{self.path}: buffer {place}: {uri!r} is no file beside it")
            else:
                self.buffers[place] = (self.path.parent / urllib.parse.unquote(uri)).read_bytes()
        return self.buffers[place]


def near_whole(value):
    """Returns the whole number that is nearest, where it is as near as NEAR, else the value itself."""
    whole = Fraction(round(value))
    return whole if abs(value - whole) <= NEAR else Fraction(value)


def local(node, where):
    """Returns a node's own matrix: three rows of four exact numbers."""
    if "matrix" in node:
        given = node["matrix"]
        if len(given) != 16:
            raise PackError(f"{where}: its matrix has {len(given)} numbers, and 16 are wanted")
        return tuple(tuple(Fraction(given[4 * column + row]) for column in range(4)) for row in range(3))
    x, y, z, w = map(Fraction, node.get("rotation", (0, 0, 0, 1)))
    turn = (
        (1 - 2 * (y * y + z * z), 2 * (x * y - z * w), 2 * (x * z + y * w)),
        (2 * (x * y + z * w), 1 - 2 * (x * x + z * z), 2 * (y * z - x * w)),
        (2 * (x * z - y * w), 2 * (y * z + x * w), 1 - 2 * (x * x + y * y)),
    )
    scale = list(map(Fraction, node.get("scale", (1, 1, 1))))
    move = list(map(Fraction, node.get("translation", (0, 0, 0))))
    return tuple((*(a * s for a, s in zip(row, scale)), to) for row, to in zip(turn, move))


def product(a, b):
    """Returns the matrix that maps by b and then by a."""
    columns = list(zip(*b))
    return tuple(
        tuple(sum(x * y for x, y in zip(row, column)) + (row[3] if place == 3 else 0)
              for place, column in enumerate(columns))
        for row in a
    )
