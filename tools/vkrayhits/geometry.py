"""The triangles of a recording, for pictures: what its buffers hold at first.

Commands that change these bytes later (update, fill, copy, an update of a structure) aren't followed, so
a recording that has one is refused here.
"""

import struct

from .hits import HitsError

CHANGES = ("update", "fill", "copy", "copy_structure", "deserialize")
VERTICES = {"s32x3": "<iii", "s32x2": "<ii", "s16x3": "<hhh"}
INDICES = {"u16": "<H", "u32": "<I"}


class Geometry:
    """The bytes and builds of a recording with one trace."""

    def __init__(self, commands, name):
        self.name = name
        traces = [it for it in commands if it["op"] == "trace"]
        builds = [info for it in commands if it["op"] == "build" for info in it["infos"]]
        changes = [place for place, it in enumerate(commands) if it["op"] in CHANGES]
        if changes or any(it["mode"] != "build" for it in builds):
            raise HitsError(f"{name}: it changes bytes or structures"
                            + "".join(f", command {it}" for it in changes[:1]) + ", which pictures don't follow")
        if len(traces) != 1:
            raise HitsError(f"{name}: it has {len(traces)} traces, and pictures take one")
        self.data = {it["id"]: bytes.fromhex(it.get("data", "")).ljust(it["size"], b"\0")
                     for it in commands if it["op"] == "buffer"}
        self.built = {it["dst"]: it["geometries"] for it in builds}
        self.rays = traces[0]["rays"]
        self.instances = self.built[traces[0]["top"]][0]

    def unpack(self, form, place, more=0):
        """Returns the numbers that stand at a place."""
        return struct.unpack_from(form, self.data[place["buffer"]], place["offset"] + more)

    def normal(self, hit):
        """Returns the normal of the triangle that is hit, in the space of the world, against the ray.

        Of a box there is none.
        """
        at = self.instances["primitive_offset"] + 64 * hit.instance
        matrix = self.unpack("<12i", self.instances["data"], at)
        bottom = self.unpack("<Q", self.instances["data"], at + 56)[0] // 256 - 1
        geometry = self.built[bottom][hit.geometry]
        if geometry["kind"] != "triangles":
            return None
        a, b, c = (self.vertex(geometry, 3 * hit.primitive + it) for it in range(3))
        own = cross([q - p for p, q in zip(a, b)], [q - p for p, q in zip(a, c)])
        normal = cofactors(matrix, own)
        direction = self.unpack("<3i", self.rays, 40 * hit.ray + 12)
        return [-it for it in normal] if sum(a * b for a, b in zip(normal, direction)) > 0 else normal

    def vertex(self, geometry, corner):
        """Returns the vertex of a corner, after the geometry's transform."""
        first, skip = geometry["first_vertex"], geometry["primitive_offset"]
        if "index" in geometry:
            form = INDICES[geometry["index"]["type"]]
            number = first + self.unpack(form, geometry["index"], skip + corner * struct.calcsize(form))[0]
            skip = 0
        else:
            number = first + corner
        form = VERTICES[geometry["format"]]
        vertex = (*self.unpack(form, geometry["vertex"], skip + number * geometry["stride"]), 0)[:3]
        if "transform" not in geometry:
            return vertex
        matrix = self.unpack("<12i", geometry["transform"], geometry["transform_offset"])
        return [sum(a * b for a, b in zip(matrix[4 * it : 4 * it + 3], vertex)) + matrix[4 * it + 3] for it in range(3)]


def cross(a, b):
    """Returns the cross product."""
    return [a[1] * b[2] - a[2] * b[1], a[2] * b[0] - a[0] * b[2], a[0] * b[1] - a[1] * b[0]]


def cofactors(matrix, normal):
    """Returns the image of a normal under a matrix of twelve numbers."""
    x, y, z = matrix[0:3], matrix[4:7], matrix[8:11]
    return [sum(a * b for a, b in zip(row, normal)) for row in (cross(y, z), cross(z, x), cross(x, y))]
