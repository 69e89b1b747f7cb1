"""Meshes and instances on the grid, as a file of another format gives them, and their recording."""

from .records import IDENTITY, Instance
from .recording import Recording


class Model:
    """Bottom structures, each a list of (vertices, triangles), and the instances of them."""

    def __init__(self):
        self.bottoms = []
        self.instances = []  # (number of the bottom, matrix)

    def bounds(self):
        """Returns the least and the greatest corner of all instances, or None where there is nothing."""
        corners = []
        for number, matrix in self.instances:
            own = [vertex for vertices, _ in self.bottoms[number] for vertex in vertices]
            corners += [mapped(matrix, it) for it in (own if matrix != IDENTITY else box_of(own))]
        return tuple(box_of(corners)) if corners else None

    def recording(self, rays):
        """Returns the recording that builds all of it and traces these rays."""
        made = Recording()
        ids = [made.bottom([made.triangles(*part) for part in parts]) for parts in self.bottoms]
        top = made.top([Instance(ids[number], matrix, custom=place % 2**24)
                        for place, (number, matrix) in enumerate(self.instances)])
        made.trace(top, rays)
        return made


def mapped(matrix, point):
    """Returns the image of a point under three rows of four numbers."""
    return tuple(sum(a * b for a, b in zip(row, point)) + row[3] for row in matrix)


def box_of(points):
    """Returns the two corners of the least box of points, or nothing where there are none."""
    return [tuple(map(min, zip(*points))), tuple(map(max, zip(*points)))] if points else []
