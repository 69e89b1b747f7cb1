"""Takes coordinates of a file to whole numbers, and counts what that changed."""

import re
from fractions import Fraction

from .records import PackError

LIMIT = 2**19  # the greatest absolute value of a coordinate of a recording


def number(text, where):
    """Returns a decimal number such as -1.5e3 exactly, as a fraction."""
    if re.fullmatch(r"[+-]?(\d+\.?\d*|\.\d+)([eE][+-]?\d{1,3})?", text) is None:
        raise PackError(f"{where}: {text!r} is no decimal number")
    return Fraction(text)


class Grid:
    """One unit of the file becomes `scale` units of the grid; halves go to the even number.

    A coordinate beyond 524,288 in absolute value is clipped to it.
    """

    def __init__(self, scale):
        if scale <= 0:
            raise PackError(f"scale: {scale} isn't above 0")
        self.scale = Fraction(scale)
        self.points = self.rounded = self.clipped = self.triangles = self.flat = 0
        self.farthest = Fraction(0)  # the greatest change of a coordinate by rounding, in units of the grid
        self.first_clipped = None
        self.notes = []

    def point(self, point, where):
        """Returns the point's three whole numbers; `where` names it in the report."""
        self.points += 1
        exact = [it * self.scale for it in point]
        near = [round(it) for it in exact]
        change = max(abs(a - b) for a, b in zip(exact, near))
        kept = tuple(max(-LIMIT, min(LIMIT, it)) for it in near)
        self.rounded += change > 0
        self.farthest = max(self.farthest, change)
        if list(kept) != near:
            self.clipped += 1
            self.first_clipped = self.first_clipped or f"{where}, at {', '.join(map(str, near))}"
        return kept

    def mesh(self, points, triangles, where):
        """Returns the points on the grid, and counts the triangles that have no area there."""
        placed = [self.point(it, f"{where} {place}") for place, it in enumerate(points)]
        self.triangles += len(triangles)
        self.flat += sum(is_flat(*(placed[corner] for corner in it)) for it in triangles)
        return placed

    def report(self):
        """Returns the lines that say what was rounded and clipped."""
        share = f", at most by {float(self.farthest):.4f} of a grid unit" if self.rounded else ""
        lines = [f"scale {self.scale}: one unit of the file is {self.scale} of the grid"]
        lines.append(f"points {self.points}: {self.rounded} rounded{share}; {self.clipped} clipped to {LIMIT}")
        if self.first_clipped:
            lines.append(f"the first that was clipped is {self.first_clipped}: take a smaller scale")
        lines.append(f"triangles {self.triangles}: {self.flat} without area on the grid, which no ray hits")
        return self.notes + lines


def is_flat(a, b, c):
    """Whether a triangle has no area."""
    u = [q - p for p, q in zip(a, b)]
    v = [q - p for p, q in zip(a, c)]
    return all(u[i] * v[j] == u[j] * v[i] for i, j in ((0, 1), (0, 2), (1, 2)))
