"""Compares the hits of two texts: by kind and identity first, and then by distance.

A ray whose exact hit lies on an edge or a vertex of its triangle, and a ray whose nearest distance two
primitives share, are counted apart: vkray's rule says which primitive is hit there, and a driver may
take another. That is told from exact numbers alone:

- on an edge or a vertex is a hit with u = 0, v = 0 or u + v = 1;
- where the first text says `none`, and the other one hits a triangle with such weights, the ray passes
  an edge at the rim of a mesh;
- equal distances are told by a second run, in which each ray ignores what it has hit (`next`).
"""

import csv
import io
import math
from fractions import Fraction

from .hits import Hit, HitsError

NEEDED = ["ray", "kind", "instance", "geometry", "primitive", "t", "u", "v"]
KINDS = ("tri", "box", "none")


def read_floats(text, name):
    """Returns the hits of a driver: CSV with the columns NEEDED in its first line, in any order.

    Of a ray that hits nothing the kind is `none`, and what follows may be empty.
    """
    table = csv.DictReader(io.StringIO(text), skipinitialspace=True)
    missing = [it for it in NEEDED if it not in (table.fieldnames or [])]
    if missing:
        raise HitsError(f"{name}, line 1: it has no column {missing[0]!r}")
    return [float_hit(row, f"{name}, line {table.line_num}") for row in table]


def float_hit(row, where):
    """Returns the hit of a line; its numbers are taken as they are written."""
    ray = natural(row, "ray", where)
    if row["kind"] not in KINDS:
        raise HitsError(f"{where}: kind {row['kind']!r} is none of {', '.join(KINDS)}")
    if row["kind"] == "none":
        return Hit(ray, "none")
    identity = [natural(row, it, where) for it in ("instance", "geometry", "primitive")]
    instance, geometry, primitive = identity
    t = exact(row, "t", where)
    u, v = (exact(row, it, where) if row["kind"] == "tri" or row[it] else Fraction(0) for it in "uv")
    return Hit(ray, row["kind"], instance=instance, geometry=geometry, primitive=primitive, t=t, u=u, v=v)


def natural(row, name, where):
    """Returns a field that is a number from 0 up."""
    text = row[name] or ""
    if not (text.isascii() and text.isdigit()):
        raise HitsError(f"{where}: {name} {text!r} is no whole number from 0 up")
    return int(text)


def exact(row, name, where):
    """Returns a field that is a decimal number."""
    try:
        value = float(row[name] or "")
        if math.isfinite(value):
            return Fraction(row[name].strip())
    except ValueError:
        pass
    raise HitsError(f"{where}: {name} {row[name]!r} is no decimal number")


def last_place(value):
    """Returns the unit of the last place of the float of 24 bits (binary32) at a value."""
    value = abs(Fraction(value))
    if value == 0:
        return Fraction(1, 2**149)
    power = value.numerator.bit_length() - value.denominator.bit_length()
    power -= value < Fraction(2) ** power
    return Fraction(2) ** (max(power, -126) - 23)


def on_an_edge(hit):
    """Whether a hit lies on an edge or a vertex of its triangle."""
    return hit.kind == "tri" and (0 in (hit.u, hit.v) or hit.u + hit.v == 1)


def difference(one, other, tolerance):
    """Returns in what two hits differ, `kind`, `primitive` or `distance`, or None."""
    if one.kind != other.kind:
        return "kind"
    if one.kind == "none":
        return None
    if one.identity() != other.identity():
        return "primitive"
    return "distance" if abs(one.t - other.t) > tolerance * last_place(one.t) else None


class Comparison:
    """The counts of a comparison, and the lines of the rays that differ."""

    ROWS = {"plain": "inside a primitive, or of none", "edge": "on an edge or a vertex",
            "equal": "at equal distances"}
    COLUMNS = ("rays", "agree", "kind", "primitive", "distance", "missing")

    def __init__(self, exact_hits, others, tolerance=Fraction(0), following=None):
        self.counts = {row: dict.fromkeys(self.COLUMNS, 0) for row in self.ROWS}
        self.lines = []
        self.worst = Fraction(0)  # the greatest difference of t where the primitive is the same
        self._tolerance = tolerance
        self._others = by_ray(others)
        self._following = by_ray(following or [])
        for hit in exact_hits:
            self._take(hit, self._others.pop(hit.ray, None))
        for hit in self._others.values():
            self._count("plain", "missing", hit.ray, "is in the second text alone")

    def _take(self, hit, other):
        """Counts one ray."""
        if other is None:
            self._count("plain", "missing", hit.ray, "is in the first text alone")
            return
        row = self._row(hit, other)
        what = difference(hit, other, self._tolerance)
        if hit.kind == other.kind != "none" and hit.identity() == other.identity():
            self.worst = max(self.worst, abs(hit.t - other.t) / last_place(hit.t))
        self._count(row, what or "agree", hit.ray, f"{told(hit)}, and the second text {told(other)}")

    def _row(self, hit, other):
        """Returns the row in which a ray counts."""
        after = self._following.get(hit.ray)
        if after is not None and hit.kind != "none" and after.t == hit.t:
            return "equal"
        return "edge" if on_an_edge(hit) or (hit.kind == "none" and on_an_edge(other)) else "plain"

    def _count(self, row, column, ray, words):
        self.counts[row]["rays"] += 1
        self.counts[row][column] += 1
        if column != "agree":
            apart = "" if row == "plain" else f" ({self.ROWS[row]})"
            self.lines.append(f"ray {ray} {words}: {column}{apart}")

    def differ(self, strict=False):
        """Returns how many rays differ; those on edges and at equal distances count where it is strict."""
        rows = self.counts.values() if strict else [self.counts["plain"]]
        return sum(it["rays"] - it["agree"] for it in rows)

    def table(self):
        """Returns the lines of the table of counts."""
        lines = [f"{'rays':32}" + "".join(f"{it:>11}" for it in ("all", *self.COLUMNS[1:]))]
        for row, name in self.ROWS.items():
            lines.append(f"{name:32}" + "".join(f"{self.counts[row][it]:>11}" for it in self.COLUMNS))
        return lines


def by_ray(hits):
    """Returns hits by their ray's number."""
    found = {}
    for hit in hits:
        if hit.ray in found:
            raise HitsError(f"ray {hit.ray} comes twice")
        found[hit.ray] = hit
    return found


def told(hit):
    """Returns a hit in words."""
    if hit.kind == "none":
        return "hits nothing"
    places = f"instance {hit.instance} geometry {hit.geometry} primitive {hit.primitive}"
    return f"hits {hit.kind} {places} at t {float(hit.t)!r}"
