"""The hit lines of a run: docs/RECORDING.md, "What is printed"."""

import re
from fractions import Fraction
from typing import NamedTuple

LINE = re.compile(
    r"(\d+) (?:none|(tri|box|bad) inst (\d+) custom (\d+) sbt (\d+) geom (\d+) prim (\d+) face (\d+)"
    r" t (\d+)/(\d+) u (\d+)/(\d+) v (\d+)/(\d+))"
)
ANSWERS = ("refused ", "not-json", "bad-shape ", "bad-words", "read-fault", "too-long")
FACES = {0: "none", 1: "front", 2: "back"}


class HitsError(ValueError):
    """Input in which no hits are found; its text says what is wrong and where."""


class Hit(NamedTuple):
    """What one ray hits. A ray that hits nothing has the kind `none`, and None elsewhere."""

    ray: int
    kind: str  # tri, box, bad or none
    instance: int = None
    custom: int = None
    offset: int = None  # the binding-table offset
    geometry: int = None
    primitive: int = None
    face: int = None  # 1 front, 2 back, 0 of a box
    t: Fraction = None  # the distance, in lengths of the ray's direction
    u: Fraction = None  # the weight of the second vertex
    v: Fraction = None  # the weight of the third vertex

    def identity(self):
        """Returns what says which primitive is hit."""
        return self.instance, self.geometry, self.primitive


def read_hits(text, name, read=None):
    """Returns the hits of one read of a run's text; `name` names the text in errors.

    A read begins where a line of ray 0 stands. The reads are counted from 0. Where there are several,
    `read` has to say which one is meant. Lines of other reads and of sizes are passed over.
    """
    reads = []
    for place, line in enumerate(text.splitlines(), 1):
        if line.startswith(ANSWERS):
            raise HitsError(f"{name}, line {place}: the run has no hits, but says {line!r}")
        found = LINE.fullmatch(line)
        if found is None:
            continue
        hit = hit_of(found, f"{name}, line {place}")
        if hit.ray == 0:
            reads.append([])
        if not reads or hit.ray != len(reads[-1]):
            raise HitsError(f"{name}, line {place}: ray {hit.ray} comes out of order")
        reads[-1].append(hit)
    if not reads:
        raise HitsError(f"{name}: it has no line of a hit")
    if read is None and len(reads) > 1:
        raise HitsError(f"{name}: it has {len(reads)} reads of hits: say which one by --read, from 0")
    if (read or 0) >= len(reads):
        raise HitsError(f"{name}: it has {len(reads)} reads of hits, counted from 0, and no read {read}")
    return reads[read or 0]


def hit_of(found, where):
    """Returns the hit of a line that matches LINE."""
    ray, kind, *numbers = found.groups()
    if kind is None:
        return Hit(int(ray), "none")
    numbers = list(map(int, numbers))
    if 0 in numbers[7::2]:
        raise HitsError(f"{where}: a denominator is 0")
    return Hit(int(ray), kind, *numbers[:6], *map(Fraction, numbers[6::2], numbers[7::2]))


def as_json(hit):
    """Returns a hit as a dictionary for JSON: t, u and v as [numerator, denominator]."""
    if hit.kind == "none":
        return {"ray": hit.ray, "kind": hit.kind}
    made = {**hit._asdict(), "face": FACES.get(hit.face, hit.face)}
    for name in "tuv":
        made[name] = [made[name].numerator, made[name].denominator]
    return made


COLUMNS = ("ray", "kind", "instance", "geometry", "primitive", "t", "u", "v", "custom", "offset", "face")


def as_row(hit):
    """Returns the fields of a hit in the order of COLUMNS; t, u and v as the nearest floats."""
    if hit.kind == "none":
        return [hit.ray, hit.kind] + [""] * (len(COLUMNS) - 2)
    made = {**hit._asdict(), "face": FACES.get(hit.face, hit.face)}
    return [repr(float(made[name])) if name in "tuv" else made[name] for name in COLUMNS]
