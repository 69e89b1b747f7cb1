"""Wavefront OBJ: vertices and faces. Faces of more corners become fans of triangles."""

from .grid import number
from .model import Model
from .records import IDENTITY, PackError


def read_obj(path, grid):
    """Returns the model of an OBJ file, all faces as one mesh, in the order of the file."""
    points, triangles = [], []
    with open(path, encoding="utf-8", errors="replace") as file:
        for line, text in logical_lines(file):
            words = text.split("#")[0].split()
            where = f"{path}, line {line}"
            if words[:1] == ["v"]:
                points.append(vertex(words[1:], where))
            elif words[:1] == ["f"]:
                corners = [corner(it, len(points), where) for it in words[1:]]
                if len(corners) < 3:
                    raise PackError(f"{where}: a face of {len(corners)} corners")
                triangles += [(corners[0], *pair) for pair in zip(corners[1:], corners[2:])]
    for place, triangle in enumerate(triangles):
        if max(triangle) >= len(points):
            raise PackError(f"{path}: triangle {place} names vertex {max(triangle) + 1} of {len(points)}")
    if not triangles:
        raise PackError(f"{path}: it has no face")
    model = Model()
    model.bottoms.append([(grid.mesh(points, triangles, "vertex"), triangles)])
    model.instances.append((0, IDENTITY))
    return model


def logical_lines(file):
    """Yields the number of each line and its text, with lines that end in a backslash joined."""
    begun, text = None, ""
    for place, line in enumerate(file, 1):
        begun = begun or place
        text += line.rstrip("\r\n")
        if text.endswith("\\"):
            text = text[:-1] + " "
            continue
        yield begun, text
        begun, text = None, ""
    if text:
        yield begun, text


def vertex(words, where):
    """Returns the exact coordinates of a vertex; a fourth number and colors are passed over."""
    if len(words) < 3:
        raise PackError(f"{where}: a vertex of {len(words)} numbers")
    return tuple(number(it, where) for it in words[:3])


def corner(word, known, where):
    """Returns the vertex of a corner such as 7, 7/1/3 or -1, counted from 0."""
    text = word.split("/")[0]
    try:
        given = int(text)
    except ValueError:
        raise PackError(f"{where}: {word!r} names no vertex") from None
    found = given - 1 if given > 0 else known + given
    if given == 0 or found < 0:
        raise PackError(f"{where}: {word!r} names no vertex")
    return found
