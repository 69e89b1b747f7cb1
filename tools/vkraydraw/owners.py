"""Triangles of one instance seen from above, and each ray as a dot in the color of the triangle it hits."""

from vkrayhits.geometry import Geometry
from vkrayhits.hits import HitsError

from . import svg

UNIT, EDGE, LEGEND = 30, 34, 62  # pixels of a unit of the grid, around the drawing, and of its legend


def owners(commands, hits, name):
    """Returns the drawing. The rays have to go along (0, 0, -1), and the instance to be as it is."""
    geometry = Geometry(commands, name)
    rays = [geometry.unpack("<6i", geometry.rays, 40 * it.ray) for it in hits]
    if any(it[3:5] != (0, 0) for it in rays):
        raise HitsError(f"{name}: a ray doesn't go straight down")
    triangles = triangles_of(geometry)
    xs = [it[0] for it in rays] + [x for one in triangles for x, _ in one]
    ys = [it[1] for it in rays] + [y for one in triangles for _, y in one]
    width = (max(xs) - min(xs)) * UNIT + 2 * EDGE
    height = (max(ys) - min(ys)) * UNIT + 2 * EDGE

    def at(x, y):
        return EDGE + (x - min(xs)) * UNIT, EDGE + (max(ys) - y) * UNIT

    made = []
    for number, corners in enumerate(triangles):
        made.append(svg.polygon([at(*it) for it in corners], color_of(number, len(triangles), 88), "#555", 1.5))
    for number, corners in enumerate(triangles):
        x, y = at(*(sum(it) / 3 for it in zip(*corners)))
        made.append(svg.text(x, y + 10, str(number), 30, color_of(number, len(triangles), 66), weight="bold"))
    for hit, ray in zip(hits, rays):
        on_edge = hit.kind == "tri" and (0 in (hit.u, hit.v) or hit.u + hit.v == 1)
        if hit.kind == "none":
            made.append(svg.disc(*at(*ray[:2]), 3, "white", "#999"))
        else:
            made.append(svg.disc(*at(*ray[:2]), 7 if on_edge else 4, color_of(hit.primitive, len(triangles), 38),
                                 "#111" if on_edge else "none", 1.5))
    return svg.document(width, height + LEGEND, made + legend(height), "Which triangle has which ray")


def legend(y):
    """Returns the lines below the drawing."""
    return [
        svg.disc(EDGE, y + 2, 7, "#777", "#111", 1.5),
        svg.text(EDGE + 14, y + 7, "a ray through an edge or a vertex, in the color of the triangle that has it", 14, anchor="start"),
        svg.disc(EDGE, y + 26, 4, "#777"), svg.text(EDGE + 14, y + 31, "a ray through the inside of a triangle", 14, anchor="start"),
        svg.disc(EDGE + 290, y + 26, 3, "white", "#999"), svg.text(EDGE + 304, y + 31, "a ray that hits nothing", 14, anchor="start"),
    ]


def triangles_of(geometry):
    """Returns the corners, x and y, of the triangles of the first geometry of the instance."""
    bottom = geometry.unpack("<Q", geometry.instances["data"], 56)[0] // 256 - 1
    first = geometry.built[bottom][0]
    return [[tuple(geometry.vertex(first, 3 * number + it)[:2]) for it in range(3)] for number in range(first["count"])]


def color_of(number, count, light):
    """Returns the color of a triangle, with so much lightness in percent; neighbours are far apart."""
    return f"hsl({number * 360 * 3 // max(count, 1) % 360},75%,{light}%)"
