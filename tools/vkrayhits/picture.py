"""Pictures of the hits of an image's rays, a pixel a ray."""

import colorsys
import math

from .hits import HitsError

NOTHING = (24, 26, 31)


def picture(hits, width, height, by, geometry=None, zoom=1):
    """Returns the rows of pixels of a picture of the hits of width x height rays, row by row.

    `by` is primitive, instance, depth or normal. With the recording's geometry the first two are shaded
    by the normal. Each ray is a square of so many pixels as `zoom` says.
    """
    if len(hits) != width * height:
        raise HitsError(f"picture: an image of {width}x{height} has {width * height} rays, and there are {len(hits)}")
    if by == "normal" and geometry is None:
        raise HitsError("picture: normals are taken from the recording: give it by --recording")
    color = {"primitive": by_primitive, "instance": by_instance, "normal": by_normal,
             "depth": by_depth(hits)}[by]
    pixels = [NOTHING if it.kind == "none" else color(it, geometry) for it in hits]
    rows = [pixels[row * width : (row + 1) * width] for row in range(height)]
    return [[pixel for pixel in row for _ in range(zoom)] for row in rows for _ in range(zoom)]


def by_primitive(hit, geometry):
    """Returns a color of its own for each primitive of each instance."""
    return shaded(color_of(hit.primitive + 7919 * hit.geometry + 104729 * hit.instance), hit, geometry)


def by_instance(hit, geometry):
    """Returns a color of its own for each instance."""
    return shaded(color_of(hit.instance), hit, geometry)


def by_normal(hit, geometry):
    """Returns the normal as a color: x, y and z from -1 to 1 are red, green and blue. Boxes are gray."""
    normal = facing(hit, geometry)
    return tuple(round(127.5 * (it + 1)) for it in normal) if normal else (128, 128, 128)


def by_depth(hits):
    """Returns the function that colors hits by distance, from near, which is light, to far."""
    depths = [it.t for it in hits if it.kind != "none"] or [0]
    near, span = min(depths), max(depths) - min(depths)

    def color(hit, _):
        share = float((hit.t - near) / span) if span else 0.0
        return tuple(round(a + (b - a) * share) for a, b in zip((252, 246, 226), (38, 60, 110)))
    return color


def color_of(number):
    """Returns a color for a number; numbers that are near get colors that are apart."""
    hue = number * 0.6180339887498949 % 1
    return tuple(round(255 * it) for it in colorsys.hsv_to_rgb(hue, 0.3 + 0.15 * (number % 3), 0.96))


def shaded(color, hit, geometry):
    """Returns the color, darker the more a triangle turns away from the light."""
    normal = facing(hit, geometry) if geometry else None
    if normal is None:
        return color
    light = sum(a * b for a, b in zip(normal, (0.36, 0.48, 0.8)))
    return tuple(round(it * (0.55 + 0.45 * max(light, 0))) for it in color)


def facing(hit, geometry):
    """Returns the normal of the side that is seen, at length 1, or None for a box."""
    normal = geometry.normal(hit)
    if normal is None:
        return None
    length = math.hypot(*normal) or 1
    return [it / length for it in normal]
