"""Rays of a pinhole camera over an image, and recordings that trace them."""

import math

from .records import FARTHEST, PackError, Ray, ray_bytes

LIMIT = 2**19  # the greatest absolute value of an origin's coordinate
LONGEST = 2**20  # the greatest absolute value of an entry of a direction


class Camera:
    """A pinhole at `origin`, which looks at `target`; `angle` is that of the image's height, in degrees.

    All directions have one length along the view, so the distances t of an image compare as depths.
    """

    def __init__(self, origin, target, width, height, up=(0, 1, 0), angle=40.0):
        self.origin, self.width, self.height = tuple(origin), width, height
        if width < 1 or height < 1:
            raise PackError(f"image: {width}x{height} has no pixel")
        if not 0 < angle < 180:
            raise PackError(f"angle: {angle} isn't between 0 and 180 degrees")
        if any(abs(it) > LIMIT for it in self.origin):
            raise PackError(f"camera: it would stand at {self.origin}, beyond {LIMIT}: take a smaller scale")
        forward = unit([b - a for a, b in zip(origin, target)], "camera: it looks at the place where it stands")
        right = unit(cross(forward, up), "camera: its up is the direction in which it looks")
        tangent = math.tan(math.radians(angle) / 2)
        self._forward = forward
        self._right = [it * tangent * width / height for it in right]
        self._down = [it * tangent for it in cross(forward, right)]
        corners = [self._toward(x, y) for x in (-1, 1) for y in (-1, 1)]
        self._length = (LONGEST - 1) / max(abs(it) for corner in corners for it in corner)

    def _toward(self, x, y):
        """Returns the direction to a point of the image, which goes from -1 to 1 each way."""
        return [f + x * r + y * d for f, r, d in zip(self._forward, self._right, self._down)]

    def rays(self):
        """Returns a ray through the middle of each pixel, row by row from the upper left one."""
        made = []
        for row in range(self.height):
            y = (2 * row + 1) / self.height - 1
            for column in range(self.width):
                toward = self._toward((2 * column + 1) / self.width - 1, y)
                made.append(Ray(self.origin, tuple(round(it * self._length) for it in toward), 0, FARTHEST))
        return made


def framing(bounds, width, height, up=(0, 1, 0), angle=40.0):
    """Returns a camera that sees all of a box, from before it, above and to the right."""
    center = [(a + b) / 2 for a, b in zip(*bounds)]
    radius = math.dist(*bounds) / 2 or 1
    ahead = [0, 0, 1] if up[1] else [0, -1, 0]
    back = unit([0.55 * s + 0.6 * u + a for s, u, a in zip(cross(up, ahead), up, ahead)], "")
    narrow = math.atan(math.tan(math.radians(angle) / 2) * min(1, width / height))
    origin = [round(c + b * radius / math.sin(narrow)) for c, b in zip(center, back)]
    return Camera(origin, center, width, height, up, angle)


def with_rays(commands, rays):
    """Returns the commands of a recording with one trace, which traces these rays in place of its own."""
    traces = [it for it in commands if it.get("op") == "trace"]
    if len(traces) != 1:
        raise PackError(f"recording: it has {len(traces)} traces, and one is wanted")
    old = traces[0]["hits"]["buffer"]
    given = max((it["id"] for it in commands if it.get("op") == "buffer"), default=-1) + 1
    data = b"".join(ray_bytes(it, place) for place, it in enumerate(rays))
    buffers = [
        {"op": "buffer", "id": given, "size": len(data), "usage": ["storage"], "data": data.hex()},
        {"op": "buffer", "id": given + 1, "size": 80 * len(rays), "usage": ["storage"]},
    ]
    changed = {"rays": {"buffer": given, "offset": 0}, "hits": {"buffer": given + 1, "offset": 0}, "count": len(rays)}
    made = []
    for command in commands:
        if command is traces[0]:
            command = {**command, **changed}
        elif command.get("op") == "read" and command["form"] == "hits" and command["buffer"] == old:
            command = {**command, "buffer": given + 1, "offset": 0, "size": 80 * len(rays)}
        made.append(command)
    return buffers + made


def cross(a, b):
    """Returns the cross product."""
    return [a[1] * b[2] - a[2] * b[1], a[2] * b[0] - a[0] * b[2], a[0] * b[1] - a[1] * b[0]]


def unit(vector, otherwise):
    """Returns the vector at length 1, or raises PackError with this text where it is zero."""
    length = math.hypot(*vector)
    if length == 0:
        raise PackError(otherwise)
    return [it / length for it in vector]
