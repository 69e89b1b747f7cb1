"""Scenes as JSON of plain numbers: structures, instances and rays, for who writes one by hand.

    {"structures": [{"vertices": [[0,0,0],[4,0,0],[0,4,0]], "triangles": [[0,1,2]]},
                    {"boxes": [[0,0,9,1,1,10]]}],
     "instances": [{"structure": 0}, {"structure": 1, "matrix": [[1,0,0,5],[0,1,0,0],[0,0,1,0]], "custom": 7}],
     "rays": [{"origin": [1,1,5], "direction": [0,0,-1], "tmin": 0, "tmax": 100}],
     "flags": [], "mask": 255, "script": []}

Only structures have to be there: without instances each structure has one, as it is.
"""

from .records import IDENTITY, FARTHEST, Instance, PackError, Ray
from .recording import Recording


def scene_recording(scene, rays=None):
    """Returns the recording of a scene; its rays are those given here, or else the scene's own."""
    members(scene, "scene", ["structures"], ["instances", "rays", "flags", "mask", "script"])
    made = Recording()
    ids = [structure(made, it, f"structure {place}") for place, it in enumerate(scene["structures"])]
    given = scene.get("instances", [{"structure": place} for place in range(len(ids))])
    top = made.top([instance(it, ids, f"instance {place}") for place, it in enumerate(given)])
    if rays is None:
        rays = [ray(it, f"ray {place}") for place, it in enumerate(scene.get("rays", []))]
    more = {name: scene[name] for name in ("flags", "mask", "script") if name in scene}
    made.trace(top, rays, **more)
    return made


def members(value, where, needed, free):
    """Raises PackError where a value is no object with the needed members and, at most, the free ones."""
    if not isinstance(value, dict):
        raise PackError(f"{where}: {value!r} is no object")
    for name in needed:
        if name not in value:
            raise PackError(f"{where}: it has no member {name!r}")
    for name in value:
        if name not in needed + free:
            raise PackError(f"{where}: {name!r} is none of its members {', '.join(needed + free)}")


def structure(made, value, where):
    """Builds a bottom structure of triangles or boxes, and returns its id."""
    try:
        if isinstance(value, dict) and "boxes" in value:
            members(value, where, ["boxes"], ["opaque"])
            return made.bottom([made.boxes(value["boxes"], value.get("opaque", True))])
        members(value, where, ["vertices", "triangles"], ["opaque"])
        return made.mesh(value["vertices"], value["triangles"], value.get("opaque", True))
    except PackError as error:
        raise error if str(error).startswith(where) else PackError(f"{where}, {error}") from None


def instance(value, ids, where):
    """Returns an instance; its structure is counted from 0 in the scene's list."""
    members(value, where, ["structure"], ["matrix", "custom", "mask", "offset", "flags"])
    number = value["structure"]
    if isinstance(number, bool) or not isinstance(number, int) or not 0 <= number < len(ids):
        raise PackError(f"{where}: there is no structure {number!r}, only {len(ids)} of them")
    return Instance(ids[number], value.get("matrix", IDENTITY), value.get("custom", 0),
                    value.get("mask", 255), value.get("offset", 0), value.get("flags", 0))


def ray(value, where):
    """Returns a ray."""
    members(value, where, ["origin", "direction"], ["tmin", "tmax"])
    return Ray(value["origin"], value["direction"], value.get("tmin", 0), value.get("tmax", FARTHEST))
