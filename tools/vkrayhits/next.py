"""The recording in which each ray ignores what it has hit, so that its next hit is seen.

It lets vkray say where two primitives have equal distances. Taken are recordings such as vkraypack
makes: one trace, of opaque triangles without a script, or of boxes that are hit where rays enter them.
"""

from .hits import HitsError

ENTRY = [{"do": "entry"}]
MOST = 4096  # rules of one script
NOT_TAKEN = ("no_opaque", "cull_opaque", "cull_no_opaque", "terminate_on_first_hit")


def next_recording(commands, hits, name):
    """Returns the commands of that recording; each trace of it takes 4,095 rays or fewer."""
    traces = [place for place, it in enumerate(commands) if it["op"] == "trace"]
    if len(traces) != 1:
        raise HitsError(f"{name}: it has {len(traces)} traces, and one is wanted")
    trace = commands[traces[0]]
    geometries = [geometry for it in commands if it["op"] == "build"
                  for info in it["infos"] for geometry in info["geometries"]]
    triangles = [it for it in geometries if it["kind"] == "triangles"]
    if not all(it["opaque"] for it in triangles):
        raise HitsError(f"{name}: it has triangles that aren't opaque")
    if trace["script"] != ([] if triangles else ENTRY) or any(it["kind"] == "boxes" for it in geometries if triangles):
        raise HitsError(f"{name}: it has a script for triangles, or triangles and boxes, which isn't taken")
    if any(it in NOT_TAKEN for it in trace["flags"]):
        raise HitsError(f"{name}, command {traces[0]}: its flags {', '.join(trace['flags'])} aren't taken")
    if len(hits) != trace["count"]:
        raise HitsError(f"{name}: its trace has {trace['count']} rays, and the hits are of {len(hits)}")
    flags = [it for it in trace["flags"] if it != "opaque"] + ["no_opaque"]
    changed = []
    for first in range(0, len(hits), MOST - 1):
        part = hits[first : first + MOST - 1]
        changed.append({
            **trace, "count": len(part), "flags": flags,
            "rays": shifted(trace["rays"], 40 * first), "hits": shifted(trace["hits"], 80 * first),
            "script": ignoring(part) + ([{"do": "confirm"}] if triangles else ENTRY),
        })
    return commands[: traces[0]] + changed + commands[traces[0] + 1 :]


def ignoring(hits):
    """Returns the rules that ignore what each ray hits; the rays are counted from the first one."""
    return [{"ray": ray, "instance": it.instance, "geometry": it.geometry, "primitive": it.primitive, "do": "ignore"}
            for ray, it in enumerate(hits) if it.kind != "none"]


def shifted(place, more):
    """Returns a place so many bytes further on."""
    return {**place, "offset": place["offset"] + more}
