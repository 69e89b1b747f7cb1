"""A recording, made command by command in the order of the calls."""

import json

from . import records
from .accesses import between
from .records import Instance, PackError, Ray

EVERYTHING = {
    "src_stages": ["all"], "src_access": ["memory_write"],
    "dst_stages": ["all"], "dst_access": ["memory_read", "memory_write"],
}
TO_THE_HOST = {
    "src_stages": ["all"], "src_access": ["memory_write"],
    "dst_stages": ["host"], "dst_access": ["host_read"],
}


class Recording:
    """The commands of a recording.

    A command of the device begins the command buffer where none is begun, and stands behind a full
    barrier where another is before it. A read ends, submits and waits. Buffers and structures are made
    before the command buffer in which they are first used. With barriers=False no barrier comes by
    itself, and `barrier` or `device("barrier", ..)` puts one where it is wanted.
    """

    def __init__(self, barriers=True):
        self.commands = []
        self._barriers = barriers
        self._begin = None  # the place of the open command buffer's begin
        self._unordered = False  # whether a device command came since the last barrier
        self._buffers = 0
        self._structures = 0
        self._counts = {}  # the primitives of each geometry, by the structure's id
        self._scratch = None
        self._boxes = False

    # Host commands

    def buffer(self, usage, data=b"", size=None):
        """Makes a buffer that holds these bytes, then zeros up to its size, and returns its id."""
        command = {"op": "buffer", "id": self._buffers, "size": len(data) if size is None else size,
                   "usage": list(usage)}
        if data:
            command["data"] = bytes(data).hex()
        self._make(command)
        self._buffers += 1
        return command["id"]

    def numbers(self, usage, values, bits=32, signed=True):
        """Makes a buffer that holds these whole numbers of 8, 16, 32 or 64 bits, and returns its id."""
        name = f"buffer {self._buffers}"
        return self.buffer(usage, records.numbers(values, bits, signed, name))

    def structure(self, kind, counts):
        """Makes a structure, `bottom` or `top`, for so many primitives a geometry, and returns its id."""
        size = records.structure_size(counts)
        memory = self.buffer(["structure"], size=size)
        made = self._structures
        self._make({"op": "structure", "id": made, "kind": kind, "buffer": memory, "offset": 0, "size": size})
        self._structures += 1
        self._counts[made] = list(counts)
        return made

    def host(self, op, **members):
        """Puts another command of the host: sizes, destroy, wait."""
        self.close()
        self.commands.append({"op": op, **members})

    def read(self, buffer, offset, size, form):
        """Shows bytes of a buffer, as `hex`, `u64` or `hits`."""
        self.host("read", buffer=buffer, offset=offset, size=size, form=form)

    # Device commands

    def device(self, op, **members):
        """Puts a command of the device by its members: update, fill, copy, barrier and the others."""
        if self._begin is None:
            self._begin = len(self.commands)
            self.commands.append({"op": "begin"})
        if self._unordered and self._barriers and op != "barrier":
            self.commands.append({"op": "barrier", **EVERYTHING})
        self._unordered = op != "barrier"
        self.commands.append({"op": op, **members})

    def barrier(self, before, after, buffers=None):
        """Puts a barrier from what some commands write to all that others access, at their stages.

        Both are names of commands, as "copy" or "copy update"; "read" stands for the host. With a list of
        buffers its accesses are of these alone, and of no structure; it orders all the same.
        """
        limit = {} if buffers is None else {"buffers": list(buffers)}
        self.device("barrier", **between(before, after), **limit)

    def triangles(self, vertices, triangles, opaque=True):
        """Returns a geometry of triangles: three numbers a vertex, three vertex numbers a triangle."""
        places = records.rows(vertices, 3, True, "vertex")
        corners = records.rows(triangles, 3, False, "triangle")
        for place, triangle in enumerate(triangles):
            if max(triangle) >= len(vertices):
                raise PackError(f"triangle {place}: there is no vertex {max(triangle)}, only {len(vertices)} of them")
        return {
            "kind": "triangles", "opaque": opaque, "format": "s32x3",
            "vertex": self._place(places), "stride": 12, "max_vertex": max(len(vertices) - 1, 0),
            "index": {"type": "u32", **self._place(corners)},
            "count": len(triangles), "primitive_offset": 0, "first_vertex": 0, "transform_offset": 0,
        }

    def boxes(self, boxes, opaque=True):
        """Returns a geometry of boxes: minX, minY, minZ, maxX, maxY and maxZ each."""
        self._boxes = True
        data = self._place(records.rows(boxes, 6, True, "box"))
        return {"kind": "boxes", "opaque": opaque, "data": data, "stride": 24, "count": len(boxes),
                "primitive_offset": 0}

    def bottom(self, geometries, flags=()):
        """Makes a bottom structure of these geometries, builds it, and returns its id."""
        return self._build("bottom", list(geometries), flags, {})

    def mesh(self, vertices, triangles, opaque=True):
        """Makes a bottom structure of one geometry of triangles, builds it, and returns its id."""
        return self.bottom([self.triangles(vertices, triangles, opaque)])

    def top(self, instances, flags=()):
        """Makes a top structure of these instances, builds it, and returns its id."""
        instances = [it if isinstance(it, Instance) else Instance(*it) for it in instances]
        data = b"".join(records.instance_bytes(it, place) for place, it in enumerate(instances))
        geometry = {"kind": "instances", "data": self._place(data), "count": len(instances), "primitive_offset": 0}
        uses = sorted({it.structure for it in instances})
        return self._build("top", [geometry], flags, {"uses": uses})

    def trace(self, top, rays, flags=(), mask=255, script=None, read=True):
        """Traces rays through a top structure, reads the hits, and returns the buffer that holds them.

        Without a script a box is hit where the ray enters it. With read=False nothing is read.
        """
        if script is None:
            script = [{"do": "entry"}] if self._boxes else []
        rays = [it if isinstance(it, Ray) else Ray(*it) for it in rays]
        data = b"".join(records.ray_bytes(it, place) for place, it in enumerate(rays))
        given = self._place(data, "storage")
        hits = self.buffer(["storage"], size=max(80 * len(rays), 8))
        self.device("trace", top=top, rays=given, count=len(rays), hits={"buffer": hits, "offset": 0},
                    flags=list(flags), mask=mask, script=list(script))
        if read and rays:
            self.read(hits, 0, 80 * len(rays), "hits")
        return hits

    # The end

    def close(self):
        """Ends the open command buffer, hands all on to the host, submits and waits."""
        if self._begin is None:
            return
        if self._barriers:
            self.commands.append({"op": "barrier", **TO_THE_HOST})
        self.commands += [{"op": "end"}, {"op": "submit"}, {"op": "wait"}]
        self._begin = None
        self._unordered = False

    def text(self):
        """Returns the recording as JSON text, a line a command."""
        self.close()
        return recording_text(self.commands)

    def _make(self, command):
        """Puts a command that makes something before the open command buffer, or at the end."""
        if self._begin is None:
            self.commands.append(command)
        else:
            self.commands.insert(self._begin, command)
            self._begin += 1

    def _place(self, data, usage="input"):
        """Makes a buffer that holds these bytes, and returns the place where they begin."""
        return {"buffer": self.buffer([usage], data, max(len(data), 8)), "offset": 0}

    def _build(self, kind, geometries, flags, more):
        """Makes a structure of the geometries, builds it anew, and returns its id."""
        counts = [it["count"] for it in geometries]
        made = self.structure(kind, counts)
        self.device("build", infos=[{
            "mode": "build", "dst": made, "flags": list(flags), "scratch": self._scratch_place(counts),
            "geometries": geometries, **more,
        }])
        return made

    def _scratch_place(self, counts):
        """Returns the place of the scratch memory that all builds share, and makes it large enough."""
        size = records.scratch_size(counts)
        if self._scratch is None:
            made = self.buffer(["scratch"], size=size)
            self._scratch = next(it for it in self.commands if it["op"] == "buffer" and it["id"] == made)
        self._scratch["size"] = max(self._scratch["size"], size)
        return {"buffer": self._scratch["id"], "offset": 0}


def recording_text(commands):
    """Returns commands as JSON text, a line a command."""
    return "[\n" + ",\n".join(json.dumps(it, separators=(",", ":")) for it in commands) + "\n]\n"
