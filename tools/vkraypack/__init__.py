"""Makes recordings for vkray from lists of whole numbers.

    from vkraypack import Instance, Ray, Recording
    recording = Recording()
    mesh = recording.mesh([(0, 0, 0), (4, 0, 0), (0, 4, 0)], [(0, 1, 2)])
    top = recording.top([Instance(mesh)])
    recording.trace(top, [Ray((1, 1, 5), (0, 0, -1))])
    print(recording.text())

Structures and scratch memory get the sizes that they need, and a full barrier stands between each two
commands of the device; with `Recording(barriers=False)` those alone that `barrier` puts, as in
`recording.barrier("copy", "build", [buffer])`. What a recording means, and whether it is refused, is for
vkray to say.
"""

from .camera import Camera, with_rays
from .records import IDENTITY, Instance, PackError, Ray
from .recording import Recording
from .scene import scene_recording

__all__ = [
    "IDENTITY", "Camera", "Instance", "PackError", "Ray", "Recording", "scene_recording", "with_rays",
]
