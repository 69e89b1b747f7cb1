"""The words of the command `vkraypack`."""

import argparse
import json
import sys

from .camera import Camera, framing, with_rays
from .gltf import read_gltf
from .grid import Grid, number
from .obj import read_obj
from .records import PackError
from .recording import recording_text
from .scene import scene_recording

ABOUT = "Makes a recording for vkray, and writes it to standard output."


def image(text):
    """Returns width and height of a text such as 320x240."""
    parts = text.split("x")
    if len(parts) != 2 or not all(it.isascii() and it.isdigit() and int(it) for it in parts):
        raise argparse.ArgumentTypeError(f"{text!r} is no size such as 320x240")
    return int(parts[0]), int(parts[1])


def scale(text):
    """Returns the scale, a decimal number above 0."""
    try:
        return number(text, "scale")
    except PackError as error:
        raise argparse.ArgumentTypeError(str(error)) from None


def parser():
    """Returns the parser of the command's words."""
    made = argparse.ArgumentParser(prog="vkraypack", description=ABOUT)
    words = made.add_subparsers(dest="word", required=True)
    view = argparse.ArgumentParser(add_help=False)
    view.add_argument("--image", type=image, metavar="WIDTHxHEIGHT", help="a ray for each pixel of such an image")
    view.add_argument("--from", type=int, nargs=3, metavar=("X", "Y", "Z"), dest="origin",
                      help="where the camera stands, on the grid; without it the whole scene is seen")
    view.add_argument("--at", type=int, nargs=3, metavar=("X", "Y", "Z"), dest="target",
                      help="where it looks, on the grid; the scene's middle without it")
    view.add_argument("--up", choices=["y", "z"], help="the axis that points up (y; z for gen)")
    view.add_argument("--angle", type=float, default=40.0, help="the angle of the image's height in degrees (40)")
    for name, what in (("obj", "a Wavefront OBJ file"), ("gltf", "a glTF 2.0 file (.gltf)")):
        word = words.add_parser(name, parents=[view], help=f"the triangles of {what}", description=(
            f"The triangles of {what} on the grid of whole numbers. What is rounded and clipped is told on "
            "standard error."))
        word.add_argument("file")
        word.add_argument("--scale", type=scale, required=True, help="the grid's units of one unit of the file")
    word = words.add_parser("scene", parents=[view], help="a scene of plain numbers in JSON",
                            description="A scene of plain numbers in JSON, from a file or - for standard input.")
    word.add_argument("file")
    words.add_parser("camera", parents=[view], help="a recording with the rays of a camera", description=(
        "Reads a recording with one trace from standard input, and gives it the rays of a camera."))
    return made


def camera_of(words, bounds, up):
    """Returns the camera that the words ask for, over a scene with these bounds."""
    up = {"y": (0, 1, 0), "z": (0, 0, 1)}[words.up or up]
    if words.origin is None and bounds is not None:
        return framing(bounds, *words.image, up, words.angle)
    if words.origin is None or (words.target is None and bounds is None):
        raise PackError("camera: --from and --at say where it stands and looks")
    target = words.target or [(a + b) / 2 for a, b in zip(*bounds)]
    return Camera(words.origin, target, *words.image, up, words.angle)


def pack(words):
    """Returns the text of the recording that the words ask for, and the lines of its report."""
    if words.word in ("obj", "gltf"):
        grid = Grid(words.scale)
        model = (read_obj if words.word == "obj" else read_gltf)(words.file, grid)
        rays = camera_of(words, model.bounds(), "y").rays() if words.image else []
        return model.recording(rays).text(), grid.report()
    rays = camera_of(words, None, "z").rays() if words.image else None
    if words.word == "scene":
        return scene_recording(load(words.file), rays).text(), []
    if rays is None:
        raise PackError("camera: --image says how many rays there are")
    return recording_text(with_rays(load("-"), rays)), []


def load(path):
    """Returns the JSON of a file, or of standard input for -."""
    try:
        if path == "-":
            return json.load(sys.stdin)
        with open(path, encoding="utf-8") as file:
            return json.load(file)
    except ValueError as error:
        raise PackError(f"{path}: {error}") from None


def main(words):
    """Does what the words say; returns the status: 0, or 1 where no recording is made."""
    try:
        text, report = pack(parser().parse_args(words))
        sys.stdout.write(text)
        sys.stdout.flush()
    except BrokenPipeError:
        return 1
    except (PackError, OSError) as error:
        print(f"vkraypack: {error}", file=sys.stderr)
        return 1
    for line in report:
        print(f"vkraypack: {line}", file=sys.stderr)
    return 0
