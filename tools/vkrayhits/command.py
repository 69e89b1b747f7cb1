"""The words of the command `vkrayhits`."""

import argparse
import csv
import json
import sys
from fractions import Fraction

from .compare import NEEDED, Comparison, read_floats
from .geometry import Geometry
from .hits import COLUMNS, HitsError, as_json, as_row, read_hits
from .next import next_recording
from .picture import picture
from .png import png_of

ABOUT = "Shows, draws and compares the hits that a run of vkray prints. A file that is named - is standard input."


def image(text):
    """Returns width and height of a text such as 320x240."""
    parts = text.split("x")
    if len(parts) != 2 or not all(it.isascii() and it.isdigit() and int(it) for it in parts):
        raise argparse.ArgumentTypeError(f"{text!r} is no size such as 320x240")
    return int(parts[0]), int(parts[1])


def units(text):
    """Returns a tolerance, a number from 0 up."""
    try:
        value = Fraction(text)
    except (ValueError, ZeroDivisionError):
        value = Fraction(-1)
    if value < 0:
        raise argparse.ArgumentTypeError(f"{text!r} is no number from 0 up")
    return value


def natural(text):
    """Returns a whole number from 0 up."""
    if not (text.isascii() and text.isdigit()):
        raise argparse.ArgumentTypeError(f"{text!r} is no whole number from 0 up")
    return int(text)


def parser():
    """Returns the parser of the command's words."""
    made = argparse.ArgumentParser(prog="vkrayhits", description=ABOUT)
    words = made.add_subparsers(dest="word", required=True)
    one = argparse.ArgumentParser(add_help=False)
    one.add_argument("--read", type=natural, metavar="N", help="the read that is meant, from 0, where there are several")
    for name, what in (("json", "the hits as JSON, fractions exact"), ("csv", "the hits as CSV, fractions as floats")):
        words.add_parser(name, parents=[one], help=what).add_argument("run", help="what a run printed")
    word = words.add_parser("picture", parents=[one], help="a PNG of the hits of an image's rays, a pixel a ray")
    word.add_argument("run", help="what a run printed")
    word.add_argument("--image", type=image, required=True, metavar="WIDTHxHEIGHT")
    word.add_argument("--by", choices=["primitive", "instance", "depth", "normal"], default="primitive")
    word.add_argument("--recording", help="the recording that was run, for normals and for shades by them")
    word.add_argument("--zoom", type=int, choices=range(1, 65), default=1, metavar="N", help="pixels a ray, 1 to 64")
    word = words.add_parser("next", help="the recording in which each ray ignores what it has hit")
    word.add_argument("recording")
    word.add_argument("run", help="what its run printed")
    word = words.add_parser("compare", parents=[one], help="the hits of two texts", description=(
        "Compares the exact hits of a run with those of another run's text, or with floats in CSV with the columns "
        + " ".join(NEEDED) + ". The status is 1 where they differ, and 2 where one isn't read."))
    word.add_argument("run", help="what a run printed")
    word.add_argument("other", help="another such text, or CSV")
    word.add_argument("--tolerance", type=units, metavar="N", help=(
        "by how much t may differ, in units of the last place of floats of 24 bits (1 for CSV, 0 for texts)"))
    word.add_argument("--next", metavar="RUN", help="what the run of `next` printed, which tells equal distances")
    word.add_argument("--strict", action="store_true", help="differences on edges and at equal distances count too")
    word.add_argument("--lines", type=natural, default=20, metavar="N", help="differences that are told one by one (20)")
    return made


def load(path):
    """Returns the text of a file."""
    if path == "-":
        return sys.stdin.read()
    with open(path, encoding="utf-8") as file:
        return file.read()


def load_recording(path):
    """Returns the commands of a recording."""
    try:
        commands = json.loads(load(path))
    except ValueError as error:
        raise HitsError(f"{path}: {error}") from None
    if not isinstance(commands, list) or not all(isinstance(it, dict) and "op" in it for it in commands):
        raise HitsError(f"{path}: it is no list of commands")
    return commands


def draw(words):
    """Writes the picture."""
    hits = read_hits(load(words.run), words.run, words.read)
    commands = load_recording(words.recording) if words.recording else None
    try:
        geometry = Geometry(commands, words.recording) if commands else None
        rows = picture(hits, *words.image, words.by, geometry, words.zoom)
    except (KeyError, IndexError, TypeError, ValueError) as error:
        if isinstance(error, HitsError):
            raise
        raise HitsError(f"{words.recording}: it isn't the recording of these hits ({error!r})") from None
    if sys.stdout.isatty():
        raise HitsError("picture: standard output is a terminal: send it to a file")
    sys.stdout.buffer.write(png_of(rows))
    return 0


def compare(words):
    """Prints the differences and the table; returns 1 where there are differences."""
    first = read_hits(load(words.run), words.run, words.read)
    text = load(words.other)
    floats = "," in text.split("\n", 1)[0]
    others = read_floats(text, words.other) if floats else read_hits(text, words.other, words.read)
    after = read_hits(load(words.next), words.next) if words.next else None
    tolerance = Fraction(int(floats)) if words.tolerance is None else words.tolerance
    made = Comparison(first, others, tolerance, after)
    for line in made.lines[: words.lines]:
        print(line)
    if len(made.lines) > words.lines:
        print(f"and {len(made.lines) - words.lines} more")
    print(f"tolerance {tolerance} units of the last place; greatest difference of t {float(made.worst):.3g}")
    if after is None:
        print("equal distances weren't looked for: --next tells them")
    print("\n".join(made.table()))
    differ = made.differ(words.strict)
    print(f"{differ} differ" if differ else "no difference")
    return 1 if differ else 0


def as_list(words):
    """Writes the hits as JSON, one a line."""
    lines = [json.dumps(as_json(it)) for it in read_hits(load(words.run), words.run, words.read)]
    print("[\n" + ",\n".join(lines) + "\n]")
    return 0


def as_table(words):
    """Writes the hits as CSV."""
    table = csv.writer(sys.stdout, lineterminator="\n")
    table.writerow(COLUMNS)
    table.writerows(as_row(it) for it in read_hits(load(words.run), words.run, words.read))
    return 0


def following(words):
    """Writes the recording of `next`."""
    commands = load_recording(words.recording)
    made = next_recording(commands, read_hits(load(words.run), words.run), words.recording)
    print("[\n" + ",\n".join(json.dumps(it, separators=(",", ":")) for it in made) + "\n]")
    return 0


WORDS = {"json": as_list, "csv": as_table, "picture": draw, "next": following, "compare": compare}


def main(words):
    """Does what the words say; returns the status."""
    words = parser().parse_args(words)
    try:
        return WORDS[words.word](words)
    except BrokenPipeError:
        return 2
    except (HitsError, OSError, UnicodeDecodeError) as error:
        print(f"vkrayhits: {error}", file=sys.stderr)
        return 2
