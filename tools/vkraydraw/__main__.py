"""The command: python3 tools/vkraydraw."""

import argparse
import pathlib
import sys

sys.path.insert(0, str(pathlib.Path(__file__).resolve().parent.parent))

from vkraydraw.chain import chain  # noqa: E402
from vkraydraw.owners import owners  # noqa: E402
from vkrayhits.command import load, load_recording  # noqa: E402
from vkrayhits.hits import HitsError, read_hits  # noqa: E402


def main(words):
    """Does what the words say; returns the status: 0, or 1 where nothing is drawn."""
    made = argparse.ArgumentParser(prog="vkraydraw", description="Draws a diagram of a recording, as SVG.")
    kinds = made.add_subparsers(dest="word", required=True)
    word = kinds.add_parser("owners", help="triangles seen from above, and which of them has each ray from above")
    word.add_argument("recording")
    word.add_argument("run", help="what its run printed")
    word = kinds.add_parser("chain", help="the commands of the device by their stages, and what barriers hand on")
    word.add_argument("recording")
    word.add_argument("answer", help="what its check or run printed, of which a refusal is shown")
    words = made.parse_args(words)
    try:
        commands, text = load_recording(words.recording), load(words.answer if words.word == "chain" else words.run)
        if words.word == "chain":
            print(chain(commands, text))
        else:
            print(owners(commands, read_hits(text, words.run), words.recording))
    except (HitsError, OSError) as error:
        print(f"vkraydraw: {error}", file=sys.stderr)
        return 1
    return 0


sys.exit(main(sys.argv[1:]))
