"""The command: python3 tools/vkrayhits."""

import pathlib
import sys

sys.path.insert(0, str(pathlib.Path(__file__).resolve().parent.parent))

from vkrayhits.command import main  # noqa: E402

sys.exit(main(sys.argv[1:]))
