"""The command: python3 tools/vkraypack."""

import pathlib
import sys

sys.path.insert(0, str(pathlib.Path(__file__).resolve().parent.parent))

from vkraypack.command import main  # noqa: E402

sys.exit(main(sys.argv[1:]))
