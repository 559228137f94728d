"""Where the command begins: in front of all that takes time to import, so that an early Ctrl-C ends it in a line, too.

It is run by its path, and imports nothing of the package before it waits for a Ctrl-C.
"""

import os
import sys


def main() -> int:
    """Run the command, and give its status."""
    try:
        from mizgaure.cli import main as command

        return command()
    except KeyboardInterrupt:
        print("mizgaure: interrupted", file=sys.stderr)
        return 130


if __name__ == "__main__":
    folder = os.path.dirname(os.path.abspath(__file__))
    sys.path[:] = [path for path in sys.path if os.path.abspath(path or ".") != folder]
    sys.exit(main())
