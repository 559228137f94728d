"""``python3 -m mizgaure`` is the command ``mizgaure``."""

import sys

from .cli import main

sys.exit(main())
