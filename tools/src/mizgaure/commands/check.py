"""``mizgaure check``: judge a file of certificates."""

from __future__ import annotations

import argparse

from ..certificates import check_lines
from ..errors import FormatError
from ..files import naming
from .base import Command, watching


def words(command: argparse.ArgumentParser) -> None:
    command.add_argument("file", metavar="FILE", help="a file of certificates (HTCT); - is standard input")


def run(given: argparse.Namespace) -> None:
    with naming(given.file), watching(given.file, "check") as stream:
        line = ""
        for line in check_lines(stream):
            print(line)
        if line.startswith("refused "):
            _, kind, _, offset = line.split()
            raise FormatError(kind, int(offset))


COMMAND = Command("check", "judge certificates of detection, by a checker that shares nothing with radio", words, run)
