"""``mizgaure bundle``: several captures as one file for ``radio many``."""

from __future__ import annotations

import argparse

from ..bundles import MOST, write_htmb
from ..errors import InputError
from .base import Command


def words(command: argparse.ArgumentParser) -> None:
    command.add_argument("captures", metavar="CAPTURE", nargs="+", help=f"captures (HTCP), 1 to {MOST}, in the order of their numbers; - is standard input")
    command.add_argument("-o", "--output", metavar="FILE", required=True, help="the bundle (HTMB) to write; - is standard output")


def run(given: argparse.Namespace) -> None:
    if given.captures.count("-") > 1:
        raise InputError("only one of the captures can be standard input")
    write_htmb(given.output, given.captures, force=given.force)


COMMAND = Command("bundle", "put captures into a bundle (HTMB), for radio many", words, run, writes=True)
