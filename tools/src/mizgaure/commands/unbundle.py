"""``mizgaure unbundle``: the captures of a bundle as files."""

from __future__ import annotations

import argparse
import os

from ..bundles import read_htmb
from ..errors import InputError
from ..files import naming, refuse_overwriting, writing
from .base import Command, octets


def words(command: argparse.ArgumentParser) -> None:
    command.add_argument("bundle", metavar="FILE", help="a bundle (HTMB); - is standard input")
    command.add_argument("-o", "--output", metavar="FOLDER", required=True, help="where to write capture-00.htcp and so on; it is made where it isn't there")


def run(given: argparse.Namespace) -> None:
    with naming(given.bundle):
        captures = list(read_htmb(given.bundle))
    paths = [os.path.join(given.output, f"capture-{number:02}.htcp") for number in range(len(captures))]
    for path in paths:
        refuse_overwriting(path, given.force)
    try:
        os.makedirs(given.output, exist_ok=True)
    except OSError as error:
        raise InputError(f"{given.output} can't be made: {error.strerror}") from error
    for path, capture in zip(paths, captures):
        with writing(path, given.force) as stream:
            stream.write(capture)
        print(f"{path}: {octets(len(capture))}")


COMMAND = Command("unbundle", "take the captures out of a bundle (HTMB)", words, run, writes=True)
