"""``mizgaure merge``: the parts of a sweep as one."""

from __future__ import annotations

import argparse

from .. import pictures
from ..files import naming, refuse_overwriting, writing
from ..sweep import merged, read_sweep
from .base import Command, add_tables, refuse_tables
from .sweep import finish


def words(command: argparse.ArgumentParser) -> None:
    command.add_argument("files", metavar="FILE", nargs="+", help="what mizgaure sweep kept, of parts or of runs that were broken off")
    command.add_argument("-o", "--output", metavar="FILE", help="keep the whole as JSON lines")
    command.add_argument("--picture", metavar="FILE", help="draw it (.png, .svg, .pdf)")
    add_tables(command)


def run(given: argparse.Namespace) -> None:
    for path in (given.output, given.picture):
        if path:
            refuse_overwriting(path, given.force)
    refuse_tables(given)
    if given.picture:
        pictures.check_ending(given.picture)
    parts = []
    for path in given.files:
        with naming(path):
            parts.append(read_sweep(path))
            merged([parts[0], parts[-1]])
    found = merged(parts)
    print(found.table())
    missing = found.missing()
    if missing:
        print(f"{missing} of {found.setting.frames * len(found.setting.snr)} frames are missing")
    if given.output:
        with writing(given.output, given.force) as stream:
            stream.write(found.to_json().encode())
    finish(given, found, given.output)


COMMAND = Command("merge", "put the parts of a sweep together", words, run, writes=True)
