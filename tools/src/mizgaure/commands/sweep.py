"""``mizgaure sweep``: error rates over the signal-to-noise ratio."""

from __future__ import annotations

import argparse
import os
from typing import Optional

from .. import pictures
from ..detectors import SOFT, Detector
from ..errors import InputError
from ..files import refuse_overwriting, writing
from ..program import Progress
from ..sweep import COLUMNS, Journal, Setting, Sweep, sweep
from .base import (Command, add_part, add_setting, add_tables, add_workers, name_of, ratios, receiver_of, refuse_both, refuse_tables, setting_of, whole,
                   write_tables)


def words(command: argparse.ArgumentParser) -> None:
    setting = Setting()
    add_setting(command)
    command.add_argument("--snr", type=ratios, default=setting.snr, help="in dB, as 0:20:5 or 3,7.5,12 (default 0:20:5)")
    command.add_argument("--frames", type=whole, default=setting.frames, help="frames of each point (default 50)")
    command.add_argument("--errors", type=whole, default=setting.errors, help="end a point once so many of its frames are in error (default: never)")
    command.add_argument("--chunk", metavar="N", type=whole, default=setting.chunk, help="frames that are done in one go (default 10)")
    command.add_argument("--detector", metavar="NAME=WORDS", action="append", default=[],
                         help="one more detector: zero-forcing, soft, a function as FILE.py:NAME, or a command; may come again")
    command.add_argument("--soft", action="store_true", help="decode the same captures with radio soft, too, as the detector soft=soft")
    add_workers(command)
    add_part(command, "every N-th chunk from the K-th on")
    command.add_argument("-o", "--output", metavar="FILE", help="keep the outcome as JSON lines, as it comes")
    command.add_argument("--resume", action="store_true", help="go on with what the output has of this sweep already")
    command.add_argument("--picture", metavar="FILE", help="draw it (.png, .svg, .pdf)")
    add_tables(command)


def run(given: argparse.Namespace) -> None:
    refuse_both(given)
    for path in (None if given.resume else given.output, given.picture):
        if path:
            refuse_overwriting(path, given.force)
    refuse_tables(given)
    if given.picture:
        pictures.check_ending(given.picture)
    if given.resume and not given.output:
        raise InputError("--resume goes on with a file, which --output names")
    setting = setting_of(given, given.frames)
    detectors = [Detector.of(text) for text in given.detector] + ([Detector(SOFT, SOFT)] if given.soft else [])
    radio = receiver_of(given.radio) if given.scheduler is None else None
    path = None if radio is not None else given.radio
    journal = _journal(given)
    count = -(-setting.frames * len(setting.snr) // given.part[1])
    bar = Progress(count, "sweep", unit=" frames")
    told: list = []

    def tell(done: Sweep, point: int) -> None:
        if not told:
            bar.say(done.title())
        told.append(point)
        for line in done.lines(point):
            bar.say(line)

    try:
        found = sweep(setting, radio, given.processes or None, lambda done, _: bar.add(done - bar.done), path=path, scheduler=given.scheduler,
                      detectors=detectors, part=given.part, journal=journal, point_done=tell)
    finally:
        bar.close()
        if journal is not None:
            journal.close()
    if not found.coded:
        print("random points without a code: the program has no tx or no rx, so there is no PER")
    if given.output and journal is None:
        with writing(given.output, given.force) as stream:
            stream.write(found.to_json().encode())
    finish(given, found, given.output)


def _journal(given: argparse.Namespace) -> Optional[Journal]:
    """The file that is written as chunks come; none for standard output and what is no ordinary file."""
    if not given.output or given.output == "-" or os.path.exists(given.output) and not os.path.isfile(given.output):
        return None
    return Journal(given.output, given.resume, given.force)


def finish(given: argparse.Namespace, found: Sweep, name: Optional[str]) -> None:
    """Write the tables and the picture of a sweep that are asked for."""
    write_tables(given, list(found.records()), COLUMNS)
    if given.picture:
        pictures.save(pictures.error_curves(found, name_of(name)), given.picture, given.force)


COMMAND = Command("sweep", "find error rates over the signal-to-noise ratio, over random channels", words, run, radio=True, writes=True)
