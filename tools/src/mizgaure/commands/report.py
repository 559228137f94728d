"""``mizgaure report``: one page on captures, recordings and sweeps."""

from __future__ import annotations

import argparse
import os
from collections import Counter
from typing import List, Tuple

from ..air.recording import base_name, open_recording
from ..air.resampled import fitted
from ..air.sigmf import ARCHIVE, DATA, META
from ..errors import InputError
from ..files import naming, refuse_overwriting, writing
from ..program import Progress, Radio
from ..sweep import read_sweep
from .base import Command, not_negative, positive, refuse_idle, whole
from .record import hertz, remarks_of
from .verdict import measured, unmeasured


PICTURED = 2  # frames of a capture that have pictures where nothing is said
OF_RECORDINGS = ("frequency", "reference_ppm", "shift")


def words(command: argparse.ArgumentParser) -> None:
    command.add_argument("captures", metavar="CAPTURE", nargs="+", help="captures (HTCP), and SigMF recordings and archives")
    command.add_argument("-o", "--output", metavar="FILE", required=True, help="the page (HTML) to write; it has its pictures inside")
    command.add_argument("--theirs", metavar="LINES", action="append", help="another receiver's answers, as judge reads them; once for each capture")
    command.add_argument("--sweep", metavar="FILE", action="append", default=[], help="what mizgaure sweep kept; may come again")
    command.add_argument("--frequency", metavar="HZ", type=positive, help="of the middle of the recorded band (default: as recordings say)")
    command.add_argument("--reference-ppm", metavar="PPM", type=not_negative, help="by how much the recorder's own clock may be wrong")
    command.add_argument("--shift", metavar="HZ", type=hertz, help="where the packets' middle is, from the recordings' middle")
    command.add_argument("--pictures", metavar="N", type=whole, help=f"draw the first N frames of each capture (default {PICTURED})")
    command.add_argument("--title", metavar="TEXT", help="the page's title (default: what it has)")


def run(given: argparse.Namespace) -> None:
    from ..report import examine, examine_recording, page
    from ..tracing import facts, recorded

    refuse_overwriting(given.output, given.force)
    if "-" in given.captures:
        raise InputError("a report reads its captures twice, and so not from standard input")
    recordings, captures = _sorted(given.captures)
    if given.theirs and len(given.theirs) != len(captures):
        raise InputError(f"--theirs comes once for each capture: captures {len(captures)}, --theirs {len(given.theirs)}")
    for name in OF_RECORDINGS:
        refuse_idle(given, name, not recordings, "it is said of recordings, and there is none")
    refuse_idle(given, "pictures", not captures, "the frames of captures are drawn, and there is none")
    refuse_idle(given, "radio", not captures, "recordings and sweeps are looked at without it")
    pictured = PICTURED if given.pictures is None else given.pictures
    radio = Radio(given.radio, progress=False) if captures else None
    bar = Progress(len(given.captures) + len(given.sweep), "report", unit=" files")
    examined, heard, sweeps = [], [], []
    inputs = list(captures)
    try:
        for path, lines in zip(captures, given.theirs or [None] * len(captures)):
            assert radio is not None
            examined.append(examine(path, radio, lines, pictured))
            bar.add(1)
        for path in recordings:
            with open_recording(path) as recording:
                inputs += [path] if path.endswith(ARCHIVE) else [base_name(path) + META, recording.name]
                left_out: Counter = Counter()
                packets = list(measured(fitted(recording, given.shift or 0.0), shown=False, left_out=left_out))
                if not packets:
                    raise InputError(f"{path}: {unmeasured(left_out) or 'no packet was found in it'}")
                heard.append(examine_recording(recording, path, packets, given.frequency or recording.frequency, given.reference_ppm,
                                               [*recorded(base_name(path) + META), *(("remark", remark) for remark in remarks_of(recording))],
                                               unmeasured(left_out)))
            bar.add(1)
        for path in given.sweep:
            with naming(path):
                sweeps.append((path, read_sweep(path)))
            bar.add(1)
    finally:
        bar.close()
    inputs += [*(given.theirs or []), *given.sweep]
    title = given.title or " and ".join(kind for kind, there in (("Captures", captures), ("recordings", recordings)) if there).capitalize() + ", measured"
    made = page(examined, title, facts(given.command_line, None if radio is None else radio.path, inputs), heard, sweeps)
    with writing(given.output, given.force) as stream:
        stream.write(made.encode())


def _sorted(paths: List[str]) -> Tuple[List[str], List[str]]:
    """The recordings among some files, and the captures."""
    recordings = [path for path in paths if path.endswith((META, DATA, ARCHIVE)) or os.path.isfile(path + META)]
    return recordings, [path for path in paths if path not in recordings]


COMMAND = Command("report", "write a page on captures, recordings and sweeps: measures, verdicts, pictures", words, run, radio=True, writes=True)
