"""``mizgaure picture``: a frame of a capture, a sweep, or a recording, drawn."""

from __future__ import annotations

import argparse
import io
from dataclasses import replace
from itertools import islice
from typing import Tuple

from .. import pictures
from ..air import pictures as air_pictures
from ..air.recording import name_of as name_of_recording
from ..air.resampled import fitted
from ..answers import Jobs
from ..errors import InputError
from ..files import naming, refuse_overwriting
from ..formats import CaptureFrame, read_htcp, write_htcp
from ..program import Radio
from ..sweep import Sweep, read_sweep
from .base import Command, kept_answers, name_of, refuse_idle, whole
from .record import add_layout, opened

KINDS = {"constellation": pictures.constellation, "evm": pictures.evm_over_subcarriers, "residual": pictures.residual_over_subcarriers,
         "distances": pictures.distance_histogram}


def words(command: argparse.ArgumentParser) -> None:
    command.add_argument("kind", metavar="KIND", choices=(*KINDS, "sweep", *air_pictures.KINDS),
                         help="constellation, evm, residual, distances, sweep, spectrum, preamble or tracking")
    command.add_argument("file", metavar="FILE", help="a capture, for sweep what mizgaure sweep kept, for the last three a recording")
    command.add_argument("output", metavar="PICTURE", help="ending in .png, .svg or .pdf")
    command.add_argument("--frame", type=whole, help="the frame to draw (default 0)")
    command.add_argument("--answers", metavar="LINES", help="kept lines of radio detect, in place of running it")
    add_layout(command)


def run(given: argparse.Namespace) -> None:
    pictures.check_ending(given.output)
    refuse_overwriting(given.output, given.force)
    if given.kind not in air_pictures.KINDS and (given.datatype, given.sample_rate, given.channels, given.variable) != (None,) * 4:
        raise InputError("--datatype, --sample-rate, --channels and --variable are said of a recording")
    refuse_idle(given, "radio", given.kind not in KINDS, f"{given.kind} is drawn without it")
    refuse_idle(given, "radio", given.answers, "--answers are in place of a run of it")
    if given.answers is not None and given.kind not in KINDS:
        raise InputError("--answers are those to a capture")
    if given.frame is not None and given.kind in ("sweep", "spectrum"):
        raise InputError(f"--frame is said of one frame, and {given.kind} shows all")
    given.frame = given.frame or 0
    if given.kind == "sweep":
        with naming(given.file):
            kept: Sweep = read_sweep(given.file)
        pictures.save(pictures.error_curves(kept, name_of(given.file)), given.output, given.force)
        return
    if given.kind in air_pictures.KINDS:
        with opened(given, given.file) as recording:
            shown = recording if given.kind == "spectrum" else fitted(recording)
            drawn = air_pictures.KINDS[given.kind](shown, given.frame, name_of_recording(given.file))
        pictures.save(drawn, given.output, given.force)
        return
    frame, jobs = _one_frame(given)
    name = name_of(given.file) + (f", frame {given.frame}" if given.frame else "")
    pictures.save(KINDS[given.kind](frame, jobs, name), given.output, given.force)


def _one_frame(given: argparse.Namespace) -> Tuple[CaptureFrame, Jobs]:
    """The frame that is asked for and its answers; the program is given a capture of it alone."""
    with naming(given.file), read_htcp(given.file) as frames:
        if given.frame >= frames.frames:
            raise InputError(f"it has {frames.frames} frame{'' if frames.frames == 1 else 's'}, and no frame {given.frame}")
        frame = next(islice(frames, given.frame, None))
    if given.answers:
        for jobs in kept_answers(given.answers)[0]:
            if jobs.frame == given.frame:
                return frame, jobs
        raise InputError(f"{given.answers}: there are no answers to frame {given.frame}")
    alone = io.BytesIO()
    write_htcp(alone, [frame])
    (jobs,) = Radio(given.radio).detect(alone.getvalue())
    return frame, replace(jobs, frame=given.frame)


COMMAND = Command("picture", "draw a frame of a capture, a sweep, or a recording", words, run, radio=True, writes=True)
