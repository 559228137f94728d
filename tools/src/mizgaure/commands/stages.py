"""``mizgaure stages``: what each stage of the chain has for the frames of a file."""

from __future__ import annotations

import argparse
import sys
from typing import Dict, Iterator

from ..files import fronted, naming, refuse_overwriting, repeatable, writing
from ..inside import unheeded
from ..program import Radio
from ..shards import HEAD
from ..stage_files import Staged, arrays_of, write_mat, write_stage_rows, write_text, write_words
from .base import Command, counted, whole, write_arrays


def words(command: argparse.ArgumentParser) -> None:
    command.add_argument("frames", metavar="FILE", help="frames (HTTX, LGTX), or backwards a capture (HTCP, LGCP); - is standard input")
    command.add_argument("--frame", metavar="N", type=whole, help="this frame alone, from 0 (default: all)")
    command.add_argument("--csv", metavar="FILE", help="write a row for each value in place of the text")
    command.add_argument("--npz", metavar="FILE", help="write arrays for numpy")
    command.add_argument("--mat", metavar="FILE", help="write arrays for MATLAB and Octave")
    command.add_argument("--readmemh", metavar="FOLDER", help="write a file of words for each stage, as Verilog reads them")


def run(given: argparse.Namespace) -> None:
    from .. import stages

    # The library, unless a program is named or there is none.
    radio = Radio(given.radio) if given.radio or stages.library is None else None
    if radio is not None and (said := unheeded(given.radio)):
        print(f"mizgaure: {said}", file=sys.stderr)
    paths = [path for path in (given.csv, given.npz, given.mat) if path]
    for path in paths:
        refuse_overwriting(path, given.force)
    source = repeatable(given.frames)
    left_out: Dict[str, None] = {}

    def staged() -> Iterator[Staged]:
        with naming(given.frames):
            with fronted(source, HEAD) as (head, _):
                count = 1 if given.frame is not None else int.from_bytes(head[-2:], "big")
            for frame in counted(stages.stages_of(source, given.frame, radio), count, "stages", printing=not paths):
                left_out.update((f"frame {frame.number}: {reason}", None) for reason in frame.left_out)
                yield frame

    if given.csv:
        write_stage_rows(given.csv, staged(), given.force)
    if given.npz or given.mat:
        arrays = arrays_of(staged())
        for path, write in ((given.npz, write_arrays), (given.mat, write_mat)):
            if path:
                with writing(path, given.force) as stream:
                    write(stream, arrays)
    if given.readmemh:
        files = write_words(given.readmemh, staged(), given.force)
        print(f"{given.readmemh}: {files} file{'s' * (files != 1)}")
    if not paths and not given.readmemh:
        for frame in staged():
            write_text(sys.stdout, frame)
        left_out.clear()  # the text says it
    for reason in left_out:
        print(f"mizgaure: left out of {reason}", file=sys.stderr)


COMMAND = Command("stages", "write what each stage of the chain has for a frame, forwards or backwards", words, run, radio=True, writes=True)
