"""``mizgaure show``: what a file holds, or where it is at fault."""

from __future__ import annotations

import argparse

import numpy as np

from ..files import naming
from ..formats import CaptureFrame, SentFrame, SymbolsFrame, read_any
from .base import Command, octets, unheard


def words(command: argparse.ArgumentParser) -> None:
    command.add_argument("file", metavar="FILE", help="- is standard input")


def run(given: argparse.Namespace) -> None:
    with naming(given.file):
        name, frames = read_any(given.file)
        count = "1 frame" if frames.frames == 1 else f"{frames.frames} frames"
        print(f"{name.upper()} version {frames.version}, {count}")
        for number, frame in enumerate(frames):
            more = ""
            if isinstance(frame, CaptureFrame):
                more = f", {_symbols(frame.samples.shape[0])}{unheard(frame)}"
                if frame.erased.any():
                    more += f", {int(frame.erased.sum())} subcarriers erased: {' '.join(map(str, np.flatnonzero(frame.erased)))}"
            elif isinstance(frame, SymbolsFrame):
                more = f", {_symbols(frame.points.shape[0])}"
            elif isinstance(frame, SentFrame):
                more = f", seed {frame.seed}"
            print(f"frame {number}: {frame.rate}, {octets(frame.length)}{more}")


def _symbols(count: int) -> str:
    return "1 symbol" if count == 1 else f"{count} symbols"


COMMAND = Command("show", "say what a file (HTCP, HTTX, HTSY) holds, or where it is at fault", words, run)
