"""``mizgaure zero-forcing``: answers as a simple receiver gives them."""

from __future__ import annotations

import argparse

import numpy as np

from ..distances import zero_forcing
from .base import Command, frames_of, watching


def words(command: argparse.ArgumentParser) -> None:
    command.add_argument("capture", metavar="CAPTURE")


def run(given: argparse.Namespace) -> None:
    with watching(given.capture, "zero-forcing") as stream:
        for number, frame in enumerate(frames_of(stream, given.capture)):
            jobs = zero_forcing(frame, number)
            levels = np.stack((jobs.points.real, jobs.points.imag), axis=-1).astype(int).reshape(len(jobs), -1)
            for symbol, carrier, vector in zip(jobs.symbol.tolist(), jobs.carrier.tolist(), levels.tolist()):
                print("job", number, symbol, carrier, *vector)


COMMAND = Command("zero-forcing", "answer a capture by a zero-forcing detector, as an example of another receiver", words, run)
