"""Detectors beside the reference in a sweep: built in, a function of Python, or a command.

Each sees a capture and decides for every subcarrier of every symbol. What it decides goes through the program's own decoder,
as the points of a capture whose channel is 1, so that its frame error rate differs from the reference's by detection alone.

``zero-forcing``
    the detector of `mizgaure.distances`
``soft``
    no detector but the program's other decoder: what ``radio soft`` makes of the same captures; it has octets and no points
``FILE.py:NAME``
    a function: given a frame of a capture (`CaptureFrame`) and the noise's mean power on an antenna, in the squared units of
    the capture, it gives an array of shape (symbols, subcarriers, streams); what it says of pilots isn't looked at
anything else
    a command: it reads a capture and writes lines ``job FRAME SYMBOL CARRIER I Q ..``, as for `judge`; a job without a line
    is taken as a received 0

Values needn't be points: each is taken for the nearest point.
"""

from __future__ import annotations

import io
import shlex
import subprocess
from dataclasses import dataclass
from typing import List, Sequence

import numpy as np

from . import plugs
from .channels import checked
from .distances import nearest_points, zero_forcing
from .errors import InputError, ProgramError
from .files import naming
from .formats import CaptureFrame
from .theirs import TheirLines

ZERO_FORCING = "zero-forcing"
SOFT = "soft"
REFERENCE = "reference"


@dataclass(frozen=True)
class Detector:
    """A detector.

    Parameters
    ----------
    name : str
        For tables and legends.
    words : str
        As the head of this module says.
    """

    name: str
    words: str

    @classmethod
    def of(cls, text: str) -> "Detector":
        """A detector from ``NAME=WORDS``.

        Raises
        ------
        InputError
            If it isn't of this form, the name is the reference's, or words are quoted and the quotes don't end.
        """
        name, equals, words = text.partition("=")
        if not (equals and name.strip() and words.strip()):
            raise InputError(f"a detector is given as NAME=FILE.py:FUNCTION or NAME=COMMAND, and not as {text}")
        made = cls(name.strip(), words.strip())
        if made.name == REFERENCE:
            raise InputError(f"{REFERENCE} is the name of the program's own detector")
        made.command()
        return made

    @property
    def is_soft(self) -> bool:
        """Whether it is the program's soft decoder."""
        return self.words == SOFT

    @property
    def is_function(self) -> bool:
        """Whether it is a function of Python."""
        return plugs.names_function(self.words)

    def command(self) -> List[str]:
        """Its words as those of a command."""
        try:
            return shlex.split(self.words)
        except ValueError as error:
            raise InputError(f"the command of the detector {self.name} can't be read: {error}") from error

    def decide(self, frames: Sequence[CaptureFrame], octets: bytes, noises: Sequence[float]) -> List[np.ndarray]:
        """What it decides on.

        Parameters
        ----------
        frames : sequence of CaptureFrame
            Without erased subcarriers.
        octets : bytes
            The capture of these frames.
        noises : sequence of float
            For each frame the noise's mean power on an antenna, in the squared units of the capture.

        Returns
        -------
        list of ndarray of complex128, each of shape (symbols, subcarriers, streams)
            Points of the constellation.

        Raises
        ------
        InputError
            If it fails, or what it gives can't be used.
        ProgramError
            If its command can't be run or ends with another status than 0.
        """
        if self.words == ZERO_FORCING:
            values = [zero_forcing(frame).points.reshape(frame.samples.shape) for frame in frames]
        elif self.is_function:
            function = plugs.load(self.words)
            values = [checked(self.words, function(frame, noise), frame.samples.shape) for frame, noise in zip(frames, noises)]
        else:
            values = self._run(frames, octets)
        return [nearest_points(frame.rate, value) for frame, value in zip(frames, values)]

    def _run(self, frames: Sequence[CaptureFrame], octets: bytes) -> List[np.ndarray]:
        words = self.command()
        try:
            done = subprocess.run(words, input=octets, stdout=subprocess.PIPE, check=False)
        except OSError as error:
            raise ProgramError(f"the detector {self.name}: {words[0]} can't be run: {error.strerror}") from error
        if done.returncode != 0:
            raise ProgramError(f"the detector {self.name} ended with status {done.returncode}")
        values = [np.zeros(frame.samples.shape, complex) for frame in frames]
        with naming(f"the detector {self.name}"):
            lines = TheirLines(io.BytesIO(done.stdout))
            for number, (frame, value) in enumerate(zip(frames, values)):
                jobs = lines.jobs_of(number, frame)
                if jobs is not None:
                    symbols, carriers, _ = value.shape
                    if (jobs.symbol >= symbols).any() or (jobs.carrier >= carriers).any():
                        raise InputError(f"it answers a job of frame {number} that its capture doesn't have")
                    value[jobs.symbol, jobs.carrier] = jobs.levels[:, ::2] + 1j * jobs.levels[:, 1::2]
            if any(number >= len(frames) for number in lines.left()):
                raise InputError("it answers a job of a frame that its capture doesn't have")
        return values


def decided(frame: CaptureFrame, points: np.ndarray) -> CaptureFrame:
    """A frame whose nearest vectors are these points: the channel is 1 on each stream."""
    rate = frame.rate
    samples = points.copy()
    samples[:, rate.is_pilot] = rate.pilot_signs(points.shape[0])
    return CaptureFrame(rate, frame.length, np.repeat(np.eye(rate.streams, dtype=complex)[None], rate.subcarriers, axis=0), samples)
