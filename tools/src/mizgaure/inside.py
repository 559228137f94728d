"""The proved library in place of the program, where it is there: the same answers to a frame, as arrays and with no text between.

The nearest vectors of data subcarriers with their labels are those of `library.detect_symbols`, the octets those of
`library.decode_frame`. What `radio` says of pilots, of a frame without a seed, and by soft decisions, is read from the library's text
for that frame alone.
"""

from __future__ import annotations

import io
import os
from contextlib import suppress
from dataclasses import dataclass, replace
from typing import Iterator, Optional, Tuple, Union

import numpy as np

from .answers import FrameAnswer, Jobs, Refused, SoftAnswer, read_answers
from .distances import places
from .errors import FormatError, InputError
from .files import Source
from .formats import CaptureFrame, SentFrame, SymbolsFrame, read_htcp, write_htcp
from .program import Progress, Radio
from .rates import Rate

try:
    from . import library
    missing = ""
except ImportError as error:
    library = None  # type: ignore[assignment]
    missing = str(error)

HIGH = 1 << 64


@dataclass
class Heard(Jobs):
    """The library's answers to the jobs of a frame, with what else its line and its octets need.

    Parameters
    ----------
    labels : ndarray of uint8, shape (symbols, data subcarriers, streams)
        The labels of the points, 0 where a subcarrier is erased.
    data : int
        The sum of the least distances over the frame's data subcarriers.
    """

    labels: np.ndarray
    data: int


class Inside:
    """The proved library as a receiver.

    Raises
    ------
    InputError
        If there is none.
    """

    def __init__(self) -> None:
        if library is None:
            raise InputError("there is no proved library (docs/LIBRARY.md)")

    @property
    def path(self) -> str:
        """The path of the library."""
        return str(library.path())

    def jobs(self, number: int, frame: CaptureFrame) -> Heard:
        """The answers to a frame's jobs, as those of ``radio detect``."""
        rate, present = frame.rate, np.flatnonzero(~frame.erased)
        pilot = rate.is_pilot[present]
        points = np.zeros((len(frame.samples), present.size, rate.streams, 2), np.int8)
        low, high = np.zeros((2, *points.shape[:2]), np.uint64)
        labels, total = np.zeros((len(frame.samples), rate.data_subcarriers, rate.streams), np.uint8), 0
        data = present[~pilot]
        if data.size:
            hits, labels[:, ~frame.erased[~rate.is_pilot]], sums = detected(rate, frame.triangles[data], frame.samples[:, data])
            points[:, ~pilot], low[:, ~pilot], high[:, ~pilot] = hits["points"][:, :, : rate.streams], hits["low"], hits["high"]
            total = sum(library.distances(sums))
        distance: np.ndarray = low.astype(object) + high.astype(object) * HIGH if high.any() or (low >> np.uint64(63)).any() else low.astype(np.int64)
        values = points[..., 0] + 1j * points[..., 1]
        if pilot.any():
            known = self._pilots(frame)
            shape = len(frame.samples), int(np.count_nonzero(pilot))
            values[:, pilot] = known.points.reshape(*shape, rate.streams)
            distance = distance.astype(np.result_type(distance, known.distance), copy=False)
            distance[:, pilot] = known.distance.reshape(shape)
        symbol, carrier = places(frame)
        return Heard(number, symbol, carrier, distance.reshape(-1), values.reshape(-1, rate.streams), labels, total)

    def _pilots(self, frame: CaptureFrame) -> Jobs:
        """What the library's text says of a frame's pilots, the data subcarriers being taken as erased."""
        pilots = CaptureFrame(frame.rate, frame.length, frame.triangles, frame.samples, frame.erased | ~frame.rate.is_pilot)
        (jobs,) = read_answers(library.detect(_octets(pilots)))
        assert isinstance(jobs, Jobs)
        return jobs

    def answer(self, frame: CaptureFrame, jobs: Heard) -> FrameAnswer:
        """The line of a frame, as that of ``radio rx``, from the answers to its jobs."""
        pilots = sum(jobs.distance[frame.rate.is_pilot[jobs.carrier]].tolist())
        found = self.octets(frame, jobs)
        if found is None:  # of a frame without a seed the call says nothing else
            (answer,) = read_answers(library.rx(_octets(frame)))
            assert isinstance(answer, FrameAnswer)
            return replace(answer, frame=jobs.frame)
        return FrameAnswer(jobs.frame, jobs.data, pilots, found[1], found[0])

    def octets(self, frame: CaptureFrame, jobs: Jobs) -> Optional[Tuple[bytes, int]]:
        """The octets of a frame whose points are these, and at how many places its coded bits differ; None where there is no seed."""
        labels = jobs.labels if isinstance(jobs, Heard) else _labels(frame, jobs)
        erased = sum(1 << int(place) for place in np.flatnonzero(frame.erased))
        try:
            return library.decode_frame(frame.rate, labels, frame.length, erased)
        except library.NoSeed:
            return None

    def soft(self, number: int, frame: CaptureFrame) -> SoftAnswer:
        """The line of a frame, as that of ``radio soft``."""
        (answer,) = read_answers(library.soft(_octets(frame)))
        assert isinstance(answer, SoftAnswer)
        return replace(answer, frame=number)

    def sent(self, frame: SentFrame) -> SymbolsFrame:
        """The symbols of a frame, as those of ``radio tx``."""
        points = library.transmit(frame.rate, frame.seed, frame.octets)
        return SymbolsFrame(frame.rate, len(frame.octets), points[..., 0] + 1j * points[..., 1])


class Called:
    """What the library says of the frames of a capture, one after the other, with a bar.

    Parameters
    ----------
    library : Inside
    capture : path, bytes or binary stream that can be read again
        Its number of frames is that of the bar.
    label : str
    """

    def __init__(self, library: Inside, capture: Source, label: str) -> None:
        self._library = library
        self._jobs: Optional[Heard] = None
        count = None
        with suppress(InputError), read_htcp(capture) as frames:
            count = frames.frames
        self._bar = Progress(count, label, unit=" frames")

    def jobs(self, number: int, frame: CaptureFrame) -> Heard:
        """Its answers to the jobs of a frame."""
        self._bar.add(number - self._bar.done)
        self._jobs = self._library.jobs(number, frame)
        return self._jobs

    def frame(self, number: int, frame: CaptureFrame) -> FrameAnswer:
        """Its line of a frame."""
        if self._jobs is None or self._jobs.frame != number:
            self.jobs(number, frame)
        assert self._jobs is not None
        return self._library.answer(frame, self._jobs)

    def close(self) -> None:
        """Take the bar away."""
        self._bar.close()


class SoftTexts:
    """An iterator over what the library says of the frames of a capture by soft decisions, with ``last`` as `Answers` has it."""

    def __init__(self, receiver: Inside, capture: Source) -> None:
        self.last: Optional[Refused] = None
        self._answers = self._read(receiver, capture)

    def __iter__(self) -> Iterator[SoftAnswer]:
        return self._answers

    def _read(self, receiver: Inside, capture: Source) -> Iterator[SoftAnswer]:
        try:
            for number, frame in enumerate(read_htcp(capture)):
                yield receiver.soft(number, frame)
        except FormatError as error:
            self.last = Refused(error.kind, error.offset)


def unheeded(program: Optional[str]) -> str:
    """What is to be said where MIZGAURE_LIBRARY names a library, no program is named, and there is no such library; empty otherwise."""
    return f"{missing}; the program is run" if missing and os.environ.get("MIZGAURE_LIBRARY") and program is None else ""


def receiver(program: Optional[str] = None, progress: Optional[bool] = None) -> Union[Inside, Radio]:
    """The library, unless a program is named or there is none, and else the program.

    Raises
    ------
    ProgramError
        If there is neither.
    """
    return Inside() if library is not None and program is None else Radio(program, progress)


def detected(rate: Rate, triangles: np.ndarray, samples: np.ndarray) -> library.Detected:
    """What was found for data subcarriers, its hits of shape (symbols, subcarriers).

    Parameters
    ----------
    rate : Rate
    triangles : ndarray of complex128, shape (subcarriers, streams, streams)
    samples : ndarray of complex128, shape (symbols, subcarriers, streams)
    """
    streams, count = rate.streams, len(triangles)
    channels, received = np.zeros(count, library.CHANNEL), np.zeros((len(samples), count, 4, 2), np.int32)
    rows, columns = np.triu_indices(streams, 1)
    above = triangles[:, rows, columns]
    channels["diagonal"][:, :streams] = np.einsum("cii->ci", triangles).real
    channels["above"]["re"][:, : rows.size], channels["above"]["im"][:, : rows.size] = above.real, above.imag
    received[:, :, :streams, 0], received[:, :, :streams, 1] = samples.real, samples.imag
    return library.detect_symbols(rate, channels, received)


def _labels(frame: CaptureFrame, jobs: Jobs) -> np.ndarray:
    """The labels of points, (symbols, data subcarriers, streams), 0 where a subcarrier is erased."""
    rate, data = frame.rate, ~frame.rate.is_pilot
    labels = np.zeros((*frame.samples.shape[:2], rate.streams), np.uint8)
    heard = data[jobs.carrier] & ~frame.erased[jobs.carrier]
    points = np.stack((jobs.points[heard].real, jobs.points[heard].imag), axis=-1).astype(np.int8)
    labels[jobs.symbol[heard], jobs.carrier[heard]] = library.labels(rate.bits_per_point, points)
    return np.ascontiguousarray(labels[:, data])


def _octets(frame: CaptureFrame) -> bytes:
    made = io.BytesIO()
    write_htcp(made, [frame])
    return made.getvalue()
