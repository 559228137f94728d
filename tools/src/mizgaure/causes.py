"""What explains most of what is wrong with another receiver's answers, where a cheap look tells it.

Each look is a way to make its answers of the reference's. A cause is said where nearly all answers, and nearly all of the
wrong ones among them, are what it makes; a receiver that is wrong in another way gives few such answers by chance.
"""

from __future__ import annotations

from collections import Counter
from itertools import permutations
from typing import Collection, Iterator, List, Optional, Tuple

import numpy as np

from .answers import Jobs
from .distances import distances
from .formats import CaptureFrame

LEAST, SHARE = 8, 0.85  # wrong answers from which on a cause is looked for, and how many of them it has to explain
MOST_FRAMES, MOST_JOBS = 64, 50  # that are looked at, and of each frame by their distances

SWAPPED, CONJUGATE = "I and Q of the answers are swapped", "Q of the answers has the other sign"
FFT_ORDER = "subcarriers are counted in the order of the FFT, from the middle up and then from the lowest one"
CONJUGATE_CHANNEL = "the answers are nearest for the conjugate channel"
FROM_ONE, REVERSED = "frames seem to be numbered from 1", "the bits of each octet are reversed"


class Looks:
    """What is seen of answers to jobs and of octets, frame by frame."""

    def __init__(self) -> None:
        self._frames = self._jobs = self._wrong = self._compared = 0
        self._alike: Counter = Counter()  # all answers and the wrong ones that each cause explains
        self._alike_wrong: Counter = Counter()
        self._octets: Counter = Counter()

    def at_jobs(self, frame: CaptureFrame, reference: Jobs, symbol: np.ndarray, carrier: np.ndarray, points: np.ndarray, wrong: np.ndarray) -> None:
        """Look at the answers to jobs of a frame.

        Parameters
        ----------
        frame : CaptureFrame
        reference : Jobs
        symbol, carrier : ndarray of int, shape (jobs,)
        points : ndarray of complex, shape (jobs, streams)
        wrong : ndarray of bool, shape (jobs,)
            Which of them are worse or outside their grids.
        """
        if self._frames == MOST_FRAMES or not wrong.any():
            return
        self._frames += 1
        self._jobs += wrong.size
        self._wrong += int(np.count_nonzero(wrong))
        nearest = np.zeros(frame.samples.shape, complex)
        nearest[reference.symbol, reference.carrier] = reference.points
        for cause, made in _made(nearest):
            alike = (made[symbol, carrier] == points).all(axis=1)
            self._alike[cause] += int(np.count_nonzero(alike))
            self._alike_wrong[cause] += int(np.count_nonzero(alike & wrong))
        if frame.rate.streams > 1:
            self._at_distances(frame, nearest, symbol, carrier, points, np.flatnonzero(wrong & ~frame.rate.is_pilot[carrier])[:MOST_JOBS])

    def _at_distances(self, frame: CaptureFrame, nearest: np.ndarray, symbol: np.ndarray, carrier: np.ndarray, points: np.ndarray,
                      which: np.ndarray) -> None:
        """Whether no vector that differs in one stream, nor the reference's, is nearer for the conjugate channel."""
        place = symbol[which], carrier[which]
        turned = CaptureFrame(frame.rate, frame.length, frame.triangles.conj(), frame.samples, frame.erased)
        good = np.isin(points[which], frame.rate.points).all(axis=1)
        reached = distances(turned, *place, points[which])
        good &= reached < distances(turned, *place, nearest[place])
        for stream in range(frame.rate.streams):
            for point in frame.rate.points:
                other = points[which].copy()
                other[:, stream] = point
                good &= reached <= distances(turned, *place, other)
        self._compared += which.size
        self._alike_wrong[CONJUGATE_CHANNEL] += int(np.count_nonzero(good))

    def at_octets(self, octets: Optional[bytes], nearest: Optional[bytes]) -> None:
        """Look at the wrong octets of a frame beside the reference's."""
        self._octets["wrong"] += 1
        if octets is not None and nearest is not None:
            self._octets[REVERSED] += bytes(int(f"{octet:08b}"[::-1], 2) for octet in octets) == nearest

    def found(self, frames: int, answered: Collection[int], beyond: Collection[int]) -> List[str]:
        """The causes that explain most of what is wrong.

        Parameters
        ----------
        frames : int
            Of the capture.
        answered, beyond : collection of int
            The frames that have an answer, and those that have one and aren't in the capture.
        """
        causes = []
        if set(beyond) == {frames} and 0 not in answered:
            causes.append(FROM_ONE)
        if self._wrong >= LEAST:
            causes += [cause for cause, count in self._alike.items()
                       if count >= SHARE * self._jobs and self._alike_wrong[cause] >= SHARE * self._wrong]
        if not causes and self._compared >= LEAST and self._alike_wrong[CONJUGATE_CHANNEL] >= SHARE * self._compared:
            causes.append(CONJUGATE_CHANNEL)
        if self._octets[REVERSED] and self._octets[REVERSED] >= SHARE * self._octets["wrong"]:
            causes.append(REVERSED)
        return causes


def _made(nearest: np.ndarray) -> Iterator[Tuple[str, np.ndarray]]:
    """What each cause makes of the reference's vectors, shape (symbols, subcarriers, streams)."""
    yield SWAPPED, nearest.imag + 1j * nearest.real
    yield CONJUGATE, nearest.conj()
    yield FFT_ORDER, np.roll(nearest, nearest.shape[1] // 2, axis=1)
    straight = tuple(range(nearest.shape[2]))
    for order in permutations(straight):
        if order != straight:
            yield f"the streams stand in the order {' '.join(str(stream + 1) for stream in order)}", nearest[:, :, list(order)]
