"""Recordings at other rates, and bands beside the middle: the samples as if they had been recorded at 20 or 40 million a second.

Samples are turned by a shift of frequency, and are then resampled in tiles, each by a transform of what it has and of some samples
on both sides, of which the band of the new rate is kept and transformed back. Tiles stand at fixed places, so a sample is the same
in whatever piece it is read.
"""

from __future__ import annotations

import math
from fractions import Fraction
from typing import Optional, Tuple

import numpy as np

from ..errors import InputError
from .samples import ENDLESS, Layout, Recording

RATES = (20e6, 40e6)
NOMINAL = 1e-4  # how far a rate may be off one of these, as a share, to be taken as it
FINEST = 100000  # the largest denominator of a ratio of rates
EDGE = 1.1e6  # Hz over which the filter falls up to half the rate
TILE, MARGIN = 1 << 13, 12.8e-6  # samples of a tile with those on both sides, and seconds of these
ROWS = 8  # rows of tiles that are transformed at once, which takes a third of the time of one by one
TURNS = 1024  # samples whose turns are computed at once
BAND = 17.8e6  # what a packet of 20 MHz fills


def nominal(rate: float) -> Optional[float]:
    """20 or 40 million where a rate is that."""
    return next((known for known in RATES if abs(rate - known) <= NOMINAL * known), None)


def goal_of(recording: Recording) -> float:
    """The rate at which a recording is received: 40 million samples a second where it has as many, and 20 otherwise.

    Raises
    ------
    InputError
        If it has fewer than 20 million.
    """
    rate = recording.layout.rate
    if rate < RATES[0] * (1 - NOMINAL):
        raise InputError(f"{recording.name} has {rate:.10g} samples a second, and at least 20 million are asked for")
    return RATES[1] if rate >= RATES[1] * (1 - NOMINAL) else RATES[0]


class Tiles:
    """A resampler in tiles of a fixed size at fixed places, whose filter passes up to `EDGE` below half the new rate.

    Parameters
    ----------
    ratio : Fraction
        The new rate beside the old one.
    goal : float
        The new rate.
    """

    def __init__(self, ratio: Fraction, goal: float) -> None:
        up, down = ratio.numerator, ratio.denominator
        # All in periods of samples that both rates have, in all a power of 2, which makes transforms fast.
        margin = -(-round(MARGIN * goal) // up)
        periods = (1 << (max(TILE // up, 4 * margin) - 1).bit_length()) - 2 * margin
        self.size, self.step = periods * up, periods * down  # of a tile, and of the source for it
        self.front, self.margin = margin * up, margin * down  # what is as much in front of it as behind it
        self.length = self.step + 2 * self.margin
        made = self.size + 2 * self.front
        fall = (goal / 2 - np.abs(np.fft.fftfreq(made, 1 / goal))) / EDGE
        passed = (made / self.length * np.sin(np.pi / 2 * np.clip(fall, 0, 1)) ** 2).astype(np.float32)
        self.response = np.repeat(passed, 2)  # for each part of complex numbers

    def between(self, first: int, stop: int) -> Tuple[int, int]:
        """The tiles that have the samples from ``first`` up to ``stop``: the first one and the one behind them."""
        return first // self.size, -(-max(stop, first + 1) // self.size)

    def sources(self, begin: int, end: int) -> Tuple[int, int]:
        """The samples of the source on which tiles depend, the former maybe below 0."""
        return begin * self.step - self.margin, end * self.step + self.margin

    def made_of(self, samples: np.ndarray, count: int) -> np.ndarray:
        """So many tiles from what they depend on: complex64, shapes (antennas, instants) to (antennas, tiles, size)."""
        from scipy.fft import fft, ifft

        along, width = samples.strides
        spectra = fft(np.ndarray((len(samples), count, self.length), samples.dtype, samples, 0, (along, self.step * width, width)))
        half = self.response.size // 4
        inside = np.empty((*spectra.shape[:-1], 2 * half), np.complex64)
        parts, there = inside.view(np.float32), spectra.view(np.float32)
        np.multiply(there[..., : 2 * half], self.response[: 2 * half], out=parts[..., : 2 * half])
        np.multiply(there[..., -2 * half :], self.response[2 * half :], out=parts[..., 2 * half :])
        return ifft(inside, overwrite_x=True)[..., self.front : self.front + self.size]


class Resampled(Recording):
    """A recording at 20 or 40 million samples a second, whose middle is another frequency.

    Parameters
    ----------
    source : Recording
        Of at least that rate; it is closed with this.
    shift : float
        Where the new middle is, in Hz from the old one.

    Raises
    ------
    InputError
        If the rate is below 20 million, or the shift puts a packet's band beyond what was recorded.
    """

    def __init__(self, source: Recording, shift: float = 0.0) -> None:
        rate, goal = source.layout.rate, goal_of(source)
        if abs(shift) > (rate - BAND) / 2:
            raise InputError(f"{source.name}: a shift of {shift / 1e6:g} MHz leaves the {rate / 1e6:g} MHz that were recorded")
        layout = Layout(source.layout.datatype, goal, source.layout.channels)
        super().__init__(source.name, None, layout, segments=source.segments)
        self.source, self.shift, self.remarks = source, shift, source.remarks
        self._ratio = Fraction(1) if nominal(rate) else Fraction(goal / rate).limit_denominator(FINEST)
        self._tiles = None if self._ratio == 1 else Tiles(self._ratio, goal)
        self._turns = shift / rate  # for each sample of the source
        self._fine = _phasors(np.arange(TURNS) * self._turns)

    @property
    def length(self) -> int:
        """The number of instants at the new rate."""
        there = self.source.length
        return there if there == ENDLESS else int(there * self._ratio)

    @property
    def rest(self) -> int:
        """The source's."""
        return self.source.rest

    @property
    def earliest(self) -> int:
        """The source's, at the new rate."""
        return -int(-self.source.earliest * self._ratio // 1)

    def source_sample(self, sample: float) -> int:
        """The source's instant at which an instant is, or the last one before it."""
        return int(sample / self._ratio)

    @property
    def frequency(self) -> Optional[float]:
        """The new middle's at the beginning."""
        return self.frequency_at(0)

    def frequency_at(self, sample: int) -> Optional[float]:
        """The new middle's."""
        there = self.source.frequency_at(self.source_sample(sample))
        return None if there is None else there + self.shift

    def time_of(self, sample: int) -> int:
        """As of the source."""
        return self.source.time_of(self.source_sample(sample))

    def place_of(self, sample: int) -> Tuple[int, float]:
        """As of the source."""
        return self.source.place_of(self.source_sample(sample))

    def instant_at(self, seconds: float) -> int:
        """As of the source, at the new rate."""
        return math.floor(self.source.instant_at(seconds) * self._ratio)

    def pass_over(self, first: int) -> None:
        """As of the source, but for what the first tile depends on."""
        low = first if self._tiles is None else self._tiles.sources(first // self._tiles.size, 0)[0]
        self.source.pass_over(max(0, low))

    def read(self, first: int, count: int) -> np.ndarray:
        """As of the source."""
        made = super().read(first, count)
        self.not_finite, self.ever_not_finite = self._spoiled, self.source.ever_not_finite
        return made

    def _may_be_infinite(self) -> bool:
        return False

    def _samples(self, first: int, count: int) -> np.ndarray:
        if self._tiles is None:
            return self._turned(first, count)
        tiles, antennas = self._tiles, self.layout.channels
        begin, end = tiles.between(first, first + count)
        made = np.empty((antennas, end - begin, tiles.size), np.complex64)
        together, spoiled = max(1, ROWS // antennas), False
        for number in range(begin, end, together):
            stop = min(end, number + together)
            low, high = tiles.sources(number, stop)
            there = self._turned(max(0, low), high - max(0, low))
            samples = there
            if there.shape[1] < high - low:
                samples = np.zeros((antennas, high - low), np.complex64)
                samples[:, max(0, -low) : max(0, -low) + there.shape[1]] = there
            made[:, number - begin : stop - begin] = tiles.made_of(np.ascontiguousarray(samples), stop - number)
            if self._spoiled:
                spoiled = True
                gone = self._places(np.flatnonzero((there == 0).any(axis=0)) + max(0, low), number * tiles.size, stop * tiles.size)
                made[:, number - begin : stop - begin].reshape(antennas, -1)[:, gone] = 0
        self._spoiled = spoiled
        if self.length != ENDLESS:
            count = max(0, min(count, self.length - first))
        front = first - begin * tiles.size
        return made.reshape(antennas, -1)[:, front : front + count].copy()

    def _places(self, instants: np.ndarray, begin: int, end: int) -> np.ndarray:
        """The instants on both sides of some of the source, from ``begin`` up to ``end``, from which on they are counted."""
        places = instants * self._ratio.numerator // self._ratio.denominator
        both = np.concatenate((places, places + 1))
        return np.unique(both[(both >= begin) & (both < end)]) - begin

    def _turned(self, first: int, count: int) -> np.ndarray:
        """Samples of the source with the new middle; where parts of the source aren't finite, 0."""
        samples = self.source.read(first, count)
        self._spoiled = self.source.not_finite
        if self._spoiled:
            samples[:, ((samples.real == 0) | (samples.imag == 0)).any(axis=0)] = 0
        if self.shift:
            begin = first // TURNS
            blocks = np.arange(begin, -(-(first + samples.shape[1]) // TURNS)) * TURNS
            turns = np.outer(_phasors(np.mod(blocks * self._turns, 1.0)), self._fine).reshape(-1)
            samples *= turns[first - begin * TURNS :][: samples.shape[1]]
        return samples

    def close(self) -> None:
        """Close the source."""
        self.source.close()


def _phasors(turns: np.ndarray) -> np.ndarray:
    """What takes so many turns back: complex64."""
    return np.exp(-2j * np.pi * turns).astype(np.complex64)


def fitted(recording: Recording, shift: float = 0.0) -> Recording:
    """A recording that the front end can read: itself, or resampled.

    Raises
    ------
    InputError
        As `Resampled`.
    """
    if shift == 0 and nominal(recording.layout.rate):
        return recording
    return Resampled(recording, shift)


def channel_frequency(number: int, carrier: float) -> float:
    """The middle of a channel of 20 MHz, in Hz: of the band of 2.4 GHz or of that of 5 GHz, as the carrier's is.

    Parameters
    ----------
    number : int
        1 to 14 in the one, and 1 to 200 in the other (clause 20.3.15).
    carrier : float
        In Hz.

    Raises
    ------
    InputError
    """
    if carrier < 3e9:
        if not 1 <= number <= 14:
            raise InputError(f"the band of 2.4 GHz has the channels 1 to 14, and no channel {number}")
        return 2484e6 if number == 14 else 2407e6 + 5e6 * number
    if not 1 <= number <= 200:
        raise InputError(f"the band of 5 GHz has the channels 1 to 200, and no channel {number}")
    return 5000e6 + 5e6 * number
