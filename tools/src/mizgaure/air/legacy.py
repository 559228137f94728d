"""Packets of clause 18: their data symbols behind L-SIG, and a capture of them (LGCP).

One stream at 20 MHz goes to all antennas, and in a duplicate of 40 MHz through both halves. They are weighed by their noise and
combined by the channel of the long training, so that a subcarrier has one positive number d and one value for each symbol.
"""

from __future__ import annotations

import struct
import tempfile
from dataclasses import dataclass
from typing import Callable, Optional

import numpy as np

from ..errors import InputError
from ..files import Target, writing
from ..formats import MOST_FRAMES
from ..rates import Rate, polarity
from .headers import LEGACY_BEGIN, NUMBERS
from .signal import LEGACY_RATES, LegacySignal
from .standard import LONG_GUARD, SIGNAL_PILOTS, SYMBOL, TRANSFORM
from .track import drift_of, phases_of, shifts_of, smoothed

RATES = tuple(sorted(LEGACY_RATES.values()))  # Mbit/s, by their number in LGCP
SCHEMES = (0, 0, 1, 1, 3, 3, 5, 5)  # the MCS of one stream with the same constellation
USED = np.flatnonzero(NUMBERS)  # where the 52 subcarriers stand among -26 to 26
PILOT_PLACES = np.searchsorted(NUMBERS[USED], sorted(SIGNAL_PILOTS))  # of the four pilots among the 52
SIGNS = np.array([SIGNAL_PILOTS[number] for number in sorted(SIGNAL_PILOTS)])
DELAYS = (-6, 24)  # samples at 20 MHz from a window's beginning to the first and the last tap of a channel
MAGIC_LGCP = b"LGCP\1"
MOST_DIAGONAL, MOST_PART = 65535, 2**31 - 1


@dataclass(eq=False)
class LegacyFrame:
    """A packet of clause 18 as it was received.

    Parameters
    ----------
    signal : LegacySignal
        Of at least 1 octet.
    channel : ndarray of float64, shape (52,)
        The diagonal of each subcarrier, at least 0, by ascending frequency.
    received : ndarray of complex128, shape (symbols, 52)
        Turned by the same angles.
    """

    signal: LegacySignal
    channel: np.ndarray
    received: np.ndarray

    @property
    def rate(self) -> int:
        """The number of its rate, 0 to 7."""
        return RATES.index(self.signal.rate)

    @property
    def constellation(self) -> Rate:
        """An HT rate with the same constellation."""
        return Rate(20, SCHEMES[self.rate])

    @property
    def factors(self) -> np.ndarray:
        """K_MOD of the data subcarriers, and 1 of the pilots (clause 18.3.5.8)."""
        made = np.full(USED.size, self.constellation.normalising_factor)
        made[PILOT_PLACES] = 1
        return made

    def octets(self) -> bytes:
        """It as it stands in a capture, with the largest gain at which each number fits its field."""
        diagonal, largest = self.channel * self.factors, np.abs(self.received.view(float)).max()
        gain = min(MOST_DIAGONAL / max(float(diagonal.max()), 1e-300), MOST_PART / max(float(largest), 1e-300))
        parts = np.rint(gain * np.ascontiguousarray(self.received).view(float)).astype(">i4")
        return struct.pack(">BH", self.rate, self.signal.length) + np.rint(gain * diagonal).astype(">u2").tobytes() + parts.tobytes()

    @property
    def evm(self) -> float:
        """The relative constellation error of its data values against the nearest points (clause 18.3.9.7.4)."""
        data = np.ones(USED.size, bool)
        data[PILOT_PLACES] = False
        data &= self.channel > 0
        values = self.received[:, data] / (self.channel * self.factors)[data]
        points = self.constellation.points
        levels = np.unique(points.real), np.unique(points.imag)
        nearest = [level[np.abs(part[..., None] - level).argmin(axis=-1)] for level, part in zip(levels, (values.real, values.imag))]
        error = np.abs(values - nearest[0] - 1j * nearest[1]) ** 2
        return float(np.sqrt(error.mean() / self.constellation.power)) if error.size else float("nan")


def pilots(symbols: int) -> np.ndarray:
    """The pilots of data symbols, by ascending frequency (clause 18.3.5.9): float64, shape (symbols, 4)."""
    return polarity()[(np.arange(symbols) + 1) % 127][:, None] * SIGNS


def receive_legacy(signal: LegacySignal, channel: np.ndarray, heard: Callable[[np.ndarray, np.ndarray], Optional[np.ndarray]], early: int,
                   over: int = 1) -> Optional[LegacyFrame]:
    """Receive the data symbols of a packet.

    Parameters
    ----------
    signal : LegacySignal
    channel : ndarray of complex128, shape (links, 52)
        Of the long training, scaled so that noise on a symbol has mean power 1. Links are antennas, of each part of 20 MHz.
    heard : callable
        What links hear, in the same scale: it gets where windows begin, in samples behind the beginning of the first long symbol,
        and by how many samples they were moved, and gives an array of the shape (windows, links, 52), or None where one isn't whole.
    early : int
        How many samples behind a symbol's guard interval the windows began through which the channel was seen.
    over : int
        The oversampling: 1 for 20 million samples a second, 2 for 40 million.

    Returns
    -------
    LegacyFrame or None
        None where a symbol isn't there whole.
    """
    length, numbers = TRANSFORM * over, NUMBERS[USED]
    channel = smoothed(channel, numbers, np.full(USED.size, 0.5), np.arange(DELAYS[0] * over, DELAYS[1] * over + 1), length)
    begins = (LEGACY_BEGIN + SYMBOL + LONG_GUARD + SYMBOL * np.arange(signal.symbols)) * over + early
    times = begins - TRANSFORM // 2 * over  # from the long training's middle

    def combined(shifts: np.ndarray) -> Optional[np.ndarray]:
        """The links against the channel, in windows that are moved by so many samples: (symbols, 52)."""
        vectors = heard(begins + shifts, shifts)
        return None if vectors is None else np.einsum("lk,nlk->nk", channel.conj(), vectors)

    values = combined(np.zeros(len(begins), np.int64))
    if values is None:
        return None
    expected = pilots(signal.symbols)
    drift = drift_of(values[:, PILOT_PLACES] * expected, numbers[PILOT_PLACES], times, length)
    shifts, late = shifts_of(drift, times, 0.0)
    moved = combined(shifts) if shifts.any() else values
    if moved is None:
        moved, late = values, late - shifts
    moved = moved * np.exp(-2j * np.pi * np.outer(late, numbers) / length)
    moved *= np.exp(-1j * phases_of(moved[:, PILOT_PLACES] * expected))[:, None]
    diagonal = np.sqrt(np.sum(np.abs(channel) ** 2, axis=0))
    return LegacyFrame(signal, diagonal, moved / np.maximum(diagonal, 1e-300))


class LegacySpool:
    """A capture of clause 18 on its way, whose number of frames isn't known yet."""

    def __init__(self) -> None:
        self._file = tempfile.SpooledTemporaryFile(1 << 22)
        self.frames = self.size = 0

    def add(self, frame: LegacyFrame) -> Optional[int]:
        """Take a frame; its number, or None where the capture is full."""
        if self.frames == MOST_FRAMES:
            return None
        try:
            self.size += self._file.write(frame.octets())
        except OSError as error:
            raise InputError(f"the folder of temporary files, {tempfile.gettempdir()}, can't be written: {error.strerror}") from error
        self.frames += 1
        return self.frames - 1

    def write(self, target: Target, force: bool = False) -> None:
        """Write the capture."""
        with writing(target, force) as stream:
            stream.write(MAGIC_LGCP + self.frames.to_bytes(2, "big"))
            self._file.seek(0)
            while piece := self._file.read(1 << 20):
                stream.write(piece)

    def close(self) -> None:
        """Give its file back."""
        self._file.close()

    def __enter__(self) -> "LegacySpool":
        return self

    def __exit__(self, *_: object) -> None:
        self.close()

