"""Frames of clause 18 (IEEE Std 802.11-2012): their eight rates, and their files LGTX and LGCP, read exactly.

``docs/LEGACY.md`` of the repository has the rates and the fields. Readers are as those of `mizgaure.formats`.
"""

from __future__ import annotations

from dataclasses import dataclass
from fractions import Fraction

import numpy as np

from .files import Source
from .formats import FrameReader
from .rates import Rate

MEGABITS = (6, 9, 12, 18, 24, 36, 48, 54)
CONSTELLATIONS = (0, 0, 1, 1, 3, 3, 5, 5)  # the MCS of one stream with the same constellation
CODING_RATES = tuple(Fraction(*pair) for pair in ((1, 2), (3, 4), (1, 2), (3, 4), (1, 2), (3, 4), (2, 3), (3, 4)))
FREQUENCIES = np.concatenate((np.arange(-26, 0), np.arange(1, 27)))
IS_PILOT = np.isin(FREQUENCIES, (-21, -7, 7, 21))
LONGEST = 4095


@dataclass(frozen=True)
class LegacyRate:
    """One of the eight rates of clause 18 (table 18-4), by its number, 0 to 7."""

    number: int

    @property
    def constellation(self) -> Rate:
        """An HT rate of one stream with the same constellation."""
        return Rate(20, CONSTELLATIONS[self.number])

    @property
    def coding_rate(self) -> Fraction:
        """1/2, 2/3 or 3/4."""
        return CODING_RATES[self.number]

    @property
    def coded_bits(self) -> int:
        """The number of coded bits in a symbol, N_CBPS."""
        return 48 * self.constellation.bits_per_point

    @property
    def data_bits(self) -> int:
        """The number of data bits in a symbol, N_DBPS."""
        return int(self.coded_bits * self.coding_rate)

    def symbols(self, length: int) -> int:
        """The number of symbols of a PSDU of so many octets."""
        return -(-(16 + 8 * length + 6) // self.data_bits)

    def __str__(self) -> str:
        return f"{MEGABITS[self.number]} Mbit/s ({self.constellation.modulation} {self.coding_rate})"


@dataclass(eq=False)
class LegacySent:
    """A frame of a file of clause 18 frames (LGTX): its rate, the octets of its PSDU, and the scrambler's seed."""

    rate: LegacyRate
    octets: bytes
    seed: int


@dataclass(eq=False)
class LegacyCaptured:
    """A frame of a capture of clause 18 (LGCP).

    Parameters
    ----------
    rate : LegacyRate
    length : int
        The number of octets of the PSDU, 1 to 4095.
    diagonal : ndarray of uint16, shape (52,)
    samples : ndarray of int32, shape (symbols, 52, 2)
    """

    rate: LegacyRate
    length: int
    diagonal: np.ndarray
    samples: np.ndarray


class _LegacyReader(FrameReader):
    def _front(self) -> tuple[LegacyRate, int]:
        rate = LegacyRate(self._fields.number(1, "BadMcs", range(8)))
        return rate, self._fields.number(2, "BadLength", range(1, LONGEST + 1))


class _SentReader(_LegacyReader):
    magic = b"LGTX"

    def _frame(self) -> LegacySent:
        rate, length = self._front()
        seed = self._fields.number(1, "BadSeed", range(1, 128))
        return LegacySent(rate, self._fields.octets(length), seed)


class _CaptureReader(_LegacyReader):
    magic = b"LGCP"

    def _frame(self) -> LegacyCaptured:
        rate, length = self._front()
        diagonal = np.frombuffer(self._fields.octets(2 * FREQUENCIES.size), ">u2").astype(np.uint16)
        parts = np.frombuffer(self._fields.octets(8 * FREQUENCIES.size * rate.symbols(length)), ">i4")
        return LegacyCaptured(rate, length, diagonal, parts.astype(np.int32).reshape(-1, FREQUENCIES.size, 2))


def read_lgtx(source: Source) -> _SentReader:
    """Read a file of clause 18 frames (LGTX): an iterator of `LegacySent`."""
    return _SentReader(source)


def read_lgcp(source: Source) -> _CaptureReader:
    """Read a capture of clause 18 frames (LGCP): an iterator of `LegacyCaptured`."""
    return _CaptureReader(source)
