"""The form in which a packet of the HT PHY is sent: its rate, its guard interval, its space-time streams, and its preamble."""

from __future__ import annotations

from dataclasses import dataclass

import numpy as np

from ..rates import Rate
from .spectra import FRONT
from .standard import LONG_GUARD, SHORT_GUARD, SYMBOL, TRAINING_FIELDS, TRANSFORM

LONG_SYMBOLS = 2 * TRANSFORM  # samples at 20 MHz of the two symbols of the first long training
MIXED_TRAINING = LONG_SYMBOLS + 4 * SYMBOL  # from the first long symbol's beginning to the HT-LTFs behind L-SIG, HT-SIG and HT-STF
GREENFIELD_TRAINING = LONG_SYMBOLS + 2 * SYMBOL  # and to those behind HT-SIG


@dataclass(frozen=True)
class Form:
    """The form of a packet.

    Parameters
    ----------
    rate : Rate
    short_guard : bool
        Whether data symbols have the guard interval of 400 ns, and not that of 800 ns.
    stbc : int
        By how many there are more space-time streams than spatial streams, 0 to 2 (clause 20.3.11.9.2).
    greenfield : bool
        Whether the packet is in HT-greenfield format, and not in HT-mixed format (clause 20.3.2).
    """

    rate: Rate
    short_guard: bool = False
    stbc: int = 0
    greenfield: bool = False

    @property
    def streams(self) -> int:
        """The number of space-time streams N_STS, 1 to 4."""
        return self.rate.streams + self.stbc

    @property
    def fields(self) -> int:
        """The number of HT-LTFs (table 20-13)."""
        return TRAINING_FIELDS[self.streams - 1]

    @property
    def guard(self) -> int:
        """The guard interval of data symbols, in samples at 20 MHz."""
        return SHORT_GUARD if self.short_guard else LONG_GUARD

    @property
    def first_polarity(self) -> int:
        """z of clause 20.3.11.10: which of the pilots' polarities is that of the first data symbol."""
        return 2 if self.greenfield else 3

    @property
    def training(self) -> np.ndarray:
        """Where the HT-LTFs' symbols begin behind their guard intervals: int64, in samples at 20 MHz from the first long symbol on.

        In greenfield format the first long training is HT-LTF1, with two symbols; all other HT-LTFs have one.
        """
        if self.greenfield:
            return np.append((0, TRANSFORM), GREENFIELD_TRAINING + LONG_GUARD + SYMBOL * np.arange(self.fields - 1)).astype(np.int64)
        return MIXED_TRAINING + LONG_GUARD + SYMBOL * np.arange(self.fields)

    @property
    def middle(self) -> float:
        """The HT-LTFs' middle, in samples at 20 MHz from the first long symbol on."""
        if self.greenfield:
            return float(np.mean((TRANSFORM - LONG_GUARD, *(GREENFIELD_TRAINING + SYMBOL * (n + 0.5) for n in range(self.fields - 1)))))
        return MIXED_TRAINING + SYMBOL * self.fields / 2

    @property
    def data(self) -> int:
        """Where data symbols begin, in samples at 20 MHz from the first long symbol on."""
        return (GREENFIELD_TRAINING - SYMBOL if self.greenfield else MIXED_TRAINING) + SYMBOL * self.fields

    def symbols(self, length: int) -> int:
        """The number of data symbols of so many octets, which with STBC is even (clause 20.3.11)."""
        symbols = self.rate.symbols(length)
        return symbols + symbols % 2 if self.stbc else symbols

    def duration(self, length: int) -> float:
        """How long a packet of so many octets lasts to the end of its last symbol, in microseconds."""
        return (FRONT + self.data + self.symbols(length) * (TRANSFORM + self.guard)) / 20
