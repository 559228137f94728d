"""The 64 rates of the HT PHY, their subcarriers and their constellations.

IEEE Std 802.11-2012, clause 20.6 (parameters of the MCS), clause 20.3.11.9 with clause 18.3.5.8 (constellations) and
clause 20.3.11.10 (pilots). As in the whole project, the pattern of the pilots' signs over streams is its own.
"""

from __future__ import annotations

from dataclasses import dataclass
from fractions import Fraction
from functools import lru_cache

import numpy as np

from .errors import InputError, whole_number

MODULATIONS = ("BPSK", "QPSK", "QPSK", "16-QAM", "16-QAM", "64-QAM", "64-QAM", "64-QAM")
CODING_RATES = tuple(Fraction(*pair) for pair in ((1, 2), (1, 2), (3, 4), (1, 2), (3, 4), (2, 3), (3, 4), (5, 6)))
BITS_PER_POINT = (1, 2, 2, 4, 4, 6, 6, 6)
ERROR_LIMITS = (-5, -10, -13, -16, -19, -22, -25, -28)
PILOT_INDEXES = {20: (7, 21, 34, 48), 40: (5, 33, 47, 66, 80, 108)}
SUBCARRIER_SPAN = {20: (1, 28), 40: (2, 58)}
TWO_ENCODERS = frozenset((21, 22, 23, 28, 29, 30, 31))
LONGEST = 65535
MIDDLE = 112  # the place of 0 in a table of labels

# The levels of one axis by its label, the label's bits read as a number with the first bit as the most significant.
AXIS_LEVELS = {1: (-1, 1), 2: (-3, -1, 3, 1), 3: (-7, -5, -1, -3, 7, 5, 1, 3)}


@dataclass(frozen=True)
class Rate:
    """One of the 64 rates: a bandwidth and an MCS (clause 20.6).

    Parameters
    ----------
    bandwidth : int
        20 or 40, in MHz.
    mcs : int
        The modulation and coding scheme, 0 to 31.

    Raises
    ------
    InputError
        If there is no such rate.
    """

    bandwidth: int
    mcs: int

    def __post_init__(self) -> None:
        for name, label in (("bandwidth", "bandwidth"), ("mcs", "MCS")):
            object.__setattr__(self, name, whole_number(label, getattr(self, name)))
        if self.bandwidth not in (20, 40):
            raise InputError(f"the bandwidth is {self.bandwidth} MHz, and only 20 and 40 are known")
        if not 0 <= self.mcs <= 31:
            raise InputError(f"the MCS is {self.mcs}, and only 0 to 31 are known")

    @property
    def streams(self) -> int:
        """The number of spatial streams N_SS, 1 to 4."""
        return self.mcs // 8 + 1

    @property
    def modulation(self) -> str:
        """BPSK, QPSK, 16-QAM or 64-QAM."""
        return MODULATIONS[self.mcs % 8]

    @property
    def coding_rate(self) -> Fraction:
        """The rate of the convolutional code: 1/2, 2/3, 3/4 or 5/6."""
        return CODING_RATES[self.mcs % 8]

    @property
    def bits_per_point(self) -> int:
        """The number of bits of a label N_BPSCS: 1, 2, 4 or 6."""
        return BITS_PER_POINT[self.mcs % 8]

    @property
    def bits_per_axis(self) -> int:
        """The number of bits s of one axis, max(1, N_BPSCS / 2)."""
        return max(1, self.bits_per_point // 2)

    @property
    def highest_level(self) -> int:
        """The highest level of an axis: 1, 3 or 7."""
        return 2**self.bits_per_axis - 1

    @property
    def pilots(self) -> int:
        """The number of pilot subcarriers N_SP: 4 or 6."""
        return len(PILOT_INDEXES[self.bandwidth])

    @property
    def subcarriers(self) -> int:
        """The number of subcarriers N_ST, pilots counted: 56 or 114."""
        low, high = SUBCARRIER_SPAN[self.bandwidth]
        return 2 * (high - low + 1)

    @property
    def data_subcarriers(self) -> int:
        """The number of data subcarriers N_SD: 52 or 108."""
        return self.subcarriers - self.pilots

    @property
    def coded_bits_per_stream(self) -> int:
        """The number of coded bits in a symbol of one stream, N_CBPSS."""
        return self.data_subcarriers * self.bits_per_point

    @property
    def coded_bits(self) -> int:
        """The number of coded bits in a symbol, N_CBPS."""
        return self.streams * self.coded_bits_per_stream

    @property
    def data_bits(self) -> int:
        """The number of data bits in a symbol, N_DBPS."""
        return _data_bits(self)

    @property
    def encoders(self) -> int:
        """The number of encoders N_ES: 2 at 40 MHz for the MCS 21 to 23 and 28 to 31, and 1 otherwise."""
        return 2 if self.bandwidth == 40 and self.mcs in TWO_ENCODERS else 1

    def symbols(self, length: int) -> int:
        """The number of OFDM symbols N_SYM of a PSDU (clause 20.3.11).

        Parameters
        ----------
        length : int
            The number of its octets, 1 to 65535.
        """
        check_length(length)
        return -(-(16 + 8 * length + 6 * self.encoders) // self.data_bits)

    @property
    def is_pilot(self) -> np.ndarray:
        """Which subcarriers are pilots: bool, shape (subcarriers,)."""
        return _is_pilot(self.bandwidth)

    @property
    def frequencies(self) -> np.ndarray:
        """The numbers of the subcarriers in the standard's counting, as -28 to -1 and 1 to 28: int64, shape (subcarriers,)."""
        low, high = SUBCARRIER_SPAN[self.bandwidth]
        above = np.arange(low, high + 1)
        return np.concatenate((-above[::-1], above))

    @property
    def points(self) -> np.ndarray:
        """The constellation by label, not normalised: complex128, shape (2**N_BPSCS,), with odd parts (or ±1 in BPSK).

        Entry n is the point whose label is n, the label's first bit being its most significant (clause 20.3.11.9).
        """
        return _points(self.bits_per_point)

    @property
    def power(self) -> int:
        """The mean squared length of the points: 1, 2, 10 or 42. The normalising factor K_MOD is its inverse square root."""
        return {1: 1, 2: 2, 4: 10, 6: 42}[self.bits_per_point]

    @property
    def error_limit(self) -> int:
        """The relative constellation error that a transmitter may have, in dB (clause 20.3.20.7.3).

        Editions differ in that of 64-QAM at 5/6, -28 or -27; the stricter one is taken.
        """
        return ERROR_LIMITS[self.mcs % 8]

    @property
    def normalising_factor(self) -> float:
        """K_MOD of clause 18.3.5.8: 1, 1/sqrt(2), 1/sqrt(10) or 1/sqrt(42)."""
        return float(self.power) ** -0.5

    def pilot_signs(self, symbols: int, first: int = 0) -> np.ndarray:
        """The signs of the pilots of a number of symbols, from symbol ``first`` on: int8, shape (symbols, pilots, streams), 1 or -1."""
        n = np.arange(first, first + symbols)[:, None, None]
        k = np.arange(self.pilots)[None, :, None]
        stream = np.arange(1, self.streams + 1)[None, None, :]
        turned = (n + k + stream) % self.pilots == 0
        return np.where(turned, -1, 1).astype(np.int8) * polarity()[(n + 3) % 127]

    def __str__(self) -> str:
        streams = "1 stream" if self.streams == 1 else f"{self.streams} streams"
        return f"{self.bandwidth} MHz, MCS {self.mcs} ({self.modulation} {self.coding_rate}, {streams})"


def check_length(length: int) -> None:
    """Refuse a number of octets that no frame has.

    Raises
    ------
    InputError
        If it isn't 1 to 65535.
    """
    if not 1 <= whole_number("length", length) <= LONGEST:
        raise InputError(f"a frame has 1 to {LONGEST} octets, and not {length}")


@lru_cache(maxsize=None)
def scrambling_sequence(seed: int) -> np.ndarray:
    """One period of the scrambler's sequence (clause 18.3.5.5): uint8, shape (127,).

    Parameters
    ----------
    seed : int
        1 to 127; its bit i is the sequence at -1 - i, which is this project's numbering.
    """
    state = [seed >> i & 1 for i in range(7)]
    sequence = np.zeros(127, np.uint8)
    for t in range(127):
        bit = state[6] ^ state[3]
        state = [bit, *state[:6]]
        sequence[t] = bit
    sequence.setflags(write=False)
    return sequence


@lru_cache(maxsize=None)
def polarity() -> np.ndarray:
    """The polarity of the pilots over 127 symbols (clause 18.3.5.10): int8, shape (127,), each 1 or -1."""
    signs = 1 - 2 * scrambling_sequence(127).astype(np.int8)
    signs.setflags(write=False)
    return signs


@lru_cache(maxsize=None)
def _data_bits(rate: Rate) -> int:
    return int(rate.coded_bits * rate.coding_rate)


@lru_cache(maxsize=None)
def _is_pilot(bandwidth: int) -> np.ndarray:
    low, high = SUBCARRIER_SPAN[bandwidth]
    pilots = np.zeros(2 * (high - low + 1), bool)
    pilots[list(PILOT_INDEXES[bandwidth])] = True
    pilots.setflags(write=False)
    return pilots


@lru_cache(maxsize=None)
def _points(bits: int) -> np.ndarray:
    if bits == 1:
        points = np.array(AXIS_LEVELS[1], complex)
    else:
        levels = np.array(AXIS_LEVELS[bits // 2], float)
        points = (levels[:, None] + 1j * levels[None, :]).reshape(-1)
    points.setflags(write=False)
    return points


def labels_of(points: np.ndarray, rate: Rate) -> np.ndarray:
    """The labels of points (clause 20.3.11.9).

    Parameters
    ----------
    points : ndarray of complex, any shape
        Points, not normalised.
    rate : Rate
        Whose constellation is meant.

    Returns
    -------
    ndarray of int8, of the same shape
        The label, or -1 where the point isn't one of the constellation.
    """
    points = np.asarray(points, complex)
    real, imag = points.real, points.imag
    whole = (np.rint(real) == real) & (np.rint(imag) == imag) & (abs(real) <= 7) & (abs(imag) <= 7)
    place = np.where(whole, 15 * real + imag, 0).astype(np.intp)  # 0 is no point
    return _label_table(rate.bits_per_point).take(place + MIDDLE)


@lru_cache(maxsize=None)
def _label_table(bits: int) -> np.ndarray:
    """The label of I + iQ at 15 I + Q + MIDDLE, for levels from -7 to 7, and -1 where there is no such point: int8, shape (225,)."""
    table = np.full(2 * MIDDLE + 1, -1, np.int8)
    points = _points(bits)
    table[(15 * points.real + points.imag).astype(int) + MIDDLE] = np.arange(points.size)
    table.setflags(write=False)
    return table
