"""L-SIG and HT-SIG: their bits, their code, and a decoder for them (clauses 18.3.4, 18.3.5.6, 20.3.9.3.5 and 20.3.9.4.3).

Both are sent in BPSK at rate 1/2, 24 bits a symbol, HT-SIG over two symbols and turned by 90 degrees.
"""

from __future__ import annotations

from dataclasses import dataclass
from functools import lru_cache
from typing import Iterable, List, Optional, Sequence, Tuple

import numpy as np

from ..chain import TAPS_A, TAPS_B

# Mbit/s by the four bits of RATE, in the order in which they are sent (table 18-6).
LEGACY_RATES = {(1, 1, 0, 1): 6, (1, 1, 1, 1): 9, (0, 1, 0, 1): 12, (0, 1, 1, 1): 18,
                (1, 0, 0, 1): 24, (1, 0, 1, 1): 36, (0, 0, 0, 1): 48, (0, 0, 1, 1): 54}
LONGEST_LEGACY = 4095
TAIL = 6


@dataclass(frozen=True)
class LegacySignal:
    """What L-SIG says.

    Parameters
    ----------
    rate : int
        In Mbit/s.
    length : int
        In octets, 0 to 4095.
    """

    rate: int
    length: int

    def bits(self) -> List[int]:
        """Its 24 bits, in the order in which they are sent."""
        rate = next(bits for bits, rate in LEGACY_RATES.items() if rate == self.rate)
        front = [*rate, 0, *_number(self.length, 12)]
        return [*front, sum(front) % 2, *[0] * TAIL]

    @property
    def symbols(self) -> int:
        """The number of symbols behind L-SIG that it announces."""
        return -(-(16 + 8 * self.length + TAIL) // (4 * self.rate))


def read_legacy(bits: Sequence[int]) -> Optional[LegacySignal]:
    """What 24 bits of L-SIG say; None where the parity, the tail or the reserved bit is wrong, or the rate is none."""
    bits = [int(bit) for bit in bits]
    rate = LEGACY_RATES.get((bits[0], bits[1], bits[2], bits[3]))
    if rate is None or bits[4] or sum(bits[:18]) % 2 or any(bits[18:]):
        return None
    return LegacySignal(rate, _value(bits[5:17]))


@dataclass(frozen=True)
class HtSignal:
    """What HT-SIG says (table 20-11).

    Parameters
    ----------
    mcs : int
        0 to 127.
    wide : bool
        40 MHz.
    length : int
        Octets of the PSDU, 0 to 65535.
    smoothing, not_sounding, aggregated : bool
    stbc : int
        0 to 3.
    ldpc, short_guard : bool
    extension : int
        The number of extension spatial streams.
    reserved : bool
        The reserved bit, which has to be 1.
    """

    mcs: int
    wide: bool
    length: int
    smoothing: bool = True
    not_sounding: bool = True
    aggregated: bool = False
    stbc: int = 0
    ldpc: bool = False
    short_guard: bool = False
    extension: int = 0
    reserved: bool = True

    def bits(self) -> List[int]:
        """Its 48 bits, in the order in which they are sent, with the CRC and the tail."""
        front = [*_number(self.mcs, 7), int(self.wide), *_number(self.length, 16),
                 int(self.smoothing), int(self.not_sounding), int(self.reserved), int(self.aggregated), *_number(self.stbc, 2),
                 int(self.ldpc), int(self.short_guard), *_number(self.extension, 2)]
        return [*front, *crc(front), *[0] * TAIL]


def read_ht(bits: Sequence[int]) -> Optional[HtSignal]:
    """What 48 bits of HT-SIG say; None where the CRC or the tail is wrong."""
    bits = [int(bit) for bit in bits]
    if tuple(bits[34:42]) != crc(bits[:34]) or any(bits[42:]):
        return None
    return HtSignal(_value(bits[:7]), bool(bits[7]), _value(bits[8:24]), bool(bits[24]), bool(bits[25]), bool(bits[27]),
                    _value(bits[28:30]), bool(bits[30]), bool(bits[31]), _value(bits[32:34]), bool(bits[26]))


def crc(bits: Iterable[int]) -> Tuple[int, ...]:
    """The CRC of HT-SIG (clause 20.3.9.4.4): eight bits in the order in which they are sent, the highest first."""
    register = 0xFF
    for bit in bits:
        register = register << 1 & 0xFF ^ (0x07 if register >> 7 ^ bit else 0)
    return tuple(1 - (register >> place & 1) for place in range(7, -1, -1))


def _number(value: int, width: int) -> List[int]:
    return [value >> place & 1 for place in range(width)]


def _value(bits: Sequence[int]) -> int:
    return sum(bit << place for place, bit in enumerate(bits))


@lru_cache(maxsize=None)
def interleaving() -> np.ndarray:
    """To which place each of the 48 coded bits of a symbol goes (clause 18.3.5.7)."""
    k = np.arange(48)
    return 3 * (k % 16) + k // 16


def coded(bits: Sequence[int]) -> np.ndarray:
    """The coded bits of 24 or 48 bits, before interleaving: uint8, shape (48,) or (96,)."""
    return (np.asarray(bits, float) @ _coding(len(bits)) % 2).astype(np.uint8)


@lru_cache(maxsize=None)
def _coding(count: int) -> np.ndarray:
    """Which of the coded bits each bit turns: float64, shape (count, 2 * count), 1 or 0."""
    made = np.zeros((count, count, 2))
    for half, taps in enumerate((TAPS_A, TAPS_B)):
        for delay in taps:
            made[np.arange(count - delay), np.arange(delay, count), half] = 1
    return made.reshape(count, 2 * count)


def points_of(bits: Sequence[int]) -> np.ndarray:
    """The BPSK points of 24 or 48 bits: float64, shape (symbols, 48), each 1 or -1, in the order of data subcarriers."""
    made = np.empty((len(bits) // 24, 48))
    made[:, interleaving()] = 2.0 * coded(bits).reshape(-1, 48) - 1
    return made


@lru_cache(maxsize=None)
def _uncoding(count: int) -> np.ndarray:
    """What coded bits have to be multiplied with, modulo 2, to give the bits: float64, shape (2 * count, count), 1 or 0."""
    rows = np.concatenate((_coding(count).T.astype(np.uint8), np.eye(2 * count, dtype=np.uint8)), axis=1)
    for column in range(count):
        pivot = column + int(rows[column:, column].argmax())
        rows[[column, pivot]] = rows[[pivot, column]]
        others = rows[:, column].astype(bool)
        others[column] = False
        rows[others] ^= rows[column]
    return np.ascontiguousarray(rows[:count, count:].T, float)


@lru_cache(maxsize=None)
def _outputs() -> np.ndarray:
    """The points that the coder sends on its way to each state: float64, shape (2 points, 2 ways, 64 states).

    Bit d of a state is the input d steps ago. State s is reached from s >> 1 and from s >> 1 | 32.
    """
    state = np.arange(64)
    register = np.stack((state, state | 64))
    return np.stack([sum(register >> delay & 1 for delay in taps) % 2 * 2.0 - 1 for taps in (TAPS_A, TAPS_B)])


def decode(soft: np.ndarray) -> np.ndarray:
    """The likeliest bits of L-SIG or HT-SIG (a Viterbi decoder with soft values, the tail taken as known).

    Parameters
    ----------
    soft : ndarray of float, shape (symbols, 48)
        By data subcarrier: above 0 where the point is rather 1, below 0 where it is rather -1, the surer the larger.

    Returns
    -------
    ndarray of uint8, shape (24 * symbols,)
    """
    values = soft[:, interleaving()].reshape(-1, 2).astype(float)
    steps = len(values)
    hard = (values > 0).reshape(-1).astype(float)
    uncoded = hard @ _uncoding(steps) % 2
    if (uncoded @ _coding(steps) % 2 == hard).all():  # then no other bits can be likelier
        return uncoded.astype(np.uint8)
    gains = np.tensordot(values, _outputs(), 1).reshape(steps, 2, 32, 2)  # of each way to each state, whose halves are 32 pairs
    metric = np.full(64, -np.inf)
    metric[0] = 0
    ways = np.empty((steps, 2, 32, 2))
    for gain, way in zip(gains, ways):
        np.add(gain, metric.reshape(2, 32, 1), out=way)
        metric = np.maximum(way[0], way[1]).reshape(64)
    later = (ways[:, 1] > ways[:, 0]).reshape(steps, 64).tolist()
    state, bits = 0, np.empty(steps, np.uint8)
    for step in range(steps - 1, -1, -1):
        bits[step] = state & 1
        state = state >> 1 | 32 * later[step][state]
    return bits
