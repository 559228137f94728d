"""What a packet of the HT PHY is made of, subcarrier by subcarrier (IEEE Std 802.11-2012, clauses 18.3 and 20.3.9).

All arrays over subcarriers have one entry for each number of `span`, -28 to 28 at 20 MHz and -58 to 58 at 40 MHz, zeros where
nothing is sent. Values have mean power 1 on the subcarriers in use, and don't have the rotation of the upper half of a 40 MHz
channel, which is `rotation`. Times are in nanoseconds.
"""

from __future__ import annotations

from functools import lru_cache
from typing import Tuple

import numpy as np

from ..rates import PILOT_INDEXES, Rate, polarity

TRANSFORM = 64  # subcarriers from one multiple of 20 MHz to the next, and samples of a symbol at 20 MHz without its guard
SHORT_LAG = 16  # samples at 20 MHz after which the short training repeats
LONG_GUARD, SHORT_GUARD, TRAINING_GUARD = 16, 8, 32  # samples at 20 MHz
SYMBOL = TRANSFORM + LONG_GUARD

# S of equation 18-7 and L of equation 18-9, from subcarrier -26 to 26, the former without its factor.
_SHORT = {4: -1, 8: -1, 12: 1, 16: 1, 20: 1, 24: 1, -4: 1, -8: -1, -12: -1, -16: 1, -20: -1, -24: 1}
_LEFT = (1, 1, -1, -1, 1, 1, -1, 1, -1, 1, 1, 1, 1, 1, 1, -1, -1, 1, 1, -1, 1, -1, 1, 1, 1, 1)
_RIGHT = (1, -1, -1, 1, 1, -1, 1, -1, 1, -1, -1, -1, -1, -1, 1, 1, -1, -1, 1, -1, 1, -1, 1, 1, 1, 1)

# The signs of the HT-LTFs (clause 20.3.9.4.6): a row for each stream, a column for each field.
TRAINING_SIGNS = np.array([[1, -1, 1, 1], [1, 1, -1, 1], [1, 1, 1, -1], [-1, 1, 1, 1]])
TRAINING_FIELDS = (1, 2, 4, 4)  # for one to four streams

# Cyclic shifts: of transmit chains in front of the HT part (table 20-9), and of streams in it (table 20-10).
_CHAIN_SHIFTS = ((0,), (0, -200), (0, -100, -200), (0, -50, -100, -150))
_STREAM_SHIFTS = (0, -400, -200, -600)

# The pilots' signs over streams and pilots (tables 20-19 and 20-20).
_PILOTS = {
    20: (((1, 1, 1, -1),),
         ((1, 1, -1, -1), (1, -1, -1, 1)),
         ((1, 1, -1, -1), (1, -1, 1, -1), (-1, 1, 1, -1)),
         ((1, 1, 1, -1), (1, 1, -1, 1), (1, -1, 1, 1), (-1, 1, 1, 1))),
    40: (((1, 1, 1, -1, -1, 1),),
         ((1, 1, -1, -1, -1, -1), (1, 1, 1, -1, 1, 1)),
         ((1, 1, -1, -1, -1, -1), (1, 1, 1, -1, 1, 1), (1, -1, 1, -1, -1, 1)),
         ((1, 1, -1, -1, -1, -1), (1, 1, 1, -1, 1, 1), (1, -1, 1, -1, -1, 1), (-1, 1, 1, 1, -1, 1))),
}
SIGNAL_PILOTS = {-21: 1, -7: 1, 7: 1, 21: -1}  # clause 18.3.5.9


@lru_cache(maxsize=None)
def span(bandwidth: int) -> np.ndarray:
    """The numbers of the subcarriers, 0 counted: int64, shape (57,) or (117,)."""
    return _kept(np.arange(-28, 29) if bandwidth == 20 else np.arange(-58, 59))


@lru_cache(maxsize=None)
def rotation(bandwidth: int) -> np.ndarray:
    """By what every subcarrier is turned: 1, and the imaginary unit in the upper half of 40 MHz (clause 20.3.11.11.2)."""
    return _kept(np.where((bandwidth == 40) & (span(bandwidth) > 0), 1j, 1))


@lru_cache(maxsize=None)
def halves(bandwidth: int) -> Tuple[int, ...]:
    """The middles of the parts of 20 MHz that carry the same: 0, or -32 and 32."""
    return (0,) if bandwidth == 20 else (-32, 32)


def doubled(values: np.ndarray, bandwidth: int) -> np.ndarray:
    """What is sent on subcarriers -26 to 26 in every part of 20 MHz: shape (.., 53) to (.., subcarriers)."""
    made = np.zeros(values.shape[:-1] + (span(bandwidth).size,), complex)
    for middle in halves(bandwidth):
        first = middle - 26 - span(bandwidth)[0]
        made[..., first : first + 53] = values
    return made


@lru_cache(maxsize=None)
def short_training(bandwidth: int) -> np.ndarray:
    """L-STF and HT-STF (clauses 18.3.3 and 20.3.9.3.3): twelve subcarriers of each 20 MHz."""
    values = np.zeros(53, complex)
    for number, sign in _SHORT.items():
        values[26 + number] = sign * (1 + 1j) / np.sqrt(2)
    return _kept(doubled(values, bandwidth))


@lru_cache(maxsize=None)
def long_training(bandwidth: int) -> np.ndarray:
    """L-LTF (clauses 18.3.3 and 20.3.9.3.4)."""
    return _kept(doubled(np.array((*_LEFT, 0, *_RIGHT), complex), bandwidth))


@lru_cache(maxsize=None)
def ht_long_training(bandwidth: int) -> np.ndarray:
    """HT-LTF (clause 20.3.9.4.6), without the signs of streams."""
    if bandwidth == 20:
        return _kept(np.array((1, 1, *_LEFT, 0, *_RIGHT, -1, -1), complex))
    half = (*_LEFT, 1, *_RIGHT)
    return _kept(np.array((*half, -1, -1, -1, 1, 0, 0, 0, -1, 1, 1, -1, *half), complex))


@lru_cache(maxsize=None)
def ht_subcarriers(bandwidth: int) -> np.ndarray:
    """Where the 56 or 114 subcarriers of the HT part stand in `span`: int64, ascending."""
    return _kept(Rate(bandwidth, 0).frequencies - span(bandwidth)[0])


@lru_cache(maxsize=None)
def signal_subcarriers(bandwidth: int) -> Tuple[np.ndarray, np.ndarray]:
    """Where data and pilots of L-SIG and HT-SIG stand in `span`: int64, shapes (parts, 48) and (parts, 4)."""
    numbers = np.array([number for number in range(-26, 27) if number and number not in SIGNAL_PILOTS])
    middles = np.array(halves(bandwidth))[:, None] - span(bandwidth)[0]
    return _kept(middles + numbers), _kept(middles + np.array(list(SIGNAL_PILOTS)))


def signal_symbol(points: np.ndarray, symbol: int, bandwidth: int) -> np.ndarray:
    """A symbol of L-SIG or HT-SIG (clauses 18.3.5.10 and 20.3.9.4.3): 48 points and its four pilots in every part.

    Parameters
    ----------
    points : ndarray of complex, shape (48,)
    symbol : int
        0 for L-SIG, 1 and 2 for HT-SIG.
    bandwidth : int
    """
    data, pilots = signal_subcarriers(bandwidth)
    made = np.zeros(span(bandwidth).size, complex)
    made[data] = points
    made[pilots] = polarity()[symbol] * np.array(list(SIGNAL_PILOTS.values()))
    return made


@lru_cache(maxsize=64)
def pilots(rate: Rate, symbols: int, streams: int = 0, first: int = 3) -> np.ndarray:
    """The standard's pilots of data symbols (clause 20.3.11.10): float64, shape (symbols, pilots, streams), each 1 or -1.

    Parameters
    ----------
    rate : Rate
    symbols : int
    streams : int
        Space-time streams; as many as spatial streams where 0.
    first : int
        Which polarity is that of the first symbol: 3 in HT-mixed format, 2 in HT-greenfield format.
    """
    signs = np.array(_PILOTS[rate.bandwidth][(streams or rate.streams) - 1], float)
    n, k = np.arange(symbols)[:, None], np.arange(rate.pilots)[None, :]
    return _kept(signs[:, (n + k) % rate.pilots].transpose(1, 2, 0) * polarity()[(n + first) % 127][:, :, None])


@lru_cache(maxsize=None)
def pilot_places(bandwidth: int) -> np.ndarray:
    """Where the pilots stand among the 56 or 114 subcarriers."""
    return _kept(np.array(PILOT_INDEXES[bandwidth]))


def chain_shifts(chains: int) -> np.ndarray:
    """The cyclic shifts in front of the HT part, in nanoseconds: shape (chains,)."""
    return np.array(_CHAIN_SHIFTS[chains - 1], float)


def stream_shifts(streams: int) -> np.ndarray:
    """The cyclic shifts of the HT part, in nanoseconds: shape (streams,)."""
    return np.array(_STREAM_SHIFTS[:streams], float)


def shifted(shifts: np.ndarray, bandwidth: int) -> np.ndarray:
    """What cyclic shifts multiply each subcarrier with: complex128, shape (shifts, subcarriers)."""
    return np.exp(-2j * np.pi * np.outer(np.asarray(shifts) * 312.5e-6, span(bandwidth)))


def signal_octets(microseconds: float) -> int:
    """The LENGTH of L-SIG that stands for a packet of a duration (clause 20.3.9.3.5).

    Parameters
    ----------
    microseconds : float
        Of the whole packet, its preamble counted.
    """
    return 3 * int(np.ceil((microseconds - 20) / 4 - 1e-9)) - 3


def _kept(array: np.ndarray) -> np.ndarray:
    array.setflags(write=False)
    return array
