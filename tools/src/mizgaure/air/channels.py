"""The channels of a recording in which packets are looked for, each at 20 million samples a second.

At 20 million samples a second the recording is one channel. At 40 million each half is one, and so are the middle 20 MHz;
each is cut out of the spectrum, so that neighbours don't reach what is looked for. A packet of 40 MHz has its legacy preamble
and HT-SIG in both halves: these two together are a channel with twice as many rows as there are antennas.
"""

from __future__ import annotations

from functools import lru_cache
from typing import Dict, Iterator, Tuple

import numpy as np

from .fourier import backward, forward
from .pieces import Piece
from .standard import TRANSFORM

LOWER, UPPER = -TRANSFORM // 2, TRANSFORM // 2  # the middles of the halves of 40 MHz, in subcarriers
PASSED, STOPPED = 28.7 / 64, 32 / 64  # of 20 MHz: up to where a channel's filter passes all, and from where on nothing
MARGIN = 256  # samples at 40 MHz on both sides of those that are filtered
TILE = 1 << 12  # samples at 40 MHz of a tile; transforms of some of them at once take a third of the time of one as large
ROWS = 8  # rows that are transformed at once
PLAIN = 1 << 14  # samples at 20 MHz of one antenna that are looked at at once, so that a cache holds them


class Channel:
    """A channel of a piece. Instants are the recording's, divided by the oversampling.

    Parameters
    ----------
    piece : Piece
    middles : tuple of int
        The middles of its parts of 20 MHz, in subcarriers from the recording's middle.
    """

    def __init__(self, piece: Piece, middles: Tuple[int, ...] = (0,)) -> None:
        self.piece, self.middles = piece, middles
        self.rows = len(middles) * len(piece.samples)
        self.stop = piece.stop // piece.over

    def read(self, first: int, count: int) -> np.ndarray:
        """Samples from an instant on, zeros where the piece has none: complex64, shape (rows, count)."""
        if self.piece.over == 1:
            return self.piece.between(first, first + count)
        return np.concatenate(cut_out(self.piece, first, count, self.middles))


def cut_out(piece: Piece, first: int, count: int, middles: Tuple[int, ...]) -> Tuple[np.ndarray, ...]:
    """Parts of 20 MHz of a piece at 40 million samples a second: for each a row an antenna, at 20 million."""
    low = 2 * first - MARGIN
    length = _length(2 * count + 2 * MARGIN)
    spectra = forward(piece.between(low, low + length))
    # Mixing by a quarter of the rate from the recording's beginning on has this sign at an even instant.
    turn = 1 - 2 * (first % 2)
    made = (backward(_inside(spectra, middle, turn if middle else 1)) for middle in middles)
    return tuple(samples[:, MARGIN // 2 : MARGIN // 2 + count] for samples in made)


def stretches(piece: Piece, middles: Tuple[int, ...], first: int, count: int, step: int, more: int) -> Iterator[Tuple[int, Dict[int, np.ndarray]]]:
    """All samples of parts of 20 MHz of a piece, each with some behind them: stretch by stretch, some of them at once.

    Parameters
    ----------
    piece : Piece
    middles : tuple of int
        Of the parts; (0,) at 20 million samples a second.
    first, count : int
        The first instant, which is even, and how many there are at least.
    step : int
        The instants from one stretch to the next are a multiple of this even number.
    more : int
        How many instants of the next one a stretch has, too.

    Yields
    ------
    number : int
        Of the first instant of the first one of these stretches, counted from ``first``.
    samples : dict of ndarray of complex64, shape (antennas, stretches, instants)
        For each part, zeros where the piece has none.
    """
    antennas = len(piece.samples)
    if piece.over == 1:
        length = max(1, PLAIN // antennas // step) * step
        for number in range(0, count, length):
            size = min(length, -(-(count - number) // step) * step)
            yield number, {0: piece.between(first + number, first + number + size + more)[:, None]}
        return
    length = ((TILE - 2 * MARGIN) // 2 - more) // step * step
    together = max(1, ROWS // antennas)
    for number in range(0, count, length * together):
        tiles = min(together, -(-(count - number) // length))
        low = 2 * (first + number) - MARGIN
        samples = np.ascontiguousarray(piece.between(low, low + 2 * length * (tiles - 1) + TILE))
        along, width = samples.strides
        spectra = forward(np.ndarray((antennas, tiles, TILE), samples.dtype, samples, 0, (along, 2 * length * width, width)))
        yield number, {middle: backward(_inside(spectra, middle))[..., MARGIN // 2 : MARGIN // 2 + length + more] for middle in middles}


def _inside(spectra: np.ndarray, middle: int, turn: int = 1) -> np.ndarray:
    """What a channel's filter passes of spectra at 40 million samples a second: complex64, half as many numbers."""
    length = spectra.shape[-1]
    half, quarter, place = length // 2, length // 4, middle * length // (2 * TRANSFORM)
    passed = _response_of_parts(half, turn)
    made = np.empty((*spectra.shape[:-1], half), np.complex64)
    parts, inside = spectra.view(np.float32), made.view(np.float32)
    for begin, there in ((0, place % length), (quarter, (place - quarter) % length)):
        piece = slice(2 * begin, 2 * (begin + quarter))
        np.multiply(parts[..., 2 * there : 2 * (there + quarter)], passed[piece], out=inside[..., piece])
    return made


def _length(count: int) -> int:
    """The least transform of so many samples, which is a multiple of 128 by a small factor and a power of 2."""
    power = 1 << max(7, (count - 1).bit_length())
    return next(length for length in (power * 5 // 8, power * 3 // 4, power) if length >= count and length % 128 == 0)


@lru_cache(maxsize=64)
def response(length: int) -> np.ndarray:
    """What a channel's filter passes of each frequency: float32, halved for the half as many samples."""
    share = (STOPPED - np.abs(np.fft.fftfreq(length))) / (STOPPED - PASSED)
    return (0.5 * np.sin(np.pi / 2 * np.clip(share, 0, 1)) ** 2).astype(np.float32)


@lru_cache(maxsize=64)
def _response_of_parts(length: int, turn: int) -> np.ndarray:
    """The same with a sign for each part of complex numbers: float32, shape (2 * length,)."""
    return np.repeat(np.float32(turn) * response(length), 2)
