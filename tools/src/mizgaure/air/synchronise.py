"""Where packets are in a channel: the short training by its period, the long training by its signs.

The samples of all antennas are correlated with those 0.8 microseconds later, each antenna weighed by its noise. Where the sum
is far larger than samples that have nothing to do with one another would make it, a packet may begin. Then the long training
has to be there: its two symbols give the timing and the fine carrier offset, and the signs of its neighbouring subcarriers have
to agree. Both tests compare a sum of products with the root of the sum of their powers, which is what chance makes of it;
so the same limits serve any number of antennas, and any noise on them.
"""

from __future__ import annotations

import cmath
from dataclasses import dataclass
from functools import lru_cache
from typing import Dict, Iterator, Optional, Tuple

import numpy as np

from . import standard
from .channels import Channel, stretches
from .pieces import Piece
from .spectra import windows_of
from .standard import SHORT_LAG, TRANSFORM

BLOCK, WINDOW = SHORT_LAG, 9  # samples whose products are added first, and how many such sums there are in 7.2 microseconds
FOUND = 12.0  # how many times what chance makes of it, in power, the correlation of the short training has to be
AGREED = 12.0  # the same for the neighbouring subcarriers of the long training
NEAR, AROUND = 6, 20  # blocks round a candidate that are no larger, and among which is one much smaller
SMALLER = 0.6  # than the candidate
QUIET = 0.1  # the share of blocks that are taken to have nothing but noise
LEAST_NOISE = 1e-4  # of the noise of the antenna with the most, which every antenna is taken to have
TO_LONG = 192  # samples from a packet's beginning to its first long symbol, behind that one's guard interval
REACH = 64  # samples by which that symbol may begin earlier or later than a candidate says
EARLY = 16  # samples by which the long training is looked at earlier than at its peak
LISTENED = 2 * REACH + EARLY + 2 * TRANSFORM  # samples among which the long training is looked for
TIMES = np.arange(LISTENED)
NUMBERS = np.arange(-26, 27)
PLACES, IN_USE = NUMBERS % TRANSFORM, 52  # of these numbers in a transform, and how many of them are in use


@dataclass(frozen=True)
class Candidate:
    """An instant at which a packet may begin.

    Parameters
    ----------
    instant : int
        Of the channel, within some samples.
    offset : float
        The carrier's, in turns a sample, within some hundredths of a subcarrier's distance.
    """

    instant: int
    offset: float


class Correlation:
    """The samples of a channel, correlated with those 0.8 microseconds later.

    Parameters
    ----------
    products : ndarray of complex128, shape (rows, blocks)
        Sums over 16 samples each.
    energies : ndarray of float64, shape (rows, blocks + 1)
        Of the blocks.
    begin : int
        The number of the first block in the channel.
    """

    def __init__(self, products: np.ndarray, energies: np.ndarray, begin: int) -> None:
        self.products, self.energies, self.begin = products, energies, begin
        self.noise = noise_of(energies)

    def together(self, other: "Correlation") -> "Correlation":
        """That of two channels, as of one with the rows of both."""
        return Correlation(np.concatenate((self.products, other.products)), np.concatenate((self.energies, other.energies)), self.begin)

    def beside_chance(self) -> Tuple[np.ndarray, np.ndarray]:
        """For each block from which a window begins the correlation of all rows, and its power beside what chance makes of it."""
        weights = 1 / self.noise
        sums = _running((weights @ self.products.view(float)).view(complex))
        energies = _running(self.energies * weights[:, None])
        chance = np.einsum("rb,rb->b", energies[:, :-1], energies[:, 1:]) / (WINDOW * BLOCK)
        least = 1e-9 * max(float(chance.max(initial=0)), 1e-290)
        return sums, (sums.real**2 + sums.imag**2) / np.maximum(chance, least)

    def candidates(self) -> Iterator[Candidate]:
        """Where packets may begin, in their order."""
        if self.products.shape[1] < WINDOW:
            return
        sums, power = self.beside_chance()
        loud = np.flatnonzero(power > FOUND)
        size = np.abs(sums[loud])
        highest = np.ones(len(loud), bool)  # of those that are near
        for apart in range(1, min(NEAR, len(loud) - 1) + 1):
            near = loud[apart:] - loud[:-apart] <= NEAR
            highest[:-apart] &= ~(near & (size[:-apart] < size[apart:]))
            highest[apart:] &= ~(near & (size[apart:] < size[:-apart]))
        for block in loud[highest].tolist():
            behind, before = sums[block + WINDOW : block + AROUND + 1], sums[max(0, block - AROUND) : max(0, block - WINDOW + 1)]
            if np.abs(np.concatenate((behind, before))).min(initial=np.inf) < SMALLER * abs(sums[block]):
                yield Candidate((self.begin + block) * BLOCK, float(np.angle(sums[block])) / (2 * np.pi * SHORT_LAG))


def correlations_of(piece: Piece, middles: Tuple[int, ...], begin: int, end: int) -> Dict[int, Correlation]:
    """The correlations of parts of 20 MHz of a piece from an instant to another one, as far as there are samples."""
    first, stop = begin // BLOCK, min(-(-end // BLOCK), (piece.stop // piece.over - BLOCK) // BLOCK)
    count, antennas = max(0, stop - first), len(piece.samples)
    products = {middle: np.zeros((antennas, count), complex) for middle in middles}
    energies = {middle: np.zeros((antennas, count + 1)) for middle in middles}
    for number, parts in stretches(piece, middles, first * BLOCK, count * BLOCK, BLOCK, BLOCK):
        place = number // BLOCK
        for middle, samples in parts.items():
            blocks = np.ascontiguousarray(samples).reshape(antennas, samples.shape[1], -1, BLOCK)
            halves = blocks.view(np.float32)
            sums = np.einsum("rsbi->rsb", blocks[:, :, 1:] * blocks[:, :, :-1].conj()).reshape(antennas, -1)[:, : count - place]
            own = np.einsum("rsbi,rsbi->rsb", halves, halves)
            products[middle][:, place : place + sums.shape[1]] = sums
            energies[middle][:, place : place + sums.shape[1]] = own[:, :, :-1].reshape(antennas, -1)[:, : count - place]
            if place + sums.shape[1] == count:
                last = count - 1 - place
                energies[middle][:, count] = own[:, last // (own.shape[2] - 1), last % (own.shape[2] - 1) + 1]
    return {middle: Correlation(products[middle], energies[middle], first) for middle in middles}


def noise_of(energies: np.ndarray) -> np.ndarray:
    """What each row's noise may be beside that of the others, by its quietest blocks: float64, above 0."""
    if not energies.shape[1]:
        return np.ones(len(energies))
    quiet = np.partition(energies, int(QUIET * (energies.shape[1] - 1)), axis=1)[:, int(QUIET * (energies.shape[1] - 1))]
    if not quiet.any():  # silence without noise
        quiet = energies.mean(axis=1)
    return np.maximum(quiet, max(LEAST_NOISE * float(quiet.max()), 1e-290))


def _running(values: np.ndarray) -> np.ndarray:
    """Sums over windows."""
    sums = np.cumsum(values, axis=-1)
    made = sums[..., WINDOW - 1 :].copy()
    made[..., 1:] -= sums[..., :-WINDOW]
    return made


@dataclass(eq=False)
class Training:
    """The long training of a packet.

    Parameters
    ----------
    begin : int
        Where its first symbol begins behind its guard interval, by the strongest way.
    offset : float
        The carrier's, in turns a sample.
    channel : ndarray of complex128, shape (rows, 53)
        As seen by a transform that begins `EARLY` samples before the symbol does; 0 on subcarrier 0.
    noise : ndarray of float64, shape (rows,)
        The noise's mean power on a subcarrier, above 0.
    signal : ndarray of float64, shape (rows,)
        The signal's, over the subcarriers in use.
    """

    begin: int
    offset: float
    channel: np.ndarray
    noise: np.ndarray
    signal: np.ndarray

    @property
    def noise_ratio(self) -> float:
        """The noise beside the signal, over all antennas, in dB."""
        return float(10 * np.log10(self.noise.sum() / max(float(self.signal.sum()), 1e-300)))


def find_training(channel: Channel, candidate: Candidate, noise: np.ndarray) -> Optional[Training]:
    """The long training behind a candidate, or None where there is none.

    Parameters
    ----------
    channel : Channel
    candidate : Candidate
    noise : ndarray of float64, shape (rows,)
        By which rows are weighed.
    """
    first = candidate.instant + TO_LONG - REACH - EARLY
    if first < 0 or first + LISTENED > channel.stop:
        return None
    heard = channel.read(first, LISTENED)
    weights = 1 / np.sqrt(noise)[:, None]
    samples = heard * (np.exp(-2j * np.pi * candidate.offset * TIMES) * weights)
    energy = long_correlation(samples)
    begin = EARLY + int((energy[EARLY:-TRANSFORM] + energy[EARLY + TRANSFORM :]).argmax())
    front, behind = samples[:, begin - EARLY : begin + TRANSFORM], samples[:, begin - EARLY + TRANSFORM : begin + 2 * TRANSFORM]
    offset = candidate.offset + cmath.phase(np.vdot(front, behind)) / (2 * np.pi * TRANSFORM)
    turned = heard[:, begin - EARLY : begin - EARLY + 2 * TRANSFORM] * np.exp(-2j * np.pi * offset * (TIMES[: 2 * TRANSFORM] - EARLY))
    symbols = np.fft.fft(turned.reshape(-1, 2, TRANSFORM))[..., PLACES] * standard.long_training(20)[2:-2].real
    links = (symbols[:, 0] + symbols[:, 1]) / 2
    if not agreement(links * weights) > AGREED:
        return None
    power = powers_of(symbols[:, 0] - symbols[:, 1]) / (2 * IN_USE)  # both are 0 on subcarrier 0
    signal = np.maximum(powers_of(links) / IN_USE - power / 2, 0)
    if not signal.any():
        return None
    floor = max(LEAST_NOISE * float(power.max()), 1e-12 * float(signal.max()))
    return Training(first + begin, offset, links, np.maximum(power, floor), signal)


def agreement(links: np.ndarray) -> float:
    """How far neighbouring subcarriers agree once the training's signs are taken off, beside what chance makes of it, in power.

    Products are added over rows first, since what rows hear of one transmitter isn't independent.

    Parameters
    ----------
    links : ndarray of complex128, shape (rows, subcarriers)
    """
    products = np.einsum("rk,rk->k", links[:, :-1].conj(), links[:, 1:])
    chance = float(np.vdot(products, products).real)
    return abs(complex(products.sum())) ** 2 / chance if chance > 0 else 0.0


def powers_of(values: np.ndarray) -> np.ndarray:
    """The power of each row of complex numbers: float64, shape (rows,)."""
    return np.einsum("rk,rk->r", values.real, values.real) + np.einsum("rk,rk->r", values.imag, values.imag)


@lru_cache(maxsize=None)
def long_symbol(over: int = 1, middle: int = 0) -> np.ndarray:
    """A long training symbol of 20 MHz in time, of energy 1: complex128, shape (64 * over,).

    Parameters
    ----------
    over : int
        The oversampling.
    middle : int
        Where it lies in the band, in subcarriers.
    """
    spectrum = np.zeros(TRANSFORM * over, complex)
    spectrum[(standard.span(20) + middle) % spectrum.size] = standard.long_training(20)
    symbol = np.fft.ifft(spectrum)
    return symbol / np.sqrt(np.sum(np.abs(symbol) ** 2))


def long_correlation(samples: np.ndarray) -> np.ndarray:
    """How much of the energy from each instant on is a long training symbol's, over all rows.

    Parameters
    ----------
    samples : ndarray of complex, shape (rows, instants)

    Returns
    -------
    ndarray of float64, shape (instants - 63,)
    """
    made = windows_of(samples, TRANSFORM) @ _conjugated_symbol()
    return np.sum(made.real**2 + made.imag**2, axis=0)


@lru_cache(maxsize=None)
def _conjugated_symbol() -> np.ndarray:
    return long_symbol().conj()
