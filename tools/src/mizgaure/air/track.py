"""Phase and timing of data symbols by their pilots, and the channel smoothed over subcarriers and its place in time.

A symbol whose transform begins late by D samples has its subcarrier k turned by 2 pi k D / N, and what is left of the carrier
offset turns all of them alike. Both are read from the pilots, whose points are known: with z_nk the pilot k of symbol n,
combined over antennas against what is expected, z_nk is about w exp(i (phase_n + k slope_n)).
"""

from __future__ import annotations

import cmath
from dataclasses import dataclass
from functools import lru_cache
from typing import Optional, Tuple

import numpy as np

from .standard import TRANSFORM

MOST_DRIFT, USUAL_DRIFT = 60e-6, 20e-6  # of two clocks against each other
GRID = 0.2  # samples at the packet's end between the drifts that are tried
HALF_WIDTHS = (1, 2, 4, 8, 16, 32)  # symbols on each side over which a phase may be averaged
ROUNDS = 4
PLACES, FINE = (-20, 6), 0.125  # samples at 20 MHz behind a guard interval at which windows may begin, and how finely they are tried
RATIO = 0.5  # dB from one ratio of a channel to its noise to the next, where its place is sought
LEAST_ERROR = 1e-4  # of a channel's power, which its estimate is taken to have at least
LEAST_BEHIND, LEAST_POWER = 4, 8.0  # symbols on both sides of a step, and the power of a symbol's pilots beside the noise, where one is looked for
FEW_BEHIND, AMPLE_POWER = 2, 100.0  # the same where its samples can be told by fewer symbols
AS_IT_SHOULD, ASTRAY = 0.88, 0.7  # how far pilots agree where all is well, at least, and behind a step, at most
CLEARLY = 0.02  # by how much they agree better with a step than without, at least
FARTHEST = 12  # samples of a step whose number is told
AS_GOOD = (10.0, 2.0)  # what a place's likelihood may miss of the best one's, in its logarithm, and as much for each link


def drift_of(pilots: np.ndarray, numbers: np.ndarray, times: np.ndarray, length: int) -> float:
    """How fast the receiver's clock runs off, in samples a sample.

    Parameters
    ----------
    pilots : ndarray of complex128, shape (symbols, pilots)
        z, for noise of mean power 1 on each antenna.
    numbers : ndarray of int64, shape (pilots,)
        Of their subcarriers, from the packet's middle.
    times : ndarray of float64, shape (symbols,)
        Of the symbols behind the channel's estimate, in samples.
    length : int
        Of the transform.

    Returns
    -------
    float
        Above 0 where transforms at nominal distances begin later and later.
    """
    turn = 2 * np.pi / length
    found = 0.0
    steps = int(np.ceil(MOST_DRIFT * times[-1] / GRID))
    if steps > 1:
        tried = np.arange(-steps, steps + 1) * (GRID / times[-1])
        sums = [np.abs(np.einsum("np,np->n", pilots, np.exp(-1j * turn * drift * np.outer(times, numbers)))).sum() for drift in tried]
        found = float(tried[int(np.argmax(sums))])
    straight = pilots * np.exp(-1j * turn * found * np.outer(times, numbers))
    straight = straight * np.exp(-1j * np.angle(straight.sum(axis=1, keepdims=True)))
    ramp = turn * times[:, None] * numbers
    # Each z has the variance w / 2 across its direction, where w is about its real part.
    weights = np.maximum(straight.real, 0)
    certain = 2 * np.sum(weights * ramp**2)
    prior = 1 / USUAL_DRIFT**2
    return found + (2 * float(np.sum(ramp * straight.imag)) - prior * found) / (float(certain) + prior)


def phases_of(pilots: np.ndarray) -> np.ndarray:
    """The phase of each symbol, averaged over as many symbols round it as tell best the phase of one that is left out.

    Parameters
    ----------
    pilots : ndarray of complex128, shape (symbols, pilots)
        z, its slope taken off.
    """
    sums = pilots.sum(axis=1)
    count = len(sums)
    if count < 3:
        return np.angle(sums)
    symbols = np.arange(count)
    straight = sums
    trend = 0.0
    for lag in (1, 4, 16, 64):  # the mean turn from symbol to symbol, finer and finer
        if count > 2 * lag or lag == 1:
            trend += cmath.phase(np.vdot(straight[:-lag], straight[lag:])) / lag
            straight = sums * np.exp(-1j * trend * symbols)
    low, high = _around(count)
    before = np.zeros(count + 1, complex)
    np.cumsum(straight, out=before[1:])
    around = before[high] - before[low]
    others = around - straight
    right = np.sum((straight.conj() * others).real / np.maximum(np.abs(others), 1e-300), axis=1)
    return trend * symbols + np.angle(around[int(right.argmax())])


@lru_cache(maxsize=64)
def _around(count: int) -> Tuple[np.ndarray, np.ndarray]:
    """For each half width, and each of so many symbols, where those begin and end that are up to it beside: int64, shape (widths, symbols)."""
    halves = np.array([half for half in HALF_WIDTHS if half == 1 or half < count])[:, None]
    return np.maximum(np.arange(count) - halves, 0), np.minimum(np.arange(count) + halves + 1, count)


def smoothed(channel: np.ndarray, numbers: np.ndarray, noise: np.ndarray, delays: np.ndarray, length: int, rounds: int = ROUNDS) -> np.ndarray:
    """A channel's likeliest values where its impulse response has independent taps of unknown powers at given delays.

    The powers are found from all links together: what is heard of a tap is divided by how certain it is, again and again. Then this
    is Wiener's filter for them.

    Parameters
    ----------
    channel : ndarray of complex128, shape (links, subcarriers)
        With noise on each value.
    numbers : ndarray of int64, shape (subcarriers,)
        As many below 0 as above, at the same distances.
    noise : ndarray of float64, shape (subcarriers,)
        Its mean power, the same on both sides of 0.
    delays : ndarray of int64
        In samples.
    length : int
        Of the transform.
    rounds : int
        In which the powers are found.
    """
    waves, weighed, gram = _waves(numbers.tobytes(), noise.tobytes(), delays.tobytes(), length)
    count = len(delays)
    heard = np.ascontiguousarray((channel @ weighed).T).view(float)
    powers = np.full(count, max(mean_power(channel) / count, 1e-30))
    for left in range(rounds - 1, -1, -1):
        roots = np.sqrt(powers)
        beside = gram * roots
        beside *= roots[:, None]
        beside.reshape(-1)[:: count + 1] += 1
        wanted = roots[:, None] * heard
        if not left:
            return (roots[:, None] * np.linalg.solve(beside, wanted)).view(complex).T @ waves
        inverse = np.linalg.inv(beside)
        taps = inverse @ wanted
        certain = np.maximum(1 - inverse.diagonal(), 1e-9)
        powers = np.maximum(powers * np.einsum("dl,dl->d", taps, taps) / (len(channel) * certain), 1e-30)
    return channel


def mean_power(values: np.ndarray) -> float:
    """The mean power of complex numbers that stand one behind the other."""
    return float(np.vdot(values, values).real) / values.size


@lru_cache(maxsize=32)
def _waves(numbers: bytes, noise: bytes, delays: bytes, length: int) -> Tuple[np.ndarray, np.ndarray, np.ndarray]:
    """What taps at delays are on subcarriers, (delays, subcarriers); the same conjugated and divided by the noise, (subcarriers, delays).

    And their products, weighed by the noise, (delays, delays), which are real numbers, since subcarriers lie alike on both sides.
    """
    waves = np.exp(-2j * np.pi * np.outer(np.frombuffer(delays, np.int64), np.frombuffer(numbers, np.int64)) / length)
    weighed = np.ascontiguousarray((waves.conj() / np.frombuffer(noise)).T)
    return waves, weighed, (waves @ weighed).real


@dataclass(frozen=True)
class Window:
    """Where windows of a packet begin.

    Parameters
    ----------
    begin : int
        So many samples behind a symbol's guard interval.
    rest : float
        By how much of a sample later they should begin.
    room : float
        How far in samples they may be moved without loss.
    """

    begin: int
    rest: float
    room: float


def window_of(channel: np.ndarray, numbers: np.ndarray, noise: float, guard: int, over: int, early: int,
              fine: float = FINE) -> Window:
    """The windows whose guard interval in front of them holds a channel's impulse response.

    At each of many places the impulse response is taken to lie within a guard interval and to have the same power all over
    it. How badly the channel's values fit that, in the logarithm of their likelihood, tells what lies outside, and tells it
    finer than samples are apart. The middle of the places that are as good as the best one is taken.

    Parameters
    ----------
    channel : ndarray of complex128, shape (links, subcarriers)
    numbers : ndarray of int64, shape (subcarriers,)
    noise : float
        Its mean power on a value.
    guard : int
        In samples.
    over : int
        The oversampling.
    early : int
        How many samples behind a symbol's guard interval the windows began through which the channel was seen.
    fine : float
        How far apart the places are, in samples.
    """
    length = TRANSFORM * over
    power = mean_power(channel)
    noise = max(noise, LEAST_ERROR * power)
    ratio = round(10 / RATIO * np.log10(max(power - noise, noise) / noise))
    weights, pairs, apart = _fit(numbers.tobytes(), guard / length, ratio)
    seen = channel * (np.exp(-2j * np.pi / length * (early - guard / 2) * numbers) / np.sqrt(noise))
    products = (seen.T @ seen.conj()).reshape(-1)[pairs] * weights
    # The misfit is a sum over pairs of subcarriers, and those that are equally far apart turn alike from place to place.
    sums = np.bincount(apart, products.real), np.bincount(apart, products.imag)
    begins, waves = _places(over, fine, len(sums[0]))
    misfit = waves @ np.concatenate(sums)
    best = int(misfit.argmin())
    good = misfit <= misfit[best] + AS_GOOD[0] + AS_GOOD[1] * len(channel)
    low = high = best
    while low > 0 and good[low - 1]:
        low -= 1
    while high + 1 < len(good) and good[high + 1]:
        high += 1
    # Windows may begin where the guard interval in front of them holds all, and less than a sample later.
    middle = float(begins[low] + begins[high] + 1) / 2
    return Window(round(middle), middle - round(middle), float(begins[high] - begins[low]))


@lru_cache(maxsize=256)
def _fit(numbers: bytes, guard: float, ratio: int) -> Tuple[np.ndarray, np.ndarray, np.ndarray]:
    """How subcarriers weigh in the misfit of a channel whose delays up to half a guard interval have the same power.

    Parameters
    ----------
    numbers : bytes
        Of the subcarriers.
    guard : float
        The guard interval's part of a transform.
    ratio : int
        The channel's power beside its noise of power 1, in steps of `RATIO` dB.

    Returns
    -------
    weights : ndarray of float64, shape (pairs,)
    pairs, apart : ndarray of int64, shape (pairs,)
        The place of each pair of a subcarrier and one that isn't above it, and how far apart these are.
    """
    places = np.frombuffer(numbers, np.int64)
    apart = places[:, None] - places
    inverse = np.linalg.inv(10 ** (0.1 * RATIO * ratio) * np.sinc(apart * guard) + np.eye(len(places)))
    pairs = np.flatnonzero(apart.reshape(-1) >= 0)
    return inverse.reshape(-1)[pairs], pairs, apart.reshape(-1)[pairs]


@lru_cache(maxsize=None)
def _places(over: int, fine: float, count: int) -> Tuple[np.ndarray, np.ndarray]:
    """The places that are tried for windows, and what products of subcarriers 0 to ``count`` - 1 apart add there.

    The latter multiplies their real parts, and then their imaginary parts: float64, shape (places, 2 * count). A pair stands for
    both of its orders, but for a subcarrier with itself.
    """
    begins = np.arange(PLACES[0] * over, PLACES[1] * over, fine)
    turned = np.exp(2j * np.pi / (TRANSFORM * over) * np.outer(begins, np.arange(count))) * np.where(np.arange(count) > 0, 2, 1)
    return begins, np.concatenate((turned.real, -turned.imag), axis=1)


def shifts_of(drift: float, times: np.ndarray, rest: float) -> Tuple[np.ndarray, np.ndarray]:
    """By how many whole samples each symbol's transform is moved, and by how much it is late then.

    Parameters
    ----------
    drift : float
        As by `drift_of`.
    times : ndarray of float64, shape (symbols,)
        Of symbols at nominal distances.
    rest : float
        By how much later they should begin where the drift is 0, less than a sample.
    """
    late = drift * times
    shifts = np.rint(rest - late).astype(np.int64)
    return shifts, late + shifts


@dataclass(frozen=True)
class Step:
    """A place in a packet from which on symbols don't stand where they should, as where a receiver lost samples.

    Parameters
    ----------
    symbol : int
        The first data symbol that is heard elsewhere.
    samples : int, optional
        How many samples are missing, below 0 where there are too many; None where that isn't known.
    """

    symbol: int
    samples: Optional[int]

    def __str__(self) -> str:
        if self.samples is None:
            return f"a step in time at data symbol {self.symbol}"
        count = "1 sample" if abs(self.samples) == 1 else f"{abs(self.samples)} samples"
        return f"{count} {'missing' if self.samples > 0 else 'too many'} at data symbol {self.symbol}"


def step_of(pilots: np.ndarray, powers: np.ndarray, turns: np.ndarray, times: np.ndarray, drift: float) -> Optional[Step]:
    """The step in time within a packet, or None where there is none.

    How far pilots agree is the length of the sum of a symbol's pilots beside what it should be. Where that is low at the
    packet's beginning or end, a step of each number of samples at each symbol is tried with each drift; the one with which
    pilots agree best is told, if they do so clearly better than without. A step by which they agree nowhere behind it, since
    symbols run into one another there, is told without its samples.

    Parameters
    ----------
    pilots : ndarray of complex128, shape (symbols, pilots)
        z, as `drift_of` takes it.
    powers : ndarray of float64, shape (symbols, pilots)
        w, the power that is expected of each.
    turns : ndarray of float64, shape (pilots,)
        By how many turns a pilot is turned where a symbol is heard a sample late.
    times : ndarray of float64, shape (symbols,)
        As in `drift_of`.
    drift : float
        That was found.
    """
    total, count = powers.sum(axis=1), len(pilots)
    few = FEW_BEHIND if total.mean() > AMPLE_POWER else LEAST_BEHIND
    if count < 2 * few + 1 or total.mean() < LEAST_POWER:
        return None
    agrees = _agreeing(pilots, turns, drift * times)
    ends = np.cumsum(agrees) / np.cumsum(total), np.cumsum(agrees[::-1]) / np.cumsum(total[::-1])
    if min(end[few - 1 :].min() for end in ends) > AS_IT_SHOULD:
        return None
    best, step, well = float(agrees.sum()) + CLEARLY * float(total.sum()), None, 0.0
    for tried in np.unique(np.append(np.linspace(-MOST_DRIFT, MOST_DRIFT, 25), drift)):
        front = np.cumsum(_agreeing(pilots, turns, tried * times))
        for samples in (*range(-FARTHEST, 0), *range(1, FARTHEST + 1)):
            behind = _agreeing(pilots, turns, tried * times + samples)
            # With a step in symbol 1 and so on, which may agree with nothing.
            sums = front[:-2] + total[1:-1] + np.cumsum(behind[::-1])[-3::-1]
            place = few - 1 + int(sums[few - 1 : count - 1 - few].argmax())
            if sums[place] > best:
                best, step = float(sums[place]), Step(place + 1, samples)
                well = float(behind[place + 2 :].sum() / total[place + 2 :].sum())
    if step is not None and well > AS_IT_SHOULD:
        return step
    if count < 2 * LEAST_BEHIND:
        return None
    places = np.arange(LEAST_BEHIND, count - LEAST_BEHIND + 1)
    before, after = ends[0][places - 1], ends[1][count - places - 1]
    place = int(((before - after) * np.sqrt(places * (count - places))).argmax())
    return Step(int(places[place]), None) if before[place] > AS_IT_SHOULD and after[place] < ASTRAY else None


def _agreeing(pilots: np.ndarray, turns: np.ndarray, late: np.ndarray) -> np.ndarray:
    """The lengths of the sums of symbols' pilots where symbols are so many samples late: float64, shape (symbols,)."""
    return np.abs(np.sum(pilots * np.exp(-2j * np.pi * np.outer(late, turns)), axis=1))
