"""Random channels: what a frame goes through in a sweep.

Each is an array of shape (subcarriers, antennas, streams), one matrix for each subcarrier, and a frame keeps it for all of its
symbols. Streams are sent by an antenna each. On average each antenna receives power 1 on a data subcarrier.

==============  ========================================================================================================
``exponential``  taps h_0, h_1 .., one a sample of the bandwidth, as many as the long guard interval has (16 or 32),
                 independent complex Gaussian numbers with a mean power of exp(-l / decay)
``flat``         one such tap: flat Rayleigh fading
``tapped``       such taps with the delays and mean powers of a profile, as ``0:0,50:-3,110:-7.5`` in ns and dB
``tgn-b``        the models B and D of Task Group n (document IEEE 802.11-03/940r4), without line of sight: the taps of all
``tgn-d``        clusters, correlated over antennas that stand half a wave apart by the clusters' angles
``awgn``         no fading: antenna a receives stream s where both are the same modulo the smaller number
FILE.py:NAME     a function of Python: given the rate, the number of antennas and a generator of random numbers it gives
                 the array
==============  ========================================================================================================

With the delays tau_l the channel on the subcarrier with number f is the sum of h_l exp(-2 pi i f 312.5 kHz tau_l), divided by
the root of the number of streams. The taps' powers are scaled so that they add up to 1.
"""

from __future__ import annotations

from dataclasses import dataclass
from functools import lru_cache
from typing import Dict, List, Sequence, Tuple

import numpy as np

from . import plugs
from .errors import InputError
from .rates import Rate

SPACING_HZ = 312.5e3  # between subcarriers
EXPONENTIAL, TAPPED = "exponential", "tapped"
NAMES = (EXPONENTIAL, "flat", TAPPED, "tgn-b", "tgn-d", "awgn")
Profile = Tuple[Tuple[float, float], ...]


@dataclass(frozen=True)
class Cluster:
    """A cluster of a TGn model.

    Parameters
    ----------
    taps : tuple of (float, float)
        Delays in ns and mean powers in dB.
    arrival, departure : (float, float)
        The mean angle and the angular spread at the receiver and at the transmitter, in degrees.
    """

    taps: Profile
    arrival: Tuple[float, float]
    departure: Tuple[float, float]


def _taps(delays: Sequence[float], powers: Sequence[float]) -> Profile:
    return tuple(zip(map(float, delays), powers))


TGN: Dict[str, Tuple[Cluster, ...]] = {
    "tgn-b": (
        Cluster(_taps(range(0, 50, 10), (0.0, -5.4, -10.8, -16.2, -21.7)), (4.3, 14.4), (225.1, 14.4)),
        Cluster(_taps(range(20, 90, 10), (-3.2, -6.3, -9.4, -12.5, -15.6, -18.7, -21.8)), (118.4, 25.2), (106.5, 25.4)),
    ),
    "tgn-d": (
        Cluster(_taps((0, 10, 20, 30, 40, 50, 60, 70, 80, 90, 110, 140, 170, 200, 240, 290),
                      (0.0, -0.9, -1.7, -2.6, -3.5, -4.3, -5.2, -6.1, -6.9, -7.8, -9.0, -11.1, -13.7, -16.3, -19.3, -23.2)),
                (158.9, 27.7), (332.1, 27.4)),
        Cluster(_taps((110, 140, 170, 200, 240, 290, 340), (-6.6, -9.5, -12.1, -14.7, -17.4, -21.9, -25.5)), (320.2, 31.4), (49.3, 32.1)),
        Cluster(_taps((240, 290, 340, 390), (-18.8, -23.2, -25.2, -26.7)), (276.1, 37.4), (275.9, 36.8)),
    ),
}


def profile_of(text: str) -> Profile:
    """A delay profile from its text: delays in ns and mean powers in dB, as ``0:0,50:-3,110:-7.5``.

    Raises
    ------
    InputError
        If it is none, if a delay is below 0 or above 10000 ns, or a power isn't from -200 to 200 dB.
    """
    try:
        found = tuple((float(delay), float(power)) for delay, power in (pair.split(":") for pair in text.split(",")))
    except ValueError:
        raise InputError(f"{text} is no delay profile as 0:0,50:-3, in ns and dB") from None
    if not all(0 <= delay <= 10000 and -200 <= power <= 200 for delay, power in found):
        raise InputError(f"{text}: delays are from 0 to 10000 ns, and powers from -200 to 200 dB")
    return found


def delay_spread(profile: Profile) -> float:
    """The root mean square of a profile's delays about their mean, weighted with the powers, in ns."""
    delays, powers = np.array(profile).T
    weights = 10 ** (powers / 10)
    weights /= weights.sum()
    return float(np.sqrt((weights * (delays - (weights * delays).sum()) ** 2).sum()))


def gaussian(generator: np.random.Generator, shape: Tuple[int, ...]) -> np.ndarray:
    """Independent complex Gaussian numbers of mean power 1."""
    parts = generator.standard_normal((*shape, 2))
    return (parts[..., 0] + 1j * parts[..., 1]) / np.sqrt(2)


def rayleigh(rate: Rate, antennas: int, decay: float, generator: np.random.Generator) -> np.ndarray:
    """The channel ``exponential``.

    Parameters
    ----------
    rate : Rate
    antennas : int
    decay : float
        In samples of the bandwidth, 50 ns at 20 MHz and 25 ns at 40 MHz; 0 is one tap alone.
    generator : Generator

    Returns
    -------
    ndarray of complex128, shape (subcarriers, antennas, streams)
    """
    transform = 64 * rate.bandwidth // 20
    samples = np.arange(transform // 4)
    powers = np.exp(-samples / decay) if decay > 0 else (samples == 0).astype(float)
    taps = np.sqrt(powers / powers.sum()) * gaussian(generator, (antennas, rate.streams, samples.size))
    turns = np.exp(-2j * np.pi * np.outer(rate.frequencies, samples) / transform)
    return np.einsum("cl,asl->cas", turns, taps) / np.sqrt(rate.streams)


def tapped(rate: Rate, antennas: int, profile: Profile, generator: np.random.Generator) -> np.ndarray:
    """The channel ``tapped``, of independent taps; parameters as in `rayleigh`."""
    delays, powers = np.array(profile, float).T
    taps = _amplitudes(powers) * gaussian(generator, (antennas, rate.streams, delays.size))
    return _seen(rate, delays, taps)


def _amplitudes(decibels: np.ndarray) -> np.ndarray:
    powers = 10 ** (decibels / 10)
    return np.sqrt(powers / powers.sum())


def _seen(rate: Rate, delays: np.ndarray, taps: np.ndarray) -> np.ndarray:
    """Taps of shape (antennas, streams, taps) as a channel over the subcarriers."""
    turns = np.exp(-2j * np.pi * np.outer(rate.frequencies, delays * 1e-9 * SPACING_HZ))
    return np.einsum("cl,asl->cas", turns, taps) / np.sqrt(rate.streams)


def tgn_profile(name: str) -> Profile:
    """The taps of a TGn model, those of all clusters together: their delays and powers."""
    powers: Dict[float, float] = {}
    for cluster in TGN[name]:
        for delay, power in cluster.taps:
            powers[delay] = powers.get(delay, 0.0) + 10 ** (power / 10)
    return tuple((delay, float(10 * np.log10(powers[delay]))) for delay in sorted(powers))


def tgn(rate: Rate, antennas: int, name: str, generator: np.random.Generator) -> np.ndarray:
    """The channel of a TGn model; parameters as in `rayleigh`."""
    delays, powers = np.array(tgn_profile(name)).T
    taps = _amplitudes(powers) * gaussian(generator, (antennas, rate.streams, delays.size))
    here, there = _tgn_roots(name, antennas, True), _tgn_roots(name, rate.streams, False)
    return _seen(rate, delays, np.einsum("lab,bsl,lts->atl", here, taps, there))


@lru_cache(maxsize=None)
def _tgn_roots(name: str, count: int, arrival: bool) -> np.ndarray:
    """For each tap a root of the correlation of antennas in a row, half a wave apart: shape (taps, count, count).

    The power over the angle is that of each cluster's truncated Laplacian distribution, weighted with the cluster's power in
    the tap.
    """
    angles = np.linspace(-np.pi, np.pi, 3601)[:-1]
    apart = np.arange(count)[:, None] - np.arange(count)
    found: List[np.ndarray] = []
    for delay, _ in tgn_profile(name):
        density = np.zeros(angles.size)
        for cluster in TGN[name]:
            mean, spread = np.radians(cluster.arrival if arrival else cluster.departure)
            power = sum(10 ** (power / 10) for at, power in cluster.taps if at == delay)
            off = (angles - mean + np.pi) % (2 * np.pi) - np.pi
            laplacian = np.exp(-np.sqrt(2) * np.abs(off) / spread)
            density += power * laplacian / laplacian.sum()
        density /= density.sum()
        turns = np.exp(1j * np.pi * np.multiply.outer(apart, np.sin(angles)))
        values, vectors = np.linalg.eigh(turns @ density)
        found.append((vectors * np.sqrt(np.maximum(values, 0))) @ vectors.conj().T)
    return np.array(found)


def awgn(rate: Rate, antennas: int) -> np.ndarray:
    """The channel ``awgn``; parameters as in `rayleigh`."""
    smaller = min(antennas, rate.streams)
    joined = (np.arange(antennas)[:, None] % smaller == np.arange(rate.streams) % smaller).astype(complex)
    joined /= np.sqrt((joined**2).sum(axis=1, keepdims=True))
    return np.repeat(joined[None], rate.subcarriers, axis=0)


def check_channel(channel: str, profile: Profile) -> None:
    """Refuse a channel that isn't one.

    Raises
    ------
    InputError
    """
    if channel not in NAMES and not plugs.names_function(channel):
        raise InputError(f"the channel is one of {', '.join(NAMES)} or a function as FILE.py:NAME, and not {channel}")
    if channel == "tapped" and not profile:
        raise InputError("the channel tapped needs a delay profile")


def draw(channel: str, rate: Rate, antennas: int, decay: float, profile: Profile, generator: np.random.Generator) -> np.ndarray:
    """A channel by its name.

    Parameters
    ----------
    channel : str
        One of `NAMES`, or a function as ``FILE.py:NAME``.
    rate : Rate
    antennas : int
    decay : float
        Of ``exponential``.
    profile : tuple
        Of ``tapped``.
    generator : Generator

    Returns
    -------
    ndarray of complex128, shape (subcarriers, antennas, streams)

    Raises
    ------
    InputError
        If a function can't be loaded, fails, or gives another shape or numbers that aren't finite.
    """
    if channel == "exponential":
        return rayleigh(rate, antennas, decay, generator)
    if channel == "flat":
        return rayleigh(rate, antennas, 0.0, generator)
    if channel == "tapped":
        return tapped(rate, antennas, profile, generator)
    if channel in TGN:
        return tgn(rate, antennas, channel, generator)
    if channel == "awgn":
        return awgn(rate, antennas)
    made = plugs.load(channel)(rate, antennas, generator)
    return checked(channel, made, (rate.subcarriers, antennas, rate.streams))


def checked(name: str, made: object, shape: Tuple[int, ...]) -> np.ndarray:
    """What a user's function gave, where it is an array of complex numbers of this shape."""
    try:
        array = np.asarray(made, complex)
    except (TypeError, ValueError):
        raise InputError(f"{name} gave no array of numbers") from None
    if array.shape != shape:
        raise InputError(f"{name} gave an array of shape {array.shape}, and {shape} is asked for")
    if not np.isfinite(array).all():
        raise InputError(f"{name} gave numbers that aren't finite")
    return array
