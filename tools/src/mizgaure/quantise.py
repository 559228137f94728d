"""A capture from floating point: the channel and the received vectors of frames, rotated, scaled and rounded.

``docs/CAPTURES.md`` of the repository states the mathematics and works one subcarrier through by hand. The model is

    Y = H K x + noise

on each subcarrier, where x is a vector of points with odd parts, as in a file of symbols, and K is the normalising factor
of clause 18.3.5.8 on a data subcarrier and 1 on a pilot. All else that happens between the constellation and the receive
antennas is in H: cyclic shifts, spatial mapping, the power of each stream, the rotation of the upper half of a 40 MHz
channel.
"""

from __future__ import annotations

from dataclasses import dataclass
from fractions import Fraction
from functools import lru_cache
from typing import Iterable, List, Optional, Sequence, Union

import numpy as np

from .errors import FitError, InputError
from .formats import DIAGONAL_LIMIT, ENTRY_LIMITS, SAMPLE_LIMITS, CaptureFrame, check_shape, show
from .rates import Rate

FOR_SOFT = "soft"  # a gain that fits weights
BLOCK = 256  # symbols that are rotated at once
SOFT_DIAGONAL = 80.0  # neighbouring points are then 160 apart, and a weight between them is 25600 of the 65535 at which it is cut
SOFT_DIAGONAL_AT_5_6 = 160.0  # in 64-QAM at rate 5/6, where twice the gain loses no more, and costs less

Gain = Optional[Union[float, str]]


@dataclass(eq=False)
class MeasuredFrame:
    """What a laboratory has of a frame, in floating point.

    Parameters
    ----------
    bandwidth : int
        20 or 40, in MHz.
    mcs : int
        0 to 31.
    length : int
        The number of octets of the PSDU, 1 to 65535.
    channel : ndarray of complex, shape (subcarriers, antennas, streams)
        H for each subcarrier in ascending frequency, pilots counted. There may be fewer antennas than streams.
    received : ndarray of complex, shape (symbols, subcarriers, antennas)
        Y for each symbol and subcarrier, in the same unit as H.
    erased : sequence, optional
        Which subcarriers are left out: their indexes from 0, or bool of shape (subcarriers,). What H and Y say there is
        not looked at.
    """

    bandwidth: int
    mcs: int
    length: int
    channel: np.ndarray
    received: np.ndarray
    erased: Optional[Union[np.ndarray, Sequence[int]]] = None

    @property
    def rate(self) -> Rate:
        """The frame's rate."""
        return Rate(self.bandwidth, self.mcs)

    def erased_mask(self) -> np.ndarray:
        """Which subcarriers are erased: bool, shape (subcarriers,)."""
        carriers = self.rate.subcarriers
        given = _numbers("erased", [] if self.erased is None else self.erased, "biuf")
        if given.dtype == bool:
            if given.shape != (carriers,):
                raise InputError(f"erased has the shape {given.shape}, and {(carriers,)} is asked for")
            return given.copy()
        mask = np.zeros(carriers, bool)
        for index in given.reshape(-1):
            if not 0 <= index < carriers or index != int(index):
                raise InputError(f"subcarrier {index} is erased, and the subcarriers are 0 to {carriers - 1}")
            mask[int(index)] = True
        return mask


@dataclass(eq=False)
class Capture:
    """Frames fit for a capture, and what rounding did to them.

    Parameters
    ----------
    frames : list of CaptureFrame
    gains : ndarray of float64, shape (frames,)
        What each frame was multiplied with before it was rounded.
    bounds : ndarray of float64, shape (frames,)
        By how much rounding can change the square root of the distance of any vector of the frame, in whole units.
    """

    frames: List[CaptureFrame]
    gains: np.ndarray
    bounds: np.ndarray

    def distance_change(self, frame: int, distance: np.ndarray) -> np.ndarray:
        """By how much the distance of a vector in the capture can differ from the squared gain times its true distance.

        Parameters
        ----------
        frame : int
            The frame's number.
        distance : array_like
            Distances in the capture, as ``radio detect`` says them.

        Returns
        -------
        ndarray of float64
            At most E (2 sqrt(distance) + E), where E is the frame's bound.
        """
        bound = self.bounds[frame]
        return bound * (2 * np.sqrt(np.asarray(distance, float)) + bound)


def capture(frames: Iterable[MeasuredFrame], gain: Union[Gain, Sequence[Gain]] = None, *, first: int = 0) -> Capture:
    """Make a capture of frames in floating point.

    Parameters
    ----------
    frames : iterable of MeasuredFrame
    gain : float, ``"soft"`` or a sequence of these, optional
        What each frame is multiplied with before it is rounded, one for all frames or one for each. By default the largest
        with which nothing of the frame leaves its field. With ``"soft"`` that at which the median of the diagonals of data
        subcarriers is `soft_diagonal` of the rate, which fits weights, or the largest where that is less.
    first : int
        The number of the first frame, for messages.

    Returns
    -------
    Capture
        Its frames go to `write_htcp` as they are.

    Raises
    ------
    FitError
        If a number isn't finite, or doesn't fit its field at the gain given. The message names frame, subcarrier and entry.
    InputError
        If a shape is wrong, all subcarriers of a frame are erased, or a gain isn't above 0.
    """
    frames = list(frames)
    gains: List[Gain]
    if gain is None or np.ndim(gain) == 0:
        gains = [gain] * len(frames)  # type: ignore[list-item]
    else:
        gains = list(gain)  # type: ignore[arg-type]
        if len(gains) != len(frames):
            raise InputError(f"{len(gains)} gains are given for {len(frames)} frames")
    made = [_quantised(number, frame, asked) for number, (frame, asked) in enumerate(zip(frames, gains), first)]
    used = np.array([scale for _, scale in made], float)
    return Capture([frame for frame, _ in made], used, np.array([rounding_bound(frame.rate) for frame, _ in made], float))


@lru_cache(maxsize=None)
def rounding_bound(rate: Rate) -> float:
    """By how much rounding can change the square root of a distance, in whole units, at any gain.

    With M the highest level, the error of row k of n, from rounding the sample and each entry by at most 1/2 in each part,
    is at most (1 + M + 2 M (n - k)) / 2 in the real part, and the same in the imaginary part; in BPSK, whose points are
    real, (2 + n - k) / 2 and (1 + n - k) / 2. The bound is the length of the vector of these.
    """
    behind = np.arange(rate.streams)[::-1]
    if rate.bits_per_point == 1:
        real, imag = (2 + behind) / 2, (1 + behind) / 2
    else:
        level = rate.highest_level
        real = imag = (1 + level + 2 * level * behind) / 2
    return float(np.sqrt(np.sum(real**2) + np.sum(imag**2)))


def _numbers(name: str, given: object, kinds: str) -> np.ndarray:
    """An array of numbers of some kinds, refused under its name where it is anything else."""
    try:
        array = np.asarray(given)
    except ValueError:
        raise InputError(f"{name} isn't an array of numbers") from None
    if array.size and array.dtype.kind not in kinds:
        raise InputError(f"{name} isn't an array of numbers, but of {array.dtype}")
    return array


def _quantised(number: int, frame: MeasuredFrame, gain: Gain):
    try:
        rate, erased = frame.rate, frame.erased_mask()
        symbols = rate.symbols(frame.length)
        channel, received = _numbers("channel", frame.channel, "biufc").astype(complex, copy=False), _numbers("received", frame.received, "biufc")
    except InputError as error:
        raise InputError(f"frame {number}: {error}") from error
    antennas = channel.shape[1] if channel.ndim == 3 else 0
    if antennas == 0:
        raise InputError(f"frame {number}: channel has the shape {channel.shape}, and (subcarriers, antennas, streams) is asked for")
    check_shape(number, "channel", channel, (rate.subcarriers, antennas, rate.streams))
    check_shape(number, "received", received, (symbols, rate.subcarriers, antennas))
    if erased.all():
        raise InputError(f"frame {number}: all subcarriers are erased, and a frame has a present one")
    _check_finite(number, channel, received, erased)
    with np.errstate(all="ignore"):
        triangles, samples = rotate(rate, channel, received, erased)
        given = gain
        if gain is None or gain == FOR_SOFT:
            largest = _largest_gain(triangles, samples)
            gain = largest if gain is None else min(largest, _soft_gain(rate, triangles))
        elif isinstance(gain, str):
            raise InputError(f"frame {number}: the gain is {gain}, and has to be a number or {FOR_SOFT}")
        elif not (np.isfinite(gain) and gain > 0):
            raise InputError(f"frame {number}: the gain is {gain}, and has to be above 0")
        if not all(np.isfinite(part).all() for part in (triangles, samples, gain)):
            raise FitError(f"frame {number}: the parts of the channel and of what was received are too large or too small to be scaled")
        triangles, samples = _rounded(triangles, gain), _rounded(samples, gain)
    if given is not None and given != FOR_SOFT:  # with the largest gain, and below it, all parts fit
        _check_fit(number, triangles, samples, gain)
    return CaptureFrame(rate, frame.length, triangles, samples, erased), float(gain)


def rotate(rate: Rate, channel: np.ndarray, received: np.ndarray, erased: np.ndarray):
    """Rotate a frame so that each subcarrier's channel is upper triangular with a real diagonal of at least 0.

    Parameters
    ----------
    rate : Rate
    channel : ndarray of complex128, shape (subcarriers, antennas, streams)
    received : ndarray of complex128, shape (symbols, subcarriers, antennas)
    erased : ndarray of bool, shape (subcarriers,)

    Returns
    -------
    triangles : ndarray of complex128, shape (subcarriers, streams, streams)
        R of H K = Q R. Zeros where erased.
    samples : ndarray of complex128, shape (symbols, subcarriers, streams)
        Q* Y, with Q* the conjugate transpose. Zeros where erased.
    """
    factors = np.where(rate.is_pilot, 1.0, rate.normalising_factor)
    scaled, vectors = channel * factors[:, None, None], received
    if erased.any():
        scaled, vectors = np.where(erased[:, None, None], 0, scaled), np.where(erased[None, :, None], 0, vectors)
    missing = rate.streams - channel.shape[1]
    if missing > 0:  # antennas that hear nothing, so that there is a row for each stream
        scaled = np.pad(scaled, ((0, 0), (0, missing), (0, 0)))
        vectors = np.pad(vectors, ((0, 0), (0, 0), (0, missing)))
    rotation, triangles = np.linalg.qr(scaled)
    diagonal = _diagonal(triangles)
    size = np.abs(diagonal)
    phases = np.where(size > 0, diagonal / np.where(size > 0, size, 1), 1)
    triangles *= phases.conj()[:, :, None]
    triangles *= _upper(rate.streams)
    _diagonal(triangles)[...] = size
    turn = (rotation * phases[:, None, :]).conj()
    samples = np.empty((len(vectors), *turn.shape[::2]), complex)
    for first in range(0, len(vectors), BLOCK):
        np.matmul(vectors[first : first + BLOCK].transpose(1, 0, 2), turn, out=samples[first : first + BLOCK].transpose(1, 0, 2))
    if erased.any():
        triangles[erased] = 0
        samples[:, erased] = 0
    return triangles, samples


@lru_cache(maxsize=None)
def _upper(streams: int) -> np.ndarray:
    """1 where a triangle has entries, and 0 elsewhere."""
    return np.triu(np.ones((streams, streams)))


def _diagonal(triangles: np.ndarray) -> np.ndarray:
    """The diagonals of triangles, which can be written: shape (subcarriers, streams)."""
    return np.einsum("cii->ci", triangles)


def _parts(values: np.ndarray) -> np.ndarray:
    """The parts of complex numbers, the last axis twice as long: float64."""
    return np.ascontiguousarray(values, complex).view(float)


def _rounded(values: np.ndarray, gain: float) -> np.ndarray:
    """Values times a gain, their parts rounded."""
    parts = gain * _parts(values)
    return np.rint(parts, out=parts).view(complex)


def _above(triangles: np.ndarray) -> np.ndarray:
    """Triangles with zeros on the diagonal."""
    made = triangles.copy()
    _diagonal(made)[...] = 0
    return made


def _largest_gain(triangles: np.ndarray, samples: np.ndarray) -> float:
    """The largest gain with which no part leaves its field; 1 where all is 0."""
    used = [_diagonal(triangles).real.max() / DIAGONAL_LIMIT, _share(_above(triangles), ENTRY_LIMITS), _share(samples, SAMPLE_LIMITS)]
    return 1 / max(used) if max(used) > 0 else 1.0


def soft_diagonal(rate: Rate) -> float:
    """The median diagonal of a frame's data subcarriers that fits weights."""
    return SOFT_DIAGONAL_AT_5_6 if rate.coding_rate == Fraction(5, 6) else SOFT_DIAGONAL


def _soft_gain(rate: Rate, triangles: np.ndarray) -> float:
    """The gain at which the median of the diagonals of data subcarriers is `soft_diagonal`, of those that aren't 0."""
    diagonals = _diagonal(triangles).real[~rate.is_pilot]
    heard = diagonals[diagonals > 0]
    return soft_diagonal(rate) / float(np.median(heard)) if heard.size else np.inf


def _share(values: np.ndarray, limits) -> float:
    low, high = limits
    parts = _parts(values)
    return max(parts.max() / high, parts.min() / low)


def _check_finite(number: int, channel: np.ndarray, received: np.ndarray, erased: np.ndarray) -> None:
    if np.isfinite(channel).all() and np.isfinite(received).all():
        return
    good = np.isfinite(channel) | erased[:, None, None]
    if not good.all():
        carrier, antenna, stream = np.argwhere(~good)[0]
        raise FitError(f"frame {number}, subcarrier {carrier}: the channel of antenna {antenna} and stream {stream + 1} isn't finite")
    good = np.isfinite(received) | erased[None, :, None]
    if not good.all():
        symbol, carrier, antenna = np.argwhere(~good)[0]
        raise FitError(f"frame {number}, subcarrier {carrier}, symbol {symbol}: what antenna {antenna} received isn't finite")


def _check_fit(number: int, triangles: np.ndarray, samples: np.ndarray, gain: float) -> None:
    if _within(_diagonal(triangles), 0, DIAGONAL_LIMIT).all() and _share(_above(triangles), ENTRY_LIMITS) <= 1 and _share(samples, SAMPLE_LIMITS) <= 1:
        return
    streams = triangles.shape[-1]
    for row in range(streams):
        for column in range(row, streams):
            low, high = (0, DIAGONAL_LIMIT) if row == column else ENTRY_LIMITS
            entry = triangles[:, row, column]
            good = _within(entry, low, high)
            if not good.all():
                carrier = int(np.argmin(good))
                raise FitError(f"frame {number}, subcarrier {carrier}: entry ({row + 1}, {column + 1}) of the triangle is "
                               f"{show(entry[carrier])} at the gain {gain:.6g}, and the field takes {low} to {high}")
    good = _within(samples, *SAMPLE_LIMITS)
    if not good.all():
        symbol, carrier, row = np.argwhere(~good)[0]
        raise FitError(f"frame {number}, subcarrier {carrier}, symbol {symbol}: sample {row + 1} is "
                       f"{show(samples[symbol, carrier, row])} at the gain {gain:.6g}, and the field takes -2^31 to 2^31 - 1")


def _within(values: np.ndarray, low: int, high: int) -> np.ndarray:
    parts = np.stack((values.real, values.imag))
    return np.all((parts >= min(low, 0)) & (parts <= high), axis=0)
