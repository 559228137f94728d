"""Exact distances of vectors, and the zero-forcing detector as an example of another receiver.

``docs/DETECTION.md`` of the repository defines the distance.
"""

from __future__ import annotations

import numpy as np

from .answers import Jobs
from .formats import CaptureFrame
from .rates import Rate, labels_of

HALF = 32


def residuals(frame: CaptureFrame, symbol: np.ndarray, carrier: np.ndarray, points: np.ndarray) -> np.ndarray:
    """What the samples of jobs differ by from a vector seen through the channel, exactly.

    Parameters
    ----------
    frame : CaptureFrame
    symbol, carrier : ndarray of int, shape (jobs,)
    points : ndarray of complex, shape (jobs, streams)
        Levels from -7 to 7.

    Returns
    -------
    ndarray of complex128, shape (jobs, streams)
        Row by row ``y - R x``. Its parts are whole and below 2**32 in size, so no rounding happens.
    """
    return frame.samples[symbol, carrier] - np.einsum("jkl,jl->jk", frame.triangles[carrier], points)


def distances(frame: CaptureFrame, symbol: np.ndarray, carrier: np.ndarray, points: np.ndarray) -> np.ndarray:
    """The squared distances of vectors, exactly; parameters as in `residuals`.

    Returns
    -------
    ndarray, shape (jobs,)
        int64 where all are below 2**63, and Python's whole numbers otherwise.
    """
    rest = residuals(frame, symbol, carrier, points)
    parts = np.concatenate((rest.real, rest.imag), axis=1).astype(np.int64)
    squares = parts * parts  # each below 2**63
    high, low = (squares >> HALF).sum(axis=1), (squares & (2**HALF - 1)).sum(axis=1)
    if high.size == 0 or int(high.max()) + 8 < 2 ** (63 - HALF):
        return (high << HALF) + low
    return high.astype(object) * 2**HALF + low.astype(object)


def on_grid(rate: Rate, symbol: np.ndarray, carrier: np.ndarray, points: np.ndarray) -> np.ndarray:
    """Which vectors are in the grid of their job: the constellation on each stream, and on a pilot the pilot's value.

    Parameters
    ----------
    rate : Rate
    symbol, carrier : ndarray of int, shape (jobs,)
    points : ndarray of complex, shape (jobs, streams)

    Returns
    -------
    ndarray of bool, shape (jobs,)
    """
    good = (labels_of(points, rate) >= 0).all(axis=1)
    pilot = rate.is_pilot[carrier]
    if pilot.any():
        number = np.cumsum(rate.is_pilot) - 1
        signs = rate.pilot_signs(int(symbol.max()) + 1)[symbol[pilot], number[carrier[pilot]]]
        good[pilot] = (points[pilot] == signs).all(axis=1)
    return good


def places(frame: CaptureFrame):
    """The places of all jobs of a frame, in their order: symbol and carrier, each ndarray of int64, shape (jobs,)."""
    present = np.flatnonzero(~frame.erased)
    symbols = frame.samples.shape[0]
    return np.repeat(np.arange(symbols), present.size), np.tile(present, symbols)


def zero_forcing(frame: CaptureFrame, number: int = 0) -> Jobs:
    """Detect a frame by inverting its channel and rounding each stream by itself.

    It is no nearest vector in general: noise that the inverse makes larger is rounded as if streams had nothing to do with
    one another. Where a diagonal is 0 that stream is answered as if nothing was received on it.

    Parameters
    ----------
    frame : CaptureFrame
    number : int
        The frame's number.

    Returns
    -------
    Jobs
        With the exact distances of its vectors.
    """
    rate = frame.rate
    triangles = frame.triangles.copy()
    diagonal = np.einsum("cii->ci", triangles)
    unheard = diagonal == 0
    diagonal[unheard] = 1
    inverses = np.linalg.inv(triangles)
    symbol, carrier = places(frame)
    heard = np.einsum("jkl,jl->jk", inverses[carrier], frame.samples[symbol, carrier])
    heard = np.where(unheard[carrier], 0, heard)
    points = nearest_points(rate, heard)
    pilot = rate.is_pilot[carrier]
    if pilot.any():
        index = np.cumsum(rate.is_pilot) - 1
        points[pilot] = rate.pilot_signs(frame.samples.shape[0])[symbol[pilot], index[carrier[pilot]]]
    return Jobs(number, symbol, carrier, distances(frame, symbol, carrier, points), points)


def nearest_points(rate: Rate, values: np.ndarray) -> np.ndarray:
    """The point of the constellation nearest to each value; the lower level at a tie. complex128, of the same shape."""

    def nearest_level(parts: np.ndarray) -> np.ndarray:
        level = 2 * np.ceil(parts / 2) - 1
        return np.clip(level, -rate.highest_level, rate.highest_level)

    real = nearest_level(values.real)
    return real + 0j if rate.bits_per_point == 1 else real + 1j * nearest_level(values.imag)
