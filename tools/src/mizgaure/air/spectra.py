"""The samples of one packet, and transforms of windows of them."""

from __future__ import annotations

from typing import Optional

import numpy as np

from .fourier import forward
from .standard import TRANSFORM

# Samples at 20 MHz from a packet's beginning to its first long symbol, behind that one's guard interval.
FRONT = 192
TURNS = 64  # samples whose turns are computed at once


class Spectra:
    """A packet's samples. Instants are counted from the beginning of its first long symbol.

    Parameters
    ----------
    samples : ndarray of complex64, shape (rows, instants)
    front : int
        How many of them are in front of that.
    oversampling : int
        1 for 20 million samples a second, 2 for 40 million.
    offset : float
        The carrier's, in turns a sample, which is taken off what is transformed.
    """

    def __init__(self, samples: np.ndarray, front: int, oversampling: int, offset: float) -> None:
        self.samples, self.front, self.over, self.offset = samples, front, oversampling, offset
        self.length = TRANSFORM * oversampling
        self._windows = windows_of(turned(samples, offset, front), self.length)

    def of(self, begins: np.ndarray) -> Optional[np.ndarray]:
        """The spectra of windows that begin at instants.

        Returns
        -------
        ndarray of complex64, shape (rows, windows, numbers), or None
            None where one of them isn't whole.
        """
        places = np.asarray(begins) + self.front
        if not places.size or places.max() >= self._windows.shape[1] or places.min() < 0:
            return None
        return forward(self._windows[:, places])


def windows_of(samples: np.ndarray, length: int) -> np.ndarray:
    """All windows of rows of samples, of which there is one copy at most: shape (rows, windows, length)."""
    samples = np.ascontiguousarray(samples)
    rows, count = samples.shape
    step, width = samples.strides
    return np.ndarray((rows, max(0, count - length + 1), length), samples.dtype, samples, 0, (step, width, width))


def turned(samples: np.ndarray, offset: float, front: int) -> np.ndarray:
    """Samples without their carrier's offset, which turns nothing at instant ``front``: complex64, of the same shape."""
    count = samples.shape[1]
    coarse = np.exp(-2j * np.pi * ((offset * (np.arange(0, count, TURNS) - front)) % 1))
    turns = np.outer(coarse, np.exp(-2j * np.pi * offset * np.arange(TURNS))).astype(np.complex64).reshape(-1)
    return samples * turns[:count]
