"""Discrete Fourier transforms in single precision: scipy's where it is installed, or else numpy's, which are slower."""

from __future__ import annotations

from typing import Optional

import numpy as np

try:
    from scipy import fft as _transforms
except ImportError:  # numpy computes in double precision
    from numpy import fft as _transforms  # type: ignore[no-redef]


def forward(values: np.ndarray, length: Optional[int] = None) -> np.ndarray:
    """The spectra of rows, padded with zeros to a length: complex64 for complex64."""
    return _transforms.fft(values, length, axis=-1).astype(np.complex64, copy=False)


def phasors(turns: np.ndarray) -> np.ndarray:
    """The numbers of length 1 with so many turns, few of them: complex64, of the same shape."""
    angles = (2 * np.pi * turns).astype(np.float32)
    made = np.empty(angles.shape, np.complex64)
    np.cos(angles, out=made.real)
    np.sin(angles, out=made.imag)
    return made


def backward(spectra: np.ndarray) -> np.ndarray:
    """The rows of spectra: complex64 for complex64."""
    return _transforms.ifft(spectra, axis=-1).astype(np.complex64, copy=False)
