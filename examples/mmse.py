"""A detector for `mizgaure sweep --detector mmse=examples/mmse.py:mmse`: linear, with the least mean squared error."""

import numpy as np


def mmse(frame, noise):
    """Each stream's estimate on each subcarrier of each symbol, in the levels of the constellation."""
    channel = frame.triangles  # (subcarriers, streams, streams)
    adjoint = channel.conj().swapaxes(1, 2)
    loading = noise / frame.rate.power * np.eye(frame.rate.streams)
    inverse = np.linalg.solve(adjoint @ channel + loading, adjoint)
    gain = np.einsum("ckl,clk->ck", inverse, channel).real  # below 1, since the estimate leans towards 0
    return np.einsum("ckl,scl->sck", inverse, frame.samples) / gain
