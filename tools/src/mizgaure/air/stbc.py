"""Space-time block coding (IEEE Std 802.11-2012, clause 20.3.11.9.2): pairs of symbols on their way out, and combined again.

Spatial stream i with the points a and b of two symbols is sent on one space-time stream as a, b, and, where it has a second
one, on that as -b*, a*. With the channels g and h of these two, and y and z received of the two symbols,

    (y, z*)  =  (g, h*) a + (-h, g*) b*        and        (z, -y*)  =  (g, h*) b - (-h, g*) a*

Antennas stand twice in these vectors, once for each symbol. So both symbols have the same channel, that of the streams' (g, h*),
where h is 0 for a stream that is sent once; and what the other symbol of the pair adds has the same covariance in both. For
one spatial stream the other symbol is orthogonal to it. For more it isn't, and a symbol alone isn't all that is known of its
points; there the other symbol is taken for noise of known covariance, which is made white.
"""

from __future__ import annotations

from typing import Dict, Tuple

import numpy as np

# By the numbers of spatial and of space-time streams (table 20-18): for each spatial stream the space-time stream that carries its
# points as they are, and the one that carries them conjugated and exchanged, where there is one.
CARRIERS: Dict[Tuple[int, int], Tuple[Tuple[int, ...], ...]] = {
    (1, 2): ((0, 1),), (2, 3): ((0, 1), (2,)), (2, 4): ((0, 1), (2, 3)), (3, 4): ((0, 1), (2,), (3,)),
}


def is_known(streams: int, more: int) -> bool:
    """Whether so many spatial streams are sent on so many more space-time streams, or on as many."""
    return more == 0 or (streams, streams + more) in CARRIERS


def coded(points: np.ndarray, more: int) -> np.ndarray:
    """Points of spatial streams as those of space-time streams.

    Parameters
    ----------
    points : ndarray of complex128, shape (symbols, subcarriers, streams)
        Of an even number of symbols.
    more : int
        Space-time streams beyond the spatial streams.
    """
    symbols, subcarriers, streams = points.shape
    made = np.empty((symbols, subcarriers, streams + more), complex)
    for stream, (plain, *turned) in enumerate(CARRIERS[streams, streams + more]):
        made[..., plain] = points[..., stream]
        for other in turned:
            made[::2, :, other] = -points[1::2, :, stream].conj()
            made[1::2, :, other] = points[::2, :, stream].conj()
    return made


def channels_of(channel: np.ndarray, streams: int) -> Tuple[np.ndarray, np.ndarray]:
    """The channel of a symbol of a pair, and that of the pair's other symbol in the same vectors.

    Parameters
    ----------
    channel : ndarray of complex, shape (subcarriers, antennas, space-time streams)
    streams : int
        Spatial ones.

    Returns
    -------
    own, other : ndarray of complex128, shape (subcarriers, 2 antennas, streams)
    """
    subcarriers, antennas, sent = channel.shape
    own, other = np.zeros((2, subcarriers, 2 * antennas, streams), complex)
    for stream, (plain, *turned) in enumerate(CARRIERS[streams, sent]):
        own[:, :antennas, stream], other[:, antennas:, stream] = channel[..., plain], channel[..., plain].conj()
        for second in turned:
            own[:, antennas:, stream], other[:, :antennas, stream] = channel[..., second].conj(), -channel[..., second]
    return own, other


def combined(channel: np.ndarray, received: np.ndarray, streams: int, alone: np.ndarray) -> Tuple[np.ndarray, np.ndarray]:
    """Pairs of symbols as symbols of spatial streams, with noise of mean power 1 as it was.

    Parameters
    ----------
    channel : ndarray of complex, shape (subcarriers, antennas, space-time streams)
    received : ndarray of complex, shape (symbols, subcarriers, antennas)
        Of an even number of symbols, whose points have mean power 1.
    streams : int
        Spatial ones, no more than twice the antennas.
    alone : ndarray of bool, shape (subcarriers,)
        Where the pair's other symbol adds nothing.

    Returns
    -------
    channel : ndarray of complex128, shape (subcarriers, streams, streams)
        Triangles.
    received : ndarray of complex64, shape (symbols, subcarriers, streams)
    """
    own, other = channels_of(channel, streams)
    other[alone] = 0
    white = np.linalg.inv(np.linalg.cholesky(np.eye(own.shape[1]) + other @ other.conj().transpose(0, 2, 1)))
    turn, triangle = np.linalg.qr(white @ own)
    filters = turn.conj().transpose(0, 2, 1) @ white
    front, behind = np.split(filters.astype(np.complex64), 2, axis=2)
    first, second = received[::2].transpose(1, 2, 0), received[1::2].transpose(1, 2, 0)
    made = np.empty((*received.shape[:2], streams), np.complex64)
    made[::2] = (front @ first + behind @ second.conj()).transpose(2, 0, 1)
    made[1::2] = (front @ second - behind @ first.conj()).transpose(2, 0, 1)
    return triangle, made
