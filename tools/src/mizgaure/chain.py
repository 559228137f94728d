"""From octets to coded bits and where they land in a frame; ``docs/CHAIN.md`` of the repository states the formulas.

The judge needs this to tell a frame that is as near as the reference's from one that isn't: `least_hamming` is the least
Hamming distance of any codeword that carries given octets.
"""

from __future__ import annotations

from functools import lru_cache
from typing import Tuple

import numpy as np

from .errors import InputError
from .rates import Rate, labels_of, scrambling_sequence

TAPS_A, TAPS_B = (0, 2, 3, 5, 6), (0, 1, 2, 3, 6)
# The kept bits of each period of steps, as (step, 0 for A or 1 for B), by the denominator of the coding rate.
KEPT = {2: ((0, 0), (0, 1)), 3: ((0, 0), (0, 1), (1, 0)), 4: ((0, 0), (0, 1), (1, 0), (2, 1)),
        6: ((0, 0), (0, 1), (1, 0), (2, 1), (3, 0), (4, 1))}
SERVICE, SEED_BITS, TAIL = 16, 7, 6
ERASED = 2


def steps(rate: Rate, length: int) -> int:
    """The number of steps T of each codeword, its tail of six zeros counted."""
    return (SERVICE + 8 * length) // rate.encoders + TAIL


@lru_cache(maxsize=8)
def kept_places(rate: Rate, count: int) -> np.ndarray:
    """Which of the coded bits A0 B0 A1 B1 .. of a number of steps are kept (clauses 18.3.5.6 and 20.3.11.6): int64, ascending."""
    pattern = KEPT[rate.coding_rate.denominator]
    period = max(step for step, _ in pattern) + 1
    places = np.array([2 * step + half for step, half in pattern])
    rounds = -(-count // period)
    kept = (2 * period * np.arange(rounds)[:, None] + places).reshape(-1)
    return kept[kept < 2 * count]


def encode(rate: Rate, inputs: np.ndarray) -> np.ndarray:
    """The kept coded bits of inputs: uint8, shape (.., steps) to (.., kept)."""
    count = inputs.shape[-1]
    padded = np.concatenate((np.zeros(inputs.shape[:-1] + (6,), np.uint8), inputs.astype(np.uint8)), axis=-1)
    coded = np.zeros(inputs.shape[:-1] + (count, 2), np.uint8)
    for half, taps in enumerate((TAPS_A, TAPS_B)):
        for delay in taps:
            coded[..., half] ^= padded[..., 6 - delay : 6 - delay + count]
    return coded.reshape(inputs.shape[:-1] + (-1,))[..., kept_places(rate, count)]


@lru_cache(maxsize=8)
def symbol_landing(rate: Rate) -> Tuple[np.ndarray, np.ndarray, np.ndarray]:
    """Where the coded bits of a symbol land (clause 20.3.11.8).

    Returns
    -------
    carrier, stream, bit : ndarray of int64, shape (encoders, N_CBPS / N_ES)
        The number of the data subcarrier, the stream from 0, and the bit of the label, the most significant one being 0.
    """
    encoders, bits = rate.encoders, rate.bits_per_point
    per_stream, axis = rate.coded_bits_per_stream, rate.bits_per_axis
    columns, rows, turn = (13, 4 * bits, 11) if rate.bandwidth == 20 else (18, 6 * bits, 29)
    shape = (encoders, rate.coded_bits // encoders)
    carrier, stream, label_bit = (np.zeros(shape, np.int64) for _ in range(3))
    k = np.arange(per_stream)
    encoder = k // axis % encoders
    for iss in range(1, rate.streams + 1):
        place = (iss - 1) * axis + rate.streams * axis * (k // (encoders * axis)) + k % axis
        i = rows * (k % columns) + k // columns
        j = axis * (i // axis) + (i + per_stream - columns * i // per_stream) % axis
        r = (j - (2 * (iss - 1) % 3 + 3 * ((iss - 1) // 3)) * turn * bits) % per_stream
        carrier[encoder, place], stream[encoder, place], label_bit[encoder, place] = r // bits, iss - 1, r % bits
    return carrier, stream, label_bit


def received_bits(rate: Rate, length: int, points: np.ndarray, erased: np.ndarray) -> np.ndarray:
    """The received places of the codewords of a frame.

    Parameters
    ----------
    rate : Rate
    length : int
        The number of octets of the PSDU.
    points : ndarray of complex, shape (symbols, subcarriers, streams)
        Detected points; what stands on pilots and erased subcarriers isn't looked at.
    erased : ndarray of bool, shape (subcarriers,)

    Returns
    -------
    ndarray of uint8, shape (encoders, kept)
        0 or 1, and 2 at an erasure.

    Raises
    ------
    InputError
        If a point isn't one of the constellation.
    """
    data = ~rate.is_pilot
    labels = np.where(erased[data][:, None], np.int8(0), labels_of(points[:, data], rate))
    if (labels < 0).any():
        raise InputError("a data subcarrier has a point that isn't one of the constellation")
    carrier, stream, bit = symbol_landing(rate)
    coded = labels[:, carrier, stream] >> (rate.bits_per_point - 1 - bit) & 1
    coded = np.where(erased[data][carrier], ERASED, coded).astype(np.uint8)
    sent = kept_places(rate, steps(rate, length)).size
    return coded.transpose(1, 0, 2).reshape(rate.encoders, -1)[:, :sent]


def least_hamming(rate: Rate, octets: bytes, received: np.ndarray) -> int:
    """The least Hamming distance from the received places of any codewords that carry given octets.

    Codewords that carry the octets differ in the seed, 1 to 127, and in the bits 7 to 15 of SERVICE, which no receiver
    judges; all 127 * 512 of them are tried.

    Parameters
    ----------
    rate : Rate
    octets : bytes
        A PSDU.
    received : ndarray of uint8, shape (encoders, kept)
        As from `received_bits`, for a PSDU of this length.
    """
    sequences = np.stack([scrambling_sequence(seed) for seed in range(1, 128)])
    bits = np.unpackbits(np.frombuffer(octets, np.uint8), bitorder="little")
    beginning = SERVICE // rate.encoders + TAIL  # the steps whose coded bits depend on SERVICE
    services = np.zeros((127, 512, SERVICE), np.uint8)
    services[..., :SEED_BITS] = sequences[:, None, :SEED_BITS]
    services[..., SEED_BITS:] = np.arange(512)[:, None] >> np.arange(SERVICE - SEED_BITS) & 1
    front, behind = np.zeros((127, 512), np.int64), np.zeros(127, np.int64)
    for encoder in range(rate.encoders):
        starts = services[..., encoder :: rate.encoders]
        firsts = np.zeros((127, beginning - starts.shape[-1]), np.uint8)
        for row, sequence in enumerate(sequences):
            scrambled = bits ^ np.resize(np.roll(sequence, -SERVICE), bits.size)
            inputs = np.concatenate((np.zeros(SERVICE, np.uint8), scrambled))[encoder :: rate.encoders]
            inputs = np.concatenate((inputs, np.zeros(TAIL, np.uint8)))
            split = int(np.searchsorted(kept_places(rate, inputs.size), 2 * beginning))
            behind[row] += _distance(encode(rate, inputs)[split:], received[encoder, split:])
            firsts[row] = inputs[starts.shape[-1] : beginning]
        inputs = np.concatenate((starts, np.repeat(firsts[:, None], 512, axis=1)), axis=-1)
        front += _distance(encode(rate, inputs), received[encoder, :split])
    return int((front.min(axis=1) + behind).min())


def _distance(coded: np.ndarray, received: np.ndarray) -> np.ndarray:
    return np.count_nonzero((coded != received) & (received != ERASED), axis=-1)
