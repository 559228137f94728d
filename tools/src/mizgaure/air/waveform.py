"""Packets in the time domain: HT-mixed and HT-greenfield format with direct mapping (IEEE Std 802.11-2012, clause 20.3).

A packet is a row of pieces of 4 or 3.6 microseconds. In each of them the signal is a sum of subcarriers,

    sum over k of X_k exp(2 pi i k (t - t_0) 312.5 kHz)

with a time t_0 of its own, and is computed at just the instants at which a receiver with its own clock samples it. Between
pieces there is no smoothing window.
"""

from __future__ import annotations

from dataclasses import dataclass
from typing import List, Optional, Sequence, Tuple

import numpy as np

from ..errors import InputError
from ..formats import SymbolsFrame
from . import standard, stbc
from .form import Form
from .signal import LONGEST_LEGACY, HtSignal, LegacySignal, points_of
from .standard import LONG_GUARD, SYMBOL, TRAINING_GUARD, TRANSFORM

LONGEST = 20 + 4 * (LONGEST_LEGACY // 3 + 1)  # microseconds, which L-SIG can announce


@dataclass(eq=False)
class Pieces:
    """Pieces of one duration that follow one another.

    Parameters
    ----------
    values : ndarray of complex128, shape (pieces, chains, subcarriers)
        X of `standard.span`.
    start : int
        Where the first one begins, in samples at 20 MHz behind the packet's beginning.
    length : int
        Of each, in samples at 20 MHz.
    guards : ndarray of int64, shape (pieces,)
        How far behind a piece's beginning its t_0 is, in samples at 20 MHz.
    """

    values: np.ndarray
    start: int
    length: int
    guards: np.ndarray


@dataclass(frozen=True)
class Clock:
    """How a receiver samples.

    Parameters
    ----------
    oversampling : int
        1 for 20 million samples a second, 2 for 40 million.
    stretch : float
        By how much the receiver's sample lasts longer than it should, in the transmitter's time: 2e-5 for 20 ppm.
    middle : int
        Where the packet's middle lies in the recording's band, in subcarriers.
    """

    oversampling: int
    stretch: float = 0.0
    middle: int = 0


def pieces_of(frame: SymbolsFrame, short_guard: bool = False, aggregated: bool = False, more: int = 0, greenfield: bool = False) -> List[Pieces]:
    """A packet of a frame's symbols, with the standard's pilots in place of the frame's.

    Parameters
    ----------
    frame : SymbolsFrame
    short_guard : bool
        Whether the data symbols have the guard interval of 400 ns, and not that of 800 ns.
    aggregated : bool
        What HT-SIG says of aggregation.
    more : int
        How many space-time streams there are beyond the spatial streams; with more than 0 there is STBC, and where the number of
        symbols is odd the last one is sent once more, in place of a symbol of pads.
    greenfield : bool
        Whether it is in HT-greenfield format.

    Returns
    -------
    list of Pieces
        All transmit chains together have mean power 1.

    Raises
    ------
    InputError
        If the packet lasts longer than L-SIG can announce, in greenfield format too, or STBC has no such streams.
    """
    rate = frame.rate
    if not stbc.is_known(rate.streams, more):
        raise InputError(f"STBC sends {rate} on no {rate.streams + more} space-time streams")
    form = Form(rate, short_guard, more, greenfield)
    lasts = form.duration(frame.length)
    if standard.signal_octets(lasts) > LONGEST_LEGACY:
        raise InputError(f"a packet of {rate} with {frame.length} octets lasts {lasts:.0f} microseconds, "
                         f"and L-SIG can announce {LONGEST}")
    legacy = None if greenfield else LegacySignal(6, standard.signal_octets(lasts))
    signal = HtSignal(rate.mcs, rate.bandwidth == 40, frame.length, aggregated=aggregated, stbc=more, short_guard=short_guard)
    values, guards = preamble(form, legacy, signal)
    front = Pieces(values, 0, SYMBOL, guards)
    symbols = _data(frame, form)
    data = Pieces(symbols, SYMBOL * len(values), TRANSFORM + form.guard, np.full(len(symbols), form.guard))
    return [front, data]


def preamble(form: Form, legacy: Optional[LegacySignal], signal: HtSignal) -> Tuple[np.ndarray, np.ndarray]:
    """All in front of the data symbols, as pieces of 4 microseconds.

    Parameters
    ----------
    form : Form
    legacy : LegacySignal, optional
        None in greenfield format.
    signal : HtSignal

    Returns
    -------
    values : ndarray of complex128, shape (pieces, space-time streams, subcarriers)
    guards : ndarray of int64, shape (pieces,)
    """
    bandwidth, streams = form.rate.bandwidth, form.streams
    turn = standard.rotation(bandwidth) / np.sqrt(streams)
    behind = standard.shifted(standard.stream_shifts(streams), bandwidth) * turn
    short = _scaled(standard.short_training(bandwidth))
    training = _scaled(standard.ht_long_training(bandwidth))
    trainings = [behind * training * standard.TRAINING_SIGNS[:streams, n, None] for n in range(form.fields)]
    points = list(1j * points_of(signal.bits()))
    if legacy is not None:
        points.insert(0, points_of(legacy.bits())[0])
    signals = [_scaled(standard.signal_symbol(row, n, bandwidth)) for n, row in enumerate(points)]
    if form.greenfield:  # streams have their shifts and the signs of HT-LTF1 from the beginning on
        front = behind * standard.TRAINING_SIGNS[:streams, 0, None]
        fields = [*(front * values for values in (short, short, training, training, *signals)), *trainings[1:]]
    else:
        front = standard.shifted(standard.chain_shifts(streams), bandwidth) * turn
        long = _scaled(standard.long_training(bandwidth))
        fields = [*(front * values for values in (short, short, long, long, *signals)), behind * short, *trainings]
    guards = np.full(len(fields), LONG_GUARD)
    guards[2:4] = TRAINING_GUARD, TRAINING_GUARD - SYMBOL  # the long training's two symbols are one behind the other
    return np.stack(fields), guards


def _scaled(values: np.ndarray) -> np.ndarray:
    """Values so that their sum has mean power 1."""
    return values / np.sqrt(np.sum(np.abs(values) ** 2))


def _data(frame: SymbolsFrame, form: Form) -> np.ndarray:
    rate, streams = form.rate, form.streams
    points = frame.points * rate.normalising_factor
    if form.stbc:
        points = stbc.coded(np.concatenate((points, points[-1:])) if len(points) % 2 else points, form.stbc)
    points[:, rate.is_pilot] = standard.pilots(rate, len(points), streams, form.first_polarity)
    behind = standard.shifted(standard.stream_shifts(streams), rate.bandwidth) * standard.rotation(rate.bandwidth)
    made = np.zeros((len(points), streams, behind.shape[-1]), complex)
    carriers = standard.ht_subcarriers(rate.bandwidth)
    made[..., carriers] = points.transpose(0, 2, 1) * behind[:, carriers] / np.sqrt(rate.subcarriers * streams)
    return made


def sampled(pieces: Pieces, begin: float, clock: Clock) -> Tuple[int, np.ndarray]:
    """Pieces as a receiver samples them.

    Parameters
    ----------
    pieces : Pieces
    begin : float
        When the packet begins, in samples of the transmitter's time at the receiver's nominal rate.
    clock : Clock
        Its sample m is at m (1 + stretch) of the same time.

    Returns
    -------
    first : int
        The number of the first sample.
    samples : ndarray of complex128, shape (chains, samples)
    """
    count, chains, subcarriers = pieces.values.shape
    over, step = clock.oversampling, 1 + clock.stretch
    starts = begin + over * (pieces.start + pieces.length * np.arange(count + 1))
    firsts = np.ceil(starts / step - 1e-9).astype(np.int64)
    numbers = (np.arange(subcarriers) - subcarriers // 2 + clock.middle) / (TRANSFORM * over)
    zeros = starts[:-1] + over * pieces.guards
    turns = np.exp(2j * np.pi * np.outer(firsts[:-1] * step - zeros, numbers))
    counts = np.diff(firsts)
    waves = np.exp(2j * np.pi * step * np.outer(numbers, np.arange(counts.max())))
    made = ((pieces.values * turns[:, None]).reshape(-1, subcarriers) @ waves).reshape(count, chains, -1)
    inside = np.arange(counts.max()) < counts[:, None]
    return int(firsts[0]), made.transpose(1, 0, 2)[:, inside]


def packet(frame: SymbolsFrame, clock: Clock, begin: float = 0.0, short_guard: bool = False, aggregated: bool = False,
           more: int = 0, greenfield: bool = False) -> Tuple[int, np.ndarray]:
    """A packet as a receiver samples it, before any channel.

    Parameters
    ----------
    frame : SymbolsFrame
    clock : Clock
    begin : float
        As in `sampled`.
    short_guard, aggregated, more, greenfield
        As in `pieces_of`.

    Returns
    -------
    first : int
        The number of its first sample.
    samples : ndarray of complex128, shape (chains, samples)
    """
    return joined(pieces_of(frame, short_guard, aggregated, more, greenfield), begin, clock)


def joined(pieces: Sequence[Pieces], begin: float, clock: Clock) -> Tuple[int, np.ndarray]:
    """The pieces of a packet one behind the other; parameters as in `sampled`, and what is returned as in `packet`."""
    parts = [sampled(each, begin, clock) for each in pieces]
    return parts[0][0], np.concatenate([samples for _, samples in parts], axis=1)


def legacy_packet(points: np.ndarray, signal: LegacySignal, clock: Clock, begin: float = 0.0) -> Tuple[int, np.ndarray]:
    """A packet of clause 18 as a receiver samples it, before any channel, of mean power 1.

    Parameters
    ----------
    points : ndarray of complex128, shape (symbols, 52)
        Of the subcarriers -26 to -1 and 1 to 26 behind SIGNAL, normalised, with their pilots.
    signal : LegacySignal
    clock, begin
        As in `sampled`.

    Returns
    -------
    As `packet`, with one chain.
    """
    short, long = (_scaled(training(20)) for training in (standard.short_training, standard.long_training))
    symbols = np.zeros((len(points), standard.span(20).size), complex)
    symbols[:, np.flatnonzero(standard.long_training(20))] = points / np.sqrt(points.shape[1])
    announced = _scaled(standard.signal_symbol(points_of(signal.bits())[0], 0, 20))
    values = np.stack((short, short, long, long, announced, *symbols))[:, None]
    guards = np.full(len(values), LONG_GUARD)
    guards[2:4] = TRAINING_GUARD, TRAINING_GUARD - SYMBOL
    return sampled(Pieces(values, 0, SYMBOL, guards), begin, clock)
