"""A packet of a piece of a recording, from a candidate on: its training, its headers, its channel, and its received vectors.

The steps are those of docs/RECORDINGS.md.
"""

from __future__ import annotations

import os
import traceback
from dataclasses import dataclass
from functools import lru_cache
from typing import Optional, Tuple, Union

import numpy as np

from ..quantise import MeasuredFrame
from . import standard, stbc
from .channels import Channel
from .form import Form
from .fourier import phasors
from .headers import CLAUSE_18, CUT_OFF, DELAYS, LEGACY_BEGIN, USED, HeaderReader, Headers, form_of
from .legacy import LegacyFrame, receive_legacy
from .signal import HtSignal, LegacySignal
from .spectra import FRONT, Spectra
from .standard import SYMBOL, TRAINING_GUARD, TRANSFORM
from .synchronise import NUMBERS, Candidate, Training, find_training
from .track import Step, Window, drift_of, phases_of, shifts_of, smoothed, step_of, window_of

NO_CHANNEL, NOT_FINITE = "no channel", "samples that aren't finite"
MISTAKE = "a mistake of mizgaure"
HEADERS_END = LEGACY_BEGIN + 4 * SYMBOL  # and to somewhere behind HT-SIG
LATER = np.linspace(-0.5, 0.5, 257)  # parts of a sample by which windows are tried later where there is no room
FEW = 8  # parts as large as the largest one, which may be chance
AS_LARGE = 0.999  # of the largest part: what is taken to be cut as that one is
BLOCK = 512  # symbols that are transformed at once
WEAKER_HALF = 0.05  # of the stronger half's power, which a packet of 40 MHz has at least in the weaker one


@dataclass(eq=False)
class Packet:
    """A packet that was found.

    Parameters
    ----------
    sample : int
        Where it begins, in samples of the recording.
    end : int
        The first sample behind it, as far as that is known.
    offset : float
        The carrier's, in Hz.
    noise : float
        The noise's mean power on a subcarrier beside the signal's, over all antennas, in dB.
    left_out : str, optional
        Why it can't be in a capture.
    legacy : LegacySignal, optional
    signal : HtSignal, optional
    frame : MeasuredFrame, optional
        Where it isn't left out.
    untracked : ndarray of complex64, shape (symbols, subcarriers, antennas), optional
        The received vectors before phase and timing were tracked, where that was asked for, and it has no STBC.
    clipped : float
        The share of its parts that are as large as its largest one.
    middles : tuple of int
        The middles of the parts of 20 MHz in which it was heard, in subcarriers of the recording's band.
    step : Step, optional
        Where samples are missing in it, or are too many.
    fault : str
        What went wrong, where that was a mistake of ours.
    clause_18 : LegacyFrame, optional
        Of a packet of clause 18 that is there whole, which has a capture of its own.
    """

    sample: int
    end: int
    offset: float
    noise: float
    left_out: Optional[str] = None
    legacy: Optional[LegacySignal] = None
    signal: Optional[HtSignal] = None
    frame: Optional[MeasuredFrame] = None
    untracked: Optional[np.ndarray] = None
    clipped: float = 0.0
    middles: Tuple[int, ...] = (0,)
    step: Optional[Step] = None
    fault: str = ""
    clause_18: Optional[LegacyFrame] = None

    @property
    def has_header(self) -> bool:
        """Whether L-SIG or HT-SIG could be read."""
        return self.legacy is not None or self.signal is not None

    @property
    def is_greenfield(self) -> bool:
        """Whether it is in HT-greenfield format, in which HT-SIG stands where L-SIG does."""
        return self.signal is not None and self.legacy is None

    @property
    def remarks(self) -> str:
        """What else is unusual about it, in words."""
        greenfield = "greenfield" if self.is_greenfield else ""
        more = 0 if self.signal is None or self.signal.mcs > 31 else self.signal.stbc
        coded = f"STBC with {more} more space-time {'stream' if more == 1 else 'streams'}" if more else ""
        reserved = "HT-SIG's reserved bit is 0" if self.signal is not None and not self.signal.reserved else ""
        return ", ".join(filter(None, (greenfield, coded, reserved, "" if self.step is None else str(self.step), self.fault)))


class Hearing:
    """What is heard of a packet in front of its HT part.

    Parameters
    ----------
    channel : Channel
    training : Training
    """

    def __init__(self, channel: Channel, training: Training) -> None:
        self.channel, self.training = channel, training
        self.piece, self.whole = channel.piece, len(channel.middles) == 2
        ends = channel.stop - training.begin
        spectra = Spectra(channel.read(training.begin, HEADERS_END), 0, 1, training.offset)
        self.reader = HeaderReader(spectra, training, len(self.piece.samples), ends, self.whole)
        self.headers: Headers = self.reader.read()

    @property
    def is_readable(self) -> bool:
        """Whether L-SIG or, where there is none, HT-SIG could be read."""
        return self.headers.legacy is not None or self.headers.signal is not None

    @property
    def says_wide(self) -> bool:
        """Whether HT-SIG could be read, and says 40 MHz."""
        return self.headers.signal is not None and self.headers.signal.wide

    @property
    def is_whole(self) -> bool:
        """Whether a packet of 40 MHz is heard in both of its halves."""
        halves = self.training.signal.reshape(2, -1).sum(axis=1) if self.whole else np.zeros(2)
        return self.says_wide and bool(halves.min() > WEAKER_HALF * halves.max())

    def packet(self, keep: bool = False) -> Packet:
        """The packet, with its frame where it can be in a capture; ``keep`` as in `packets_of`."""
        training, headers, over = self.training, self.headers, self.piece.over
        packet = Packet((training.begin - FRONT) * over, (training.begin + headers.lasts) * over, 0.0, training.noise_ratio,
                        headers.left_out, headers.legacy, headers.signal, middles=self.channel.middles)
        packet.offset = training.offset * 20e6
        try:
            if headers.signal is not None and headers.left_out is None:
                offset = self.reader.offset(headers)
                packet.offset = offset * 20e6
                self._receive_data(packet, headers.signal, offset, keep)
            elif headers.left_out == CLAUSE_18:
                self._receive_clause_18(packet)
        except MemoryError:
            raise
        except Exception as error:  # the other packets go on
            packet.left_out, packet.fault = MISTAKE, fault_of(error)
        return packet

    def _receive_clause_18(self, packet: Packet) -> None:
        """Give a packet of clause 18 its frame, or say why not."""
        assert packet.legacy is not None
        if not packet.legacy.length:
            return
        if not self._is_there(packet):
            return
        begin, over = self.training.begin, self.piece.over
        spectra = Spectra(self.channel.read(begin, min(packet.end // over + SYMBOL, self.channel.stop) - begin), 0, 1, self.training.offset)
        weights = np.sqrt(self.reader.powers)[:, None]

        def heard(begins: np.ndarray, _: np.ndarray) -> Optional[np.ndarray]:
            found = spectra.of(begins)
            return None if found is None else (found[..., NUMBERS[USED] % TRANSFORM] * weights[..., None]).transpose(1, 0, 2)

        packet.clause_18 = receive_legacy(packet.legacy, self.reader.heard[:, USED] * weights, heard, self.reader.early)

    def _is_there(self, packet: Packet) -> bool:
        """Whether all of a packet was recorded; otherwise it is left out."""
        if packet.end > self.piece.stop:
            packet.left_out = CUT_OFF
        elif self.piece.is_spoiled(packet.sample, packet.end):
            packet.left_out = NOT_FINITE
        else:
            return True
        return False

    def _receive_data(self, packet: Packet, signal: HtSignal, offset: float, keep: bool) -> None:
        """Give a packet its frame, or say why not."""
        if not self._is_there(packet):
            return
        piece = self.piece
        front = TRAINING_GUARD if packet.is_greenfield else 0  # samples at 20 MHz, since the HT-LTFs begin with the first long symbol there
        begin = packet.sample + (FRONT - front) * piece.over
        end = min(packet.end + SYMBOL * piece.over, piece.stop)
        if self.whole:
            spectra = Spectra(piece.between(begin, end), front * piece.over, piece.over, offset / piece.over)
        else:
            first = self.training.begin - front
            spectra = Spectra(self.channel.read(first, end // piece.over - first), front, 1, offset)
        part = _HtPart(signal, form_of(signal, packet.is_greenfield), spectra, self.reader)
        if not part.estimate():
            packet.left_out = NO_CHANNEL
        else:
            packet.frame, packet.untracked = part.receive(keep)
            packet.left_out = CUT_OFF if packet.frame is None else None
            packet.clipped, packet.step = _clipped(piece.between(packet.sample, packet.end)), part.step


def fault_of(error: Exception) -> str:
    """What went wrong, and where."""
    place = traceback.extract_tb(error.__traceback__)[-1]
    return f"{type(error).__name__}: {error} ({os.path.basename(place.filename)}, line {place.lineno})"


def hear(channel: Channel, candidate: Candidate, noise: np.ndarray) -> Optional[Hearing]:
    """What is heard where a packet may begin, or None where there is no long training."""
    training = find_training(channel, candidate, noise)
    return None if training is None else Hearing(channel, training)


@lru_cache(maxsize=None)
def shifts_of_streams(bandwidth: int, streams: int) -> np.ndarray:
    """What cyclic shifts and the rotation of 40 MHz multiply each subcarrier of the HT part with: complex128, shape (subcarriers, streams)."""
    carriers = standard.ht_subcarriers(bandwidth)
    made = standard.shifted(standard.stream_shifts(streams), bandwidth)[:, carriers].T * standard.rotation(bandwidth)[carriers][:, None]
    made.setflags(write=False)
    return made


class _HtPart:
    """The HT part of a packet, from its HT-LTFs on. Antennas are scaled so that each has noise of mean power 1."""

    def __init__(self, signal: HtSignal, form: Form, spectra: Spectra, reader: HeaderReader) -> None:
        self.signal, self.form, self.spectra, self.reader, self.rate = signal, form, spectra, reader, form.rate
        self.numbers = self.rate.frequencies  # of the subcarriers, from the packet's own middle
        self.bins = self.numbers % spectra.length
        # The same signal is twice as large in a transform of twice as many samples.
        noise = reader.training.noise.reshape(spectra.over, -1).mean(axis=0)
        self.weights = (1 / (spectra.over * np.sqrt(noise))).astype(np.float32)
        self.channel = np.zeros(0)  # as the windows of data symbols see it: (subcarriers, antennas, space-time streams)
        self.window = Window(0, 0.0, 0.0)
        self.step: Optional[Step] = None

    def estimate(self) -> bool:
        """Estimate the channel, and place the windows; whether there is one."""
        rate, over, length, streams = self.rate, self.spectra.over, self.spectra.length, self.form.streams
        shifts = shifts_of_streams(rate.bandwidth, streams)
        early = self.reader.early * over
        found = self._links(shifts, early)
        if found is not None and self.form.greenfield and self.window.begin != early:
            # With the streams' shifts in it the long training's channel is longer than without, so the first place wasn't the best.
            early = self.window.begin
            found = self._links(shifts, early)
        if found is None:
            return False
        links, noise = found
        if self.signal.smoothing:
            links = smoothed(links, self.numbers, noise, np.arange(DELAYS[0] * over, DELAYS[-1] * over + 1), length)
        links = links * np.exp(2j * np.pi * self.numbers * (self.window.begin - early) / length)
        self.channel = links.reshape(-1, streams, len(shifts)).transpose(2, 0, 1) * shifts[:, None, :]
        return bool(np.isfinite(self.channel).all() and self.channel.any())

    def _links(self, shifts: np.ndarray, early: int) -> Optional[Tuple[np.ndarray, np.ndarray]]:
        """The channel as windows of the HT-LTFs see it that begin ``early``, and its noise; it tells where windows should begin.

        Parameters
        ----------
        shifts : ndarray of complex128, shape (subcarriers, streams)
            What cyclic shifts and the rotation of 40 MHz multiply each subcarrier with, which isn't in these links.
        early : int
            In samples.

        Returns
        -------
        links : ndarray of complex128, shape (antennas and streams, subcarriers)
        noise : ndarray of float64, shape (subcarriers,)
            None in place of both where a window isn't whole.
        """
        streams, count, over = self.form.streams, self.form.fields, self.spectra.over
        heard = self._vectors(self.form.training * over + early)
        if heard is None:
            return None
        each = np.ones(count)  # the noise of each field
        if self.form.greenfield:
            heard, each[0] = np.concatenate((heard[:2].mean(axis=0, keepdims=True), heard[2:])), 0.5
        carriers = standard.ht_subcarriers(self.rate.bandwidth)
        known = standard.ht_long_training(self.rate.bandwidth)[carriers].real
        signs = standard.TRAINING_SIGNS[:streams, :count] / count
        plain = (signs @ heard.reshape(count, -1)).reshape(streams, len(carriers), -1)  # stream, subcarrier, antenna
        plain = plain.transpose(2, 0, 1) * (known * shifts.T.conj())
        links, noise = plain.reshape(-1, len(carriers)), np.full(len(carriers), each.sum() / count**2)
        if streams == 1 and not self.form.greenfield:
            links, noise = self._with_legacy(links, noise, standard.rotation(self.rate.bandwidth)[carriers])
        self.window = window_of(links, self.numbers, float(noise.mean()), self.form.guard * over, over, early)
        return links, noise

    def _with_legacy(self, links: np.ndarray, noise: np.ndarray, turn: np.ndarray) -> Tuple[np.ndarray, np.ndarray]:
        """The channel of one stream, for which the long training is taken, too, where it went the same way.

        A transmitter may send one stream by several chains, in front of the HT part with other shifts; then it is another way.
        """
        over = self.spectra.over
        legacy, there = np.zeros_like(links), np.zeros(links.shape[1], bool)
        for channel, middle in zip(self.reader.heard.reshape(over, len(links), -1), standard.halves(self.rate.bandwidth)):
            places = np.searchsorted(self.numbers, NUMBERS[USED] + middle)
            legacy[:, places] = over * channel[:, USED] * self.weights[:, None] / turn[places]
            there[places] = True
        legacy *= np.sqrt(np.mean(there))  # its power is shared by fewer subcarriers
        legacy *= np.exp(1j * np.angle(np.vdot(legacy[:, there], links[:, there])))
        apart = np.mean(np.abs(links[:, there] - legacy[:, there]) ** 2) / 1.5  # their noise has the powers 1 and 1/2
        if apart > 1 + 4 / np.sqrt(links[:, there].size):
            return links, noise
        return np.where(there, (links + 2 * legacy) / 3, links), np.where(there, noise / 3, noise)

    def receive(self, keep: bool) -> Tuple[Optional[MeasuredFrame], Optional[np.ndarray]]:
        """The packet's frame, and its vectors before tracking where they are asked for; None where the recording ends before."""
        form, rate, over = self.form, self.rate, self.spectra.over
        symbols = form.symbols(self.signal.length)
        begins = (form.data + form.guard + (TRANSFORM + form.guard) * np.arange(symbols)) * over + self.window.begin
        times = begins - form.middle * over
        received = self._vectors(begins)
        if received is None:
            return None, None
        untracked = None if form.stbc or not keep else received.copy()
        places, sent = standard.pilot_places(rate.bandwidth), standard.pilots(rate, symbols, form.streams, form.first_polarity)
        expected = np.ascontiguousarray(np.matmul(sent.transpose(1, 0, 2), self.channel[places].transpose(0, 2, 1)).transpose(1, 0, 2))
        pilots, powers = combined(received[:, places], expected), np.sum(expected.real**2 + expected.imag**2, axis=2)
        drift = drift_of(pilots, self.numbers[places], times, self.spectra.length)
        self.step = step_of(pilots, powers, self.numbers[places] / self.spectra.length, times, drift)
        shifts, late = shifts_of(drift, times, self.window.rest)
        if self.window.room < 1:
            shifts, late = shifts_of(drift, times, self.window.rest + self._later(begins, drift, times, expected))
        received, late = self._moved(received, begins, shifts, late)
        received *= phasors(np.outer(late, -self.numbers / self.spectra.length))[..., None]
        received *= np.exp(-1j * phases_of(combined(received[:, places], expected))).astype(np.complex64)[:, None, None]
        # What is left of a pilot is kept, and its point becomes the one of this project.
        channel, point = self.channel, rate.pilot_signs(symbols)
        if form.stbc:
            received[:, places] -= np.einsum("pas,nps->npa", channel[places], sent)
            channel, received = stbc.combined(channel, received, rate.streams, rate.is_pilot)
            sent = np.zeros_like(point)
        received[:, places] += np.einsum("pas,nps->npa", channel[places], point - sent)
        # Of a symbol that is there to make their number even nothing is asked.
        return MeasuredFrame(rate.bandwidth, rate.mcs, self.signal.length, channel, received[: rate.symbols(self.signal.length)]), untracked

    def _later(self, begins: np.ndarray, drift: float, times: np.ndarray, expected: np.ndarray) -> float:
        """By how much of a sample windows should begin later where there is no room: the least is left of pilots then."""
        places = standard.pilot_places(self.rate.bandwidth)
        shifts, late = shifts_of(drift, times, self.window.rest)
        left = np.zeros((3, len(begins)))  # of each symbol's pilots, where its window begins a sample early, as it is, and late
        phases = np.zeros(0)
        for move in (0, -1, 1):
            pilots = self._vectors(begins + shifts + move, places)
            if pilots is None:
                return 0.0
            pilots *= np.exp(-2j * np.pi * np.outer(late + move, self.numbers[places]) / self.spectra.length)[..., None]
            phases = phases if move else phases_of(combined(pilots, expected))
            left[1 + move] = np.sum(np.abs(pilots * np.exp(-1j * phases)[:, None, None] - expected) ** 2, axis=(1, 2))

        def left_by(later: float) -> float:
            moves = shifts_of(drift, times, self.window.rest + later)[0] - shifts
            return float(left[1 + moves, np.arange(len(begins))].sum())

        return min(sorted(LATER, key=abs), key=left_by)

    def _moved(self, received: np.ndarray, begins: np.ndarray, shifts: np.ndarray, late: np.ndarray) -> Tuple[np.ndarray, np.ndarray]:
        """The vectors of moved windows, and by how much these are late; those that there are where a window isn't whole then."""
        where = np.flatnonzero(shifts)
        if not where.size:
            return received, late
        moved = self._vectors((begins + shifts)[where])
        if moved is None:
            return received, late - shifts
        received[where] = moved
        return received, late

    def _vectors(self, begins: np.ndarray, places: Union[np.ndarray, slice] = slice(None)) -> Optional[np.ndarray]:
        """The received vectors of windows: complex64, shape (windows, subcarriers, antennas); None where a window isn't whole."""
        bins = self.bins[places]
        made = np.empty((len(begins), len(bins), len(self.weights)), np.complex64)
        for first in range(0, len(begins), BLOCK):
            spectra = self.spectra.of(begins[first : first + BLOCK])
            if spectra is None:
                return None
            made[first : first + BLOCK] = (spectra[..., bins] * self.weights[:, None, None]).transpose(1, 2, 0)
        return made


def combined(pilots: np.ndarray, expected: np.ndarray) -> np.ndarray:
    """Pilots, combined over antennas against what is expected: shapes (symbols, pilots, antennas) to (symbols, pilots)."""
    return np.einsum("npa,npa->np", expected.conj(), pilots)


def _clipped(samples: np.ndarray) -> float:
    """The share of parts that are as large as the largest one of their antenna, where there are more than a few of them."""
    most = 0
    for row in samples:  # one by one, since a long packet on many antennas is large
        parts = np.abs(np.ascontiguousarray(row).view(np.float32))
        most = max(most, int(np.count_nonzero(parts >= AS_LARGE * parts.max())))
    return most / (2 * samples.shape[1]) if most > FEW else 0.0
