"""What a packet says of itself: L-SIG and HT-SIG, heard by the channel of the long training."""

from __future__ import annotations

import cmath
from dataclasses import dataclass
from itertools import accumulate
from typing import Optional, Tuple

import numpy as np

from ..rates import Rate, polarity
from . import standard, stbc
from .form import Form
from .signal import HtSignal, LegacySignal, decode, points_of, read_ht, read_legacy
from .spectra import FRONT, Spectra
from .standard import LONG_GUARD, SYMBOL, TRANSFORM
from .synchronise import EARLY, NUMBERS, PLACES, Training
from .track import mean_power, smoothed, window_of

# Why a packet isn't in a capture.
NO_LEGACY, BAD_CRC, CUT_OFF, CLAUSE_18, VHT = "bad L-SIG", "bad HT-SIG CRC", "cut off", "clause 18", "VHT"
LDPC, STBC, EXTENSION = "LDPC", "reserved STBC", "extension streams"
UNEQUAL, DUPLICATE, RESERVED, SOUNDING = "unequal modulation", "MCS 32", "reserved MCS", "no data"
TOO_WIDE, TOO_FEW, TOO_LONG, ENDLESS = "40 MHz", "fewer antennas than streams", "longer than L-SIG says", "longer than 5,484 µs"

LONGEST = 5484.0  # microseconds, which a packet in greenfield format may last to be received, too
LEGACY_BEGIN = 2 * TRANSFORM  # samples at 20 MHz from the first long symbol's beginning to L-SIG
USED = NUMBERS != 0
DELAYS = np.arange(-6, 25)  # samples at 20 MHz from a window's beginning to the first and the last tap of a channel
ROUNDS, STRONG = 2, 30.0  # of the smoothing of a channel for these symbols, and how strong it is beside the noise where it needs none
COARSE = 0.5  # samples between the places at which windows are tried
PILOTS, PILOT_SIGNS = 26 + np.array(list(standard.SIGNAL_PILOTS)), np.array(list(standard.SIGNAL_PILOTS.values()))
DATA = standard.signal_subcarriers(20)[0][0] + standard.span(20)[0] + 26  # places of the 48 data subcarriers in NUMBERS


@dataclass(eq=False)
class Headers:
    """What the headers say.

    Parameters
    ----------
    legacy : LegacySignal, optional
    signal : HtSignal, optional
    left_out : str, optional
        Why the packet can't be in a capture.
    lasts : int
        Samples at 20 MHz from the first long symbol's beginning to the packet's end, as far as that is known.
    """

    legacy: Optional[LegacySignal] = None
    signal: Optional[HtSignal] = None
    left_out: Optional[str] = None
    lasts: int = LEGACY_BEGIN


class HeaderReader:
    """Reads the headers of a packet.

    Parameters
    ----------
    spectra : Spectra
        Of the channel, at 20 million samples a second, with samples up to HT-SIG's end where the recording has them.
    training : Training
    antennas : int
    ends : int
        The samples of the channel behind the first long symbol's beginning.
    whole : bool
        Whether both halves of 40 MHz are heard.

    Attributes
    ----------
    early : int
        How many samples behind a symbol's guard interval the windows of these symbols begin.
    heard : ndarray of complex128, shape (rows, 53)
        The channel as these windows see it.
    powers : ndarray of float64, shape (rows,)
        By what rows are weighed.
    """

    def __init__(self, spectra: Spectra, training: Training, antennas: int, ends: int, whole: bool) -> None:
        self.spectra, self.training, self.antennas, self.ends, self.whole = spectra, training, antennas, ends, whole
        self.powers = 1 / training.noise
        weights = np.sqrt(self.powers)[:, None]
        links = training.channel[:, USED] * weights
        self.early = window_of(links, NUMBERS[USED], 0.5, LONG_GUARD, 1, -EARLY, COARSE).begin
        turn = np.exp(2j * np.pi * NUMBERS * (self.early + EARLY) / TRANSFORM)
        self.heard = training.channel * turn
        self._channel = self.heard
        if mean_power(links) < STRONG:
            even = np.full(np.count_nonzero(USED), 0.5)
            self._channel = np.zeros_like(self.heard)
            self._channel[:, USED] = smoothed(links * turn[USED], NUMBERS[USED], even, DELAYS, TRANSFORM, ROUNDS) / weights
        self._symbols = self._combined(3)

    def read(self) -> Headers:
        """L-SIG, HT-SIG, and what kind of packet it is."""
        if not len(self._symbols):
            return Headers(left_out=CUT_OFF)
        values = self._data_values()
        if _is_turned(values[0]):
            return self._read_greenfield(values)
        legacy = read_legacy(decode(values[0].real[None]))
        if legacy is None:
            return Headers(left_out=NO_LEGACY, lasts=LEGACY_BEGIN + SYMBOL)
        headers = Headers(legacy, lasts=LEGACY_BEGIN + SYMBOL * (1 + legacy.symbols))
        self._read_ht(headers, values[1:])
        return headers

    def _read_ht(self, headers: Headers, values: np.ndarray) -> None:
        """HT-SIG, where it stands behind L-SIG."""
        assert headers.legacy is not None
        if headers.legacy.rate != 6:
            headers.left_out = CLAUSE_18
        elif len(values) < 2:
            headers.left_out = CLAUSE_18 if headers.lasts <= self.ends else CUT_OFF
        elif not _is_turned(values[0]):
            headers.left_out = VHT if _is_turned(values[1]) else CLAUSE_18
        else:
            headers.signal = read_ht(decode(values[:2].imag))
            headers.left_out = BAD_CRC if headers.signal is None else self._refusal(headers.signal, headers.legacy)
            if headers.signal is not None and headers.left_out is None:
                headers.lasts = _lasts(headers.signal, False)

    def _refusal(self, signal: HtSignal, legacy: LegacySignal) -> Optional[str]:
        reason = refusal(signal, self.antennas, 2 if self.whole else 1)
        return TOO_LONG if reason is None and standard.signal_octets(form_of(signal, False).duration(signal.length)) > legacy.length else reason

    def _read_greenfield(self, values: np.ndarray) -> Headers:
        """What a packet says whose first symbol behind the training is turned: HT-SIG in greenfield format, or nothing that is known."""
        signal = read_ht(decode(values[:2].imag)) if len(values) > 1 else None
        headers = Headers(None, signal, NO_LEGACY, LEGACY_BEGIN + 2 * SYMBOL)
        if signal is not None:
            headers.left_out = refusal(signal, self.antennas, 2 if self.whole else 1)
            if signal.length and signal.mcs < 32 and stbc.is_known(signal.mcs // 8 + 1, signal.stbc):
                headers.lasts = _lasts(signal, True)
                if headers.left_out is None and form_of(signal, True).duration(signal.length) > LONGEST:
                    headers.left_out = ENDLESS
        return headers

    def offset(self, headers: Headers) -> float:
        """The carrier's offset by the long training and the symbols that are known by now, in turns a sample."""
        assert headers.signal is not None
        points = 1j * points_of(headers.signal.bits())
        if headers.legacy is not None:
            points = np.concatenate((points_of(headers.legacy.bits()), points))
        count = len(points)
        sent = np.zeros((count, NUMBERS.size), complex)
        sent[:, DATA], sent[:, PILOTS] = points, polarity()[:count, None] * PILOT_SIGNS
        agree = np.einsum("nk,nk->n", sent.conj(), self._symbols[:count])
        # Both symbols of the long training have the phase 0, and from one symbol to the next it turns less than half a turn.
        phases = list(accumulate([0.0, cmath.phase(agree[0])] + [cmath.phase(turn) for turn in agree[1:] * agree[:-1].conj()]))
        times = [0, TRANSFORM, *(LEGACY_BEGIN + LONG_GUARD + SYMBOL * n for n in range(count))]
        middle = sum(times) / len(times)
        slope = sum((time - middle) * phase for time, phase in zip(times, [0.0, *phases])) / sum((time - middle) ** 2 for time in times)
        return self.spectra.offset + slope / (2 * np.pi)

    def _combined(self, count: int) -> np.ndarray:
        """L-SIG and the symbols behind it, as many as are there, of all rows, not divided by their weight: complex128, (symbols, 53)."""
        begins = LEGACY_BEGIN + LONG_GUARD + SYMBOL * np.arange(count) + self.early
        inside = begins[begins + TRANSFORM <= self.ends]
        spectra = self.spectra.of(inside) if inside.size else None
        if spectra is None:
            return np.zeros((0, NUMBERS.size), complex)
        return np.einsum("ak,ank->nk", self._channel.conj() * self.powers[:, None], spectra[..., PLACES])

    def _data_values(self) -> np.ndarray:
        """The 48 data values of each symbol, turned so that its pilots lie where they should: complex128, (symbols, 48)."""
        total = self._symbols[:, PILOTS] @ PILOT_SIGNS * polarity()[: len(self._symbols)]
        size = np.abs(total)
        turns = np.where(size > 0, total.conj() / np.where(size > 0, size, 1), 1)
        return self._symbols[:, DATA] * turns[:, None]


def refusal(signal: HtSignal, antennas: int, parts: int) -> Optional[str]:
    """Why a packet with this HT-SIG can't be in a capture; None where it can.

    Parameters
    ----------
    signal : HtSignal
    antennas : int
    parts : int
        Of 20 MHz, where it is heard.
    """
    reasons: Tuple[Tuple[bool, str], ...] = (
        (signal.ldpc, LDPC), (signal.extension != 0, EXTENSION),
        (signal.mcs == 32, DUPLICATE), (33 <= signal.mcs <= 76, UNEQUAL), (signal.mcs > 76, RESERVED),
        (not stbc.is_known(signal.mcs // 8 + 1, signal.stbc), STBC),
        (signal.length == 0, SOUNDING), (signal.wide and parts < 2, TOO_WIDE), (signal.mcs // 8 + 1 > antennas, TOO_FEW),
    )
    return next((reason for holds, reason in reasons if holds), None)


def rate_of(signal: HtSignal) -> Rate:
    """The rate that HT-SIG names, whose MCS is at most 31."""
    return Rate(40 if signal.wide else 20, signal.mcs)


def form_of(signal: HtSignal, greenfield: bool) -> Form:
    """The form of a packet with this HT-SIG, whose MCS is at most 31."""
    return Form(rate_of(signal), signal.short_guard, signal.stbc, greenfield)


def _lasts(signal: HtSignal, greenfield: bool) -> int:
    """Samples at 20 MHz from the first long symbol's beginning to the packet's end."""
    return int(round(20 * form_of(signal, greenfield).duration(signal.length))) - FRONT


def _is_turned(values: np.ndarray) -> bool:
    """Whether a symbol's points lie on the imaginary axis, as those of HT-SIG."""
    return complex(np.dot(values, values)).real < 0
