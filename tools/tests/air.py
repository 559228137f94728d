"""Recordings in memory, and packets of kinds that no file of symbols gives."""

from __future__ import annotations

import io
from typing import List, Optional, Sequence, Tuple

import numpy as np

from mizgaure import Rate, SymbolsFrame
from mizgaure.air import standard
from mizgaure.air.form import Form
from mizgaure.air.recording import Layout, Recording, Writer
from mizgaure.air.signal import HtSignal, LegacySignal, points_of
from mizgaure.air.simulate import LEVEL, Scene, record_packets
from mizgaure.air.standard import LONG_GUARD, SYMBOL, TRAINING_GUARD
from mizgaure.air.waveform import Clock, Pieces, preamble, sampled


def recording_of(octets: bytes, layout: Layout, frequency: Optional[float] = None) -> Recording:
    """A recording of octets."""
    return Recording("it", io.BytesIO(octets), layout, frequency)


def recorded(frames: Sequence[SymbolsFrame], scene: Scene, antennas: int, oversampling: int = 1, datatype: str = "cf32_le") -> bytes:
    """The octets of a recording of packets."""
    made = io.BytesIO()
    record_packets(frames, scene, antennas, oversampling, Writer(made, Layout(datatype, 20e6 * oversampling, antennas)))
    return made.getvalue()


def samples_in(octets: bytes, channels: int) -> np.ndarray:
    """The samples of a recording in cf32_le: (channels, instants)."""
    return np.frombuffer(octets, "<c8").reshape(-1, channels).T


def octets_in(samples: np.ndarray) -> bytes:
    """The other way."""
    return np.ascontiguousarray(samples.T, "<c8").tobytes()


class SpoiledSignal(HtSignal):
    """An HT-SIG with one wrong bit."""

    def bits(self) -> List[int]:
        bits = super().bits()
        bits[9] ^= 1
        return bits


def packet_with(signal: HtSignal, legacy: LegacySignal = LegacySignal(6, 45), symbols: int = 12) -> np.ndarray:
    """A packet of one stream at 20 MHz with any HT-SIG, and data symbols that mean nothing: its samples, (1, n)."""
    values, guards = preamble(Form(Rate(20, 0)), legacy, signal)
    return _joined(values, guards, symbols)


def greenfield(signal: HtSignal) -> np.ndarray:
    """A packet in greenfield format: the HT-LTF stands where L-LTF does, and HT-SIG where L-SIG does."""
    training = standard.ht_long_training(20) / np.sqrt(56)
    short = standard.short_training(20) / np.sqrt(12)
    symbols = [standard.signal_symbol(1j * points, n, 20) / np.sqrt(52) for n, points in enumerate(points_of(signal.bits()))]
    return _joined(*_fields(short, training, symbols), symbols=4)


def clause_18(legacy: LegacySignal, vht: bool = False) -> np.ndarray:
    """A packet of clause 18 with BPSK symbols, or one in VHT format, whose second symbol behind L-SIG is turned."""
    random = np.random.default_rng(1)
    training = standard.long_training(20) / np.sqrt(52)
    short = standard.short_training(20) / np.sqrt(12)
    points = [points_of(legacy.bits())[0]] + [random.choice([-1.0, 1.0], 48) * (1j if vht and n == 1 else 1) for n in range(4)]
    symbols = [standard.signal_symbol(row, n, 20) / np.sqrt(52) for n, row in enumerate(points)]
    return _joined(*_fields(short, training, symbols), symbols=0)


def _fields(short: np.ndarray, training: np.ndarray, symbols: List[np.ndarray]) -> Tuple[np.ndarray, np.ndarray]:
    values = np.stack([short, short, training, training, *symbols])[:, None]
    guards = np.full(len(values), LONG_GUARD)
    guards[2:4] = TRAINING_GUARD, TRAINING_GUARD - SYMBOL
    return values, guards


def _joined(values: np.ndarray, guards: np.ndarray, symbols: int) -> np.ndarray:
    random = np.random.default_rng(2)
    data = np.zeros((symbols, 1, values.shape[-1]), complex)
    data[..., standard.ht_subcarriers(20)] = random.choice([-1, 1], (symbols, 1, 56)) / np.sqrt(56)
    pieces = Pieces(np.concatenate((values, data)), 0, SYMBOL, np.concatenate((guards, np.full(symbols, LONG_GUARD))))
    return sampled(pieces, 0.0, Clock(1))[1]


def heard(packets: Sequence[np.ndarray], snr: float = 30.0, gap: int = 300, oversampling: int = 1) -> Recording:
    """A recording of packets in noise, each of the same number of antennas."""
    silence = np.zeros((len(packets[0]), gap * oversampling), complex)
    whole = LEVEL * np.concatenate([part for packet in packets for part in (silence, packet)] + [silence], axis=1)
    random = np.random.default_rng(3)
    noise = random.standard_normal((2, *whole.shape)) * LEVEL * 10 ** (-snr / 20) / np.sqrt(2)
    return recording_of(octets_in(whole + noise[0] + 1j * noise[1]), Layout("cf32_le", 20e6 * oversampling, len(whole)))
