"""A recording of packets, as an antenna would hear them: channels, offsets, noise and silence.

Every packet meets a channel of its own. ``wired`` leads transmit chain n to the antennas n, n + streams and so on, with gain
1. With a delay spread above 0 each pair of a chain and an antenna has taps, one a sample from 0 to the spread, that are
independent complex Gaussian numbers of equal mean power, their powers adding up to 1.

The offset turns the carrier and stretches the samples alike, as where one oscillator serves both. Signal and noise are as
far apart on each antenna as the signal-to-noise ratio says: the signal's mean power over a packet in an average channel,
and the noise's in the whole band of the recording.

A transmitter may have faults: its symbol clock may be off by another part than its carrier, the carrier may leak while a packet
lasts, its subcarriers may have other gains, its points may be off by Gaussian errors, and what is beyond a packet's channel may
pass a filter or none. The carrier leaks in the middle of the recording's band, also beside a packet of 20 MHz in one half of 40.

A receiver adds a level of its own to each antenna, of one amplitude and any phase, which may turn slowly. A neighbour sends
packets as wide as the others above them, in the next channel or the one behind it, one behind the other, at instants that have
nothing to do with the others, and nothing outside its channel, as a good transmitter does.
"""

from __future__ import annotations

from dataclasses import dataclass, replace
from typing import Iterable, List, Optional, Sequence, Tuple

import numpy as np

from ..errors import InputError
from ..formats import SymbolsFrame
from ..rates import Rate
from ..sweep import random_symbols
from . import standard
from .recording import MOST_CHANNELS, Writer
from .standard import TRANSFORM
from .waveform import Clock, Pieces, joined, packet, pieces_of

LEVEL = 0.1  # the mean amplitude of a packet beside full scale
PIECE = 1 << 16
WIDEST = 58  # the largest number of a subcarrier
FILTERED = {20: (9.0, 11.0), 40: (19.0, 21.0)}  # MHz from a channel's middle, between which a filter goes down


@dataclass(frozen=True)
class Scene:
    """What happens to packets on their way.

    Parameters
    ----------
    antennas : int
        As many as the packet with the most space-time streams has where 0.
    spread : float
        The delay spread, from the first tap to the last one, in nanoseconds.
    offset : float
        Of the transmitter's oscillator against the receiver's, in parts per million.
    frequency : float
        The carrier's, in Hz.
    snr : float, optional
        In dB; no noise where None.
    gap : float
        The silence in front of every packet and behind the last one, in microseconds.
    short_guard, aggregated : bool
    seed : int
    level : float, optional
        The power of each antenna's level beside a packet's, in dB; none where None.
    drift : float
        How often the levels turn round in a second.
    neighbour : float, optional
        A neighbour's mean power while it sends beside a packet's, in dB; no neighbour where None.
    lost : int
        Samples that are lost in the middle of every packet.
    stbc : int
        Space-time streams beyond the spatial streams.
    greenfield : bool
        Whether packets are in HT-greenfield format.
    nonadjacent : bool
        Whether the neighbour is two channels above, and not one.
    clock : float, optional
        Of the transmitter's symbol clock against the receiver's, in parts per million; as the oscillator where None.
    leakage : float, optional
        The power of the carrier's leakage beside all of a transmit chain's, in dB; none where None.
    filter : float, optional
        By how many dB a transmitter weakens what is beyond its channel; not at all where None.
    gains : tuple of (int, float)
        Numbers of subcarriers, ascending, and their gains in dB, straight in between and level beyond; the gains' mean square over
        the HT subcarriers is brought to 1.
    error : float, optional
        The r.m.s. error of the points behind the training, pilots counted, beside theirs, in dB; none where None.
    """

    antennas: int = 0
    spread: float = 0.0
    offset: float = 0.0
    frequency: float = 5.18e9
    snr: Optional[float] = 35.0
    gap: float = 20.0
    short_guard: bool = False
    aggregated: bool = False
    seed: int = 1
    level: Optional[float] = None
    drift: float = 0.0
    neighbour: Optional[float] = None
    lost: int = 0
    stbc: int = 0
    greenfield: bool = False
    nonadjacent: bool = False
    clock: Optional[float] = None
    leakage: Optional[float] = None
    filter: Optional[float] = None
    gains: Tuple[Tuple[int, float], ...] = ()
    error: Optional[float] = None

    def check(self) -> None:
        """Refuse what means nothing.

        Raises
        ------
        InputError
        """
        if not 0 <= self.antennas <= MOST_CHANNELS:
            raise InputError(f"a recording has up to {MOST_CHANNELS} antennas, and not {self.antennas}")
        if not 0 <= self.spread <= 2000:
            raise InputError(f"the delay spread is {self.spread:g} ns, and has to be 0 to 2000")
        if not abs(self.offset) <= 200:
            raise InputError(f"the offset is {self.offset:g} ppm, and has to be -200 to 200")
        if not 0 < self.frequency <= 1e11:
            raise InputError(f"the carrier's frequency is {self.frequency:g} Hz, and has to be above 0 and at most 100 GHz")
        if not 0 <= self.gap <= 1e6:
            raise InputError(f"the silence is {self.gap:g} microseconds, and has to be 0 to 1000000")
        if not abs(self.drift) <= 1000:
            raise InputError(f"the levels turn {self.drift:g} times a second, and have to turn -1000 to 1000 times")
        if not 0 <= self.lost <= 1000:
            raise InputError(f"{self.lost} samples are lost, and have to be 0 to 1000")
        if self.clock is not None and not abs(self.clock) <= 200:
            raise InputError(f"the symbol clock is off by {self.clock:g} ppm, and has to be by -200 to 200")
        if self.leakage is not None and not self.leakage < 0:
            raise InputError(f"the leakage is {self.leakage:g} dB of the overall power, and has to be below 0")
        numbers = [number for number, _ in self.gains]
        if numbers != sorted(set(numbers)) or not all(abs(number) <= WIDEST and abs(gain) <= 40 for number, gain in self.gains):
            raise InputError(f"gains are those of subcarriers from -{WIDEST} to {WIDEST}, ascending, and -40 to 40 dB")
        if self.nonadjacent and self.neighbour is None:
            raise InputError("a nonadjacent channel is that of a neighbour (--neighbour)")

    def check_band(self, bandwidth: int, oversampling: int) -> None:
        """Refuse what packets of a bandwidth in MHz leave no place for.

        Raises
        ------
        InputError
        """
        if self.neighbour is not None and oversampling < (least := least_oversampling(bandwidth, self.nonadjacent)):
            beside = "in a nonadjacent channel" if self.nonadjacent else "in the next channel"
            raise InputError(f"a neighbour {beside} of {bandwidth} MHz asks for {20 * least} million samples a second (--rate), and not {20 * oversampling}")
        if self.filter is not None and 20 * oversampling <= bandwidth:
            raise InputError(f"a filter is beyond the channel, which {20 * oversampling} million samples a second don't show beside packets of {bandwidth} MHz")


def least_oversampling(bandwidth: int, nonadjacent: bool) -> int:
    """The rate that has a neighbour beside packets of a bandwidth in MHz, in units of 20 million samples a second.

    Packets of 20 MHz stand in the lower half of 40 million, and in the middle of all else.
    """
    if bandwidth == 20:
        return 5 if nonadjacent else 2
    return 10 if nonadjacent else 6


def middle_of(bandwidth: int, oversampling: int) -> int:
    """Where packets stand in the recording's band, in subcarriers."""
    return -32 if oversampling == 2 and bandwidth == 20 else 0


def filtered(samples: np.ndarray, bandwidth: int, clock: Clock, weaker: float) -> np.ndarray:
    """Samples of a packet, shape (chains, n), with what is beyond its channel weakened by so many dB."""
    count = 1 << (samples.shape[1] + 400).bit_length()
    rate = 20.0 * clock.oversampling  # MHz
    away = np.fft.fftfreq(count) * rate - 20 / TRANSFORM * clock.middle
    away = np.abs((away + rate / 2) % rate - rate / 2)
    gains = np.interp(away, FILTERED[bandwidth], (1.0, 10 ** (-weaker / 20)))
    return np.fft.ifft(np.fft.fft(samples, count, axis=1) * gains, axis=1)[:, : samples.shape[1]]


def spoiled(pieces: Sequence[Pieces], rate: Rate, scene: Scene, generator: np.random.Generator) -> List[Pieces]:
    """The pieces of a packet with a scene's gains of subcarriers and errors of points, which its last pieces have."""
    made = list(pieces)
    if scene.error is not None:
        data = made[-1]
        used = np.isin(standard.span(rate.bandwidth), rate.frequencies)
        size = 10 ** (scene.error / 20) / np.sqrt(2 * rate.subcarriers * data.values.shape[1])
        parts = generator.standard_normal((*data.values.shape, 2)) * size
        made[-1] = replace(data, values=data.values + used * (parts[..., 0] + 1j * parts[..., 1]))
    if scene.gains:
        gains, mean = gains_of(scene.gains, standard.span(rate.bandwidth)), np.mean(gains_of(scene.gains, rate.frequencies) ** 2)
        made = [replace(each, values=each.values * (gains / np.sqrt(mean))) for each in made]
    return made


def gains_of(gains: Sequence[Tuple[int, float]], numbers: np.ndarray) -> np.ndarray:
    """The factors of subcarriers, from some of them in dB."""
    places, values = zip(*gains)
    return 10 ** (np.interp(numbers, places, values) / 20)


def channel(scene: Scene, chains: int, antennas: int, oversampling: int, generator: np.random.Generator) -> np.ndarray:
    """Taps of a channel: complex128, shape (antennas, chains, taps)."""
    if scene.spread == 0:
        wires = np.arange(antennas)[:, None] % chains == np.arange(chains)
        return wires[..., None].astype(complex) * np.sqrt(chains)
    count = int(round(scene.spread * 0.02 * oversampling)) + 1
    parts = generator.standard_normal((antennas, chains, count, 2)) / np.sqrt(2 * count)
    return parts[..., 0] + 1j * parts[..., 1]


def heard(samples: np.ndarray, taps: np.ndarray) -> np.ndarray:
    """What antennas hear of chains: shapes (chains, n) and (antennas, chains, taps) to (antennas, n + taps - 1)."""
    count = taps.shape[-1]
    made = np.zeros((taps.shape[0], samples.shape[1] + count - 1), complex)
    for delay in range(count):
        made[:, delay : delay + samples.shape[1]] += taps[..., delay] @ samples
    return made


def record_packets(frames: Iterable[SymbolsFrame], scene: Scene, antennas: int, oversampling: int, writer: Writer) -> int:
    """Write packets behind their channels.

    Parameters
    ----------
    frames : iterable of SymbolsFrame
    scene : Scene
    antennas : int
    oversampling : int
        1 for 20 million samples a second, 2 for 40 million, and so on. A packet of 20 MHz in a recording of 40 stands in its lower
        half, and any other one in the middle.
    writer : Writer

    Returns
    -------
    int
        How many packets there were.
    """
    scene.check()
    mixer = _Mixer(scene, antennas, oversampling, writer)
    count = 0
    for count, frame in enumerate(frames, 1):
        mixer.add(frame)
    mixer.silence()
    return count


class _Mixer:
    def __init__(self, scene: Scene, antennas: int, oversampling: int, writer: Writer) -> None:
        self.scene, self.antennas, self.over, self.writer = scene, antennas, oversampling, writer
        self.generator = np.random.default_rng(scene.seed)
        self.noise = 0.0 if scene.snr is None else LEVEL * 10 ** (-scene.snr / 20)
        # Of the transmitter's frequency f the receiver sees f (1 + offset), and its own sample lasts that much longer in it.
        self.stretch = (scene.offset if scene.clock is None else scene.clock) * 1e-6
        self.turn = scene.frequency * scene.offset * 1e-6 / (20e6 * oversampling)
        self.others = np.random.default_rng((scene.seed, 1))  # of all that isn't in every scene
        self.level = np.exp(2j * np.pi * self.others.random((antennas, 1))) * (0.0 if scene.level is None else LEVEL * 10 ** (scene.level / 20))
        self.neighbour: Optional[Neighbour] = None

    def add(self, frame: SymbolsFrame) -> None:
        bandwidth = frame.rate.bandwidth
        self._make_neighbour(bandwidth)
        self.silence()
        clock = Clock(self.over, self.stretch, middle_of(bandwidth, self.over))
        begin = (self.writer.length + self.generator.random()) * (1 + self.stretch)
        scene = self.scene
        pieces = pieces_of(frame, scene.short_guard, scene.aggregated, scene.stbc, scene.greenfield)
        first, samples = joined(spoiled(pieces, frame.rate, scene, self.others), begin, clock)
        if scene.filter is not None:
            samples = filtered(samples, bandwidth, clock, scene.filter)
        if scene.leakage is not None:
            part = 10 ** (scene.leakage / 10)
            samples = samples + np.sqrt(part / (1 - part) / len(samples))
        taps = channel(scene, len(samples), self.antennas, self.over, self.generator)
        self._write(np.zeros((self.antennas, first - self.writer.length), complex))
        start = self.writer.length
        whole = heard(samples, taps)
        middle = whole.shape[1] * 2 // 3
        self._write(np.delete(whole, slice(middle, middle + self.scene.lost), axis=1))
        self.writer.annotations.append({
            "core:sample_start": start, "core:sample_count": self.writer.length - start, "core:generator": "mizgaure",
            "core:label": f"MCS {frame.rate.mcs}, {frame.rate.bandwidth} MHz, {frame.length} octets"})

    def _make_neighbour(self, bandwidth: int) -> None:
        """Make the neighbour of the first packet, which is that of all."""
        scene = self.scene
        scene.check_band(bandwidth, self.over)
        if scene.neighbour is None:
            return
        if self.neighbour is None:
            self.neighbour = Neighbour(self.antennas, LEVEL * 10 ** (scene.neighbour / 20), self.others, self.over, bandwidth, scene.nonadjacent)
        if self.neighbour.rate.bandwidth != bandwidth:
            raise InputError("a neighbour stands beside packets of 20 MHz or of 40, and not of both")

    def silence(self) -> None:
        left = int(round(self.scene.gap * 20 * self.over))
        self._write(np.broadcast_to(np.zeros(1, complex), (self.antennas, left)))

    def _write(self, samples: np.ndarray) -> None:
        """Write what antennas hear, in pieces: with the carrier's offset, a neighbour, noise, and levels."""
        for first in range(0, samples.shape[1], PIECE):
            part = samples[:, first : first + PIECE]
            times = self.writer.length + np.arange(part.shape[1])
            turned = part * (LEVEL * np.exp(2j * np.pi * self.turn * times))
            if self.neighbour is not None:
                turned += self.neighbour.take(part.shape[1])
            if self.noise:
                parts = self.generator.standard_normal((*part.shape, 2)) * (self.noise / np.sqrt(2))
                turned += parts[..., 0] + 1j * parts[..., 1]
            if self.level.any():
                turned += self.level * np.exp(2j * np.pi * self.scene.drift / (20e6 * self.over) * times)
            self.writer.write(turned)


class Neighbour:
    """Packets in a channel above the others, with 10 microseconds of silence between them, on a clock of their own.

    Parameters
    ----------
    antennas : int
        Each hears them with a phase of its own.
    amplitude : float
        The mean one while they last.
    generator : numpy.random.Generator
    oversampling : int
    bandwidth : int
        Its own and that of the others, in MHz.
    nonadjacent : bool
        Whether it is two channels above, and not one.
    """

    def __init__(self, antennas: int, amplitude: float, generator: np.random.Generator, oversampling: int, bandwidth: int, nonadjacent: bool) -> None:
        self.generator, self.over, self.rate = generator, oversampling, Rate(bandwidth, 4)
        self.above = middle_of(bandwidth, oversampling) * 20 / TRANSFORM + bandwidth * (2 if nonadjacent else 1)  # MHz, of its middle
        self.phases = amplitude * np.exp(2j * np.pi * generator.random((antennas, 1)))
        self.waiting = np.zeros(0, complex)

    def take(self, count: int) -> np.ndarray:
        """What is heard of them in so many samples more: (antennas, count)."""
        while self.waiting.size < count:
            frame = random_symbols(self.rate, 40 * self.rate.bandwidth, self.generator)
            _, (samples,) = packet(frame, Clock(self.over, 1e-5, round(self.above * TRANSFORM / 20)), self.generator.random())
            turned = samples * np.exp(2j * np.pi * (1e-5 * 5.2e9 / (20e6 * self.over)) * np.arange(samples.size))
            spectrum = np.fft.fft(np.concatenate((turned, np.zeros(200 * self.over))))
            frequencies = np.fft.fftfreq(spectrum.size) * 20 * self.over  # MHz; nothing is sent within 0.5 of the channel's ends
            spectrum *= np.clip((self.rate.bandwidth / 2 - 0.5 - np.abs(frequencies - self.above)) / 0.5, 0, 1)
            self.waiting = np.concatenate((self.waiting, np.fft.ifft(spectrum)))
        made, self.waiting = self.waiting[:count], self.waiting[count:]
        return self.phases * made
