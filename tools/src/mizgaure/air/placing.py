"""Where no packet is found: a band beside the middle is looked for, and otherwise what is likely to be wrong.

Both look at excerpts behind the instants at which the power rises most, as it does where packets begin. An excerpt is taken as it
is said to be, with another middle, with I and Q swapped, or at another rate; where packets are found that way, their L-SIG right,
that is what is wrong.
"""

from __future__ import annotations

from typing import Iterator, List, Optional, Tuple

import numpy as np

from .part import WHOLE, Part
from .record import packets_in
from .resampled import BAND, RATES, Resampled, fitted, goal_of
from .samples import Layout, Recording

BLOCK, READ = 50e-6, 1 << 18  # seconds over which power is averaged, and samples that are read at once
BEFORE, LASTS = 150e-6, 900e-6  # seconds of an excerpt in front of a rise, and in all
MOST, LEAST_RISE = 12, 1.5  # excerpts, and by how much the power rises
SPACING = 1.25e6  # Hz between the middles that are tried: the short training's offset is known up to a multiple of it
BINS, NEAREST = 256, (0, 1, -1, 2, -2)  # frequencies of an excerpt's spectrum, and middles that are tried round the likeliest one
KNOWN_RATES = (20e6, 25e6, 30.72e6, 40e6, 50e6, 61.44e6, 80e6, 100e6, 122.88e6, 200e6)
OVERDRIVEN, FEW_STEPS = 0.02, 4  # the share of parts as large as the largest, and of how many steps the largest is at least


class Excerpt(Recording):
    """Some instants of a recording, which is left open.

    Parameters
    ----------
    source : Recording
    first, count : int
    rate : float, optional
        Another rate than the source's.
    swapped : bool
        Whether I and Q are swapped.
    """

    def __init__(self, source: Recording, first: int, count: int, rate: Optional[float] = None, swapped: bool = False) -> None:
        layout = source.layout if rate is None else Layout(source.layout.datatype, rate, source.layout.channels)
        super().__init__(source.name, None, layout)
        self._held = source.read(first, count)
        self._held = self._held.conj() if swapped else self._held
        self._length = self._held.shape[1]

    def _samples(self, first: int, count: int) -> np.ndarray:
        return self._held[:, first : first + count].copy()

    def close(self) -> None:
        """Nothing is open."""


def has_packets(recording: Recording) -> bool:
    """Whether a packet is in it whose L-SIG, or in HT-greenfield format HT-SIG, is right."""
    return any(packet.legacy is not None or packet.signal is not None for packet in packets_in(recording))


class Look:
    """A second look at a recording, as it was recorded, in which no packet was found. It reads all of it once.

    Parameters
    ----------
    recording : Recording
    part : Part
        Of it, in which there was none.

    Attributes
    ----------
    places : list of int
        The instants at which the power rises most, the largest rise first.
    largest : float
        The largest part.
    share : float
        The share of parts that are as large as that.
    """

    def __init__(self, recording: Recording, part: Part = WHOLE) -> None:
        self.recording = recording
        low, high = part.instants(recording)
        self.largest, count, total = 0.0, 0, 0
        block = max(1, round(BLOCK * recording.layout.rate))
        step = READ // block * block
        found: List[Tuple[float, int]] = []
        last = np.zeros(0)
        for first in range(max(low, recording.earliest), high, step):
            samples = recording.read(first, min(step, high - first))
            parts = np.abs(samples.view(np.float32))
            here = float(parts.max(initial=0))
            if here > self.largest:
                self.largest, count = here, 0
            count += int(np.count_nonzero(parts >= self.largest))
            total += parts.size
            powers = np.concatenate((last, _powers(samples, block)))
            found = sorted(found + _rises(powers, first + (1 - last.size) * block, block), reverse=True)[: 3 * MOST]
            last = powers[-2:]
        self.share = count / total if self.largest else 0.0
        self.places: List[int] = []
        for _, place in found:
            if len(self.places) < MOST and all(abs(place - other) > 2 * block for other in self.places):
                self.places.append(place)

    def shift(self) -> Optional[float]:
        """Where the middle of packets is, in Hz from the recording's middle, if they are beside it."""
        for excerpt in self._excerpts():
            for shift in _middles(excerpt):
                if has_packets(Resampled(excerpt, shift)):
                    return shift
        return None

    def cause(self) -> str:
        """Why there is likely no packet, in words."""
        recording = self.recording
        if recording.ever_not_finite:
            return "parts aren't finite numbers, so the type of the samples may be another"
        if self.largest == 0:
            return "all samples are 0"
        if recording.layout.rate >= RATES[0] and any(has_packets(fitted(excerpt)) for excerpt in self._excerpts(swapped=True)):
            return "with I and Q swapped there are packets"
        for rate in KNOWN_RATES:
            if abs(rate - recording.layout.rate) > 1e-3 * rate and any(has_packets(fitted(excerpt)) for excerpt in self._excerpts(rate)):
                return f"at {rate:.10g} samples a second there are packets"
        step = _step_of(recording.layout.datatype)
        if self.largest < FEW_STEPS * step:
            return f"the largest part is {round(self.largest / step)} of {round(1 / step)} steps, so the receiver's gain was too low"
        if self.share > OVERDRIVEN:
            return f"{100 * self.share:.0f} % of the parts are as large as the largest, so the receiver was overdriven"
        if not self.places:
            return "the power stays the same, so nothing begins"
        return "the power rises, but not to a training of OFDM: it may be another signal, or a band that wasn't recorded"

    def _excerpts(self, rate: Optional[float] = None, swapped: bool = False) -> Iterator[Excerpt]:
        """Excerpts at the places, as if the rate were another or I and Q were swapped."""
        assumed = rate or self.recording.layout.rate
        for place in self.places:
            first = max(self.recording.earliest, place - round(BEFORE * assumed))
            yield Excerpt(self.recording, first, round(LASTS * assumed), rate, swapped)


def _powers(samples: np.ndarray, block: int) -> np.ndarray:
    """The power of whole blocks over all antennas, their mean taken off."""
    whole = samples[:, : samples.shape[1] // block * block].reshape(len(samples), -1, block)
    return np.sum(np.abs(whole - whole.mean(axis=-1, keepdims=True)) ** 2, axis=(0, 2), dtype=float)


def _rises(powers: np.ndarray, first: int, block: int) -> List[Tuple[float, int]]:
    """The largest rises of the power, each with its instant; the block behind the first one begins at ``first``.

    The block at which a packet begins has only a part of it, so a block is compared with the last but one.
    """
    ratios = powers[2:] / np.maximum(powers[:-2], 1e-9 * max(float(powers.max(initial=0)), 1e-300))
    best = np.argsort(-ratios)[: 3 * MOST]
    return [(float(ratios[n]), first + int(n) * block) for n in best if ratios[n] > LEAST_RISE and powers[n + 2] > 0]


def _middles(excerpt: Excerpt) -> List[float]:
    """The likeliest middles of a packet in an excerpt, by the power of the bands round them."""
    rate = excerpt.layout.rate
    samples = excerpt.read(round(BEFORE * rate), excerpt.length)
    whole = samples[:, : samples.shape[1] // BINS * BINS].reshape(len(samples), -1, BINS)
    power = np.fft.fftshift(np.sum(np.abs(np.fft.fft(whole * np.hanning(BINS), axis=-1)) ** 2, axis=(0, 1)))
    frequencies = (np.arange(BINS) - BINS // 2) * rate / BINS
    farthest = (rate - BAND) / 2
    made: List[float] = []
    for width in (BAND,) if goal_of(excerpt) == RATES[0] else (BAND, BAND + RATES[0]):
        most = int(max(0.0, rate - width) / 2 // SPACING)
        shifts = SPACING * np.arange(-most, most + 1)
        likely = shifts[int(np.argmax([power[np.abs(frequencies - shift) <= width / 2].sum() for shift in shifts]))]
        made += [float(np.clip(likely + SPACING * apart, -farthest, farthest)) for apart in NEAREST]
    return [shift for shift in dict.fromkeys(made) if shift]


def _step_of(datatype: str) -> float:
    """A step of whole numbers beside full scale; 0 of floating point."""
    bits = "".join(letter for letter in datatype.partition("_")[0] if letter.isdigit())
    return 0.0 if datatype.startswith("cf") else 2.0 ** (1 - int(bits))

