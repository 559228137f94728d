"""Samples of a recording: how they stand in a file, and a recording as the front end reads it.

The front end asks for pieces, wherever they stand: ``read(first, count)`` gives complex64 of the shape (antennas, instants), of
full scale 1. Whatever a recording is kept in, and whatever its rate, it is one of these.
"""

from __future__ import annotations

import math
import os
from bisect import bisect_right
from dataclasses import dataclass
from typing import BinaryIO, Callable, Dict, List, Optional, Sequence, Tuple, Union

import numpy as np

from ..errors import InputError

# The type of a part, what is full scale, and what is zero.
TYPES: Dict[str, Tuple[str, float, float]] = {
    "cf32_le": ("<f4", 1.0, 0.0), "cf32_be": (">f4", 1.0, 0.0), "cf64_le": ("<f8", 1.0, 0.0), "cf64_be": (">f8", 1.0, 0.0),
    "ci32_le": ("<i4", 2.0**31, 0.0), "ci32_be": (">i4", 2.0**31, 0.0), "ci16_le": ("<i2", 32768.0, 0.0), "ci16_be": (">i2", 32768.0, 0.0),
    "ci8": ("i1", 128.0, 0.0), "cu8": ("u1", 128.0, 127.5),
}
PLAUSIBLE_RATE = 1e12
MOST_CHANNELS = 16
LARGEST = 1e15  # of a part in floating point
ENDLESS = 1 << 62  # the length of a recording whose end isn't known


@dataclass(frozen=True)
class Layout:
    """How the samples of a recording stand in its file.

    Parameters
    ----------
    datatype : str
        As SigMF names it: cf32_le, ci16_le and the like.
    rate : float
        Samples a second.
    channels : int
        How many samples stand together for every instant.
    """

    datatype: str
    rate: float
    channels: int = 1

    def check(self, name: str) -> None:
        """Refuse what can't be read.

        Raises
        ------
        InputError
        """
        if self.datatype not in TYPES:
            raise InputError(f"{name}: the samples are {self.datatype}, and only {', '.join(TYPES)} are known")
        if not (np.isfinite(self.rate) and 0 < self.rate < PLAUSIBLE_RATE):
            raise InputError(f"{name}: {self.rate:g} samples a second mean nothing")
        if not 1 <= self.channels <= MOST_CHANNELS:
            raise InputError(f"{name}: a recording has 1 to {MOST_CHANNELS} channels, and not {self.channels}")

    @property
    def octets(self) -> int:
        """The octets of the samples of one instant."""
        return 2 * self.channels * np.dtype(TYPES[self.datatype][0]).itemsize


@dataclass(frozen=True)
class Segment:
    """From which instant on a recording has a carrier and a clock.

    Parameters
    ----------
    start : int
        Its first instant in the recording.
    frequency : float, optional
        The carrier's, in Hz.
    time : int, optional
        When its first instant was, in nanoseconds since 1970.
    """

    start: int = 0
    frequency: Optional[float] = None
    time: Optional[int] = None


class Stretches:
    """Stretches of a file, as if they stood one behind the other.

    Parameters
    ----------
    stream : binary file
    parts : sequence of (int, int), optional
        The first octet of each and how many it has; by default the whole file.
    """

    def __init__(self, stream: BinaryIO, parts: Optional[Sequence[Tuple[int, int]]] = None) -> None:
        self.stream = stream
        self.parts: List[Tuple[int, int]] = []
        for begin, size in [(0, stream.seek(0, os.SEEK_END))] if parts is None else parts:
            if self.parts and sum(self.parts[-1]) == begin:  # one behind the other in the file, too
                begin, size = self.parts[-1][0], self.parts.pop()[1] + size
            self.parts.append((begin, size))
        self.size = sum(size for _, size in self.parts)

    def within(self, parts: Sequence[Tuple[int, int]]) -> "Stretches":
        """Stretches of these, which have to be one part."""
        ((begin, _),) = self.parts
        return Stretches(self.stream, [(begin + first, size) for first, size in parts])

    def read(self, first: int, count: int) -> bytes:
        """Octets from ``first`` on, fewer where they end. The place of the file is left alone where the system can do so."""
        pieces = []
        for begin, size in self.parts:
            if first < size and count > 0:
                pieces.append(self._at(begin + first, min(count, size - first)))
                count -= min(count, size - first)
            first = max(0, first - size)
        return pieces[0] if len(pieces) == 1 else b"".join(pieces)

    def _at(self, place: int, count: int) -> bytes:
        try:
            handle = self.stream.fileno()
        except (OSError, AttributeError):
            self.stream.seek(place)
            return self.stream.read(count)
        pieces = []
        while count and (piece := os.pread(handle, count, place)):
            pieces.append(piece)
            count, place = count - len(piece), place + len(piece)
        return pieces[0] if len(pieces) == 1 else b"".join(pieces)

    def close(self) -> None:
        """Close the file."""
        self.stream.close()


class Recording:
    """A recording, open for reading.

    Parameters
    ----------
    name : str
        Of the file of samples, for messages.
    stream : binary file or Stretches, optional
        None where a kind of recording of its own has its samples elsewhere.
    layout : Layout
    frequency : float, optional
        The carrier's, in Hz, where it is known and there are no segments.
    segments : sequence of Segment, optional
        In their order, the first of which begins at instant 0.
    first : int
        The number that the file gives the first instant.

    Attributes
    ----------
    not_finite : bool
        Whether the samples that were read last had parts that aren't finite numbers.
    ever_not_finite : bool
        Whether any that were read had.
    remarks : list of str
        What is to be said of the recording beside its packets.
    watch : callable, optional
        Is told by each reading the first instant behind what was read.
    """

    watch: Optional[Callable[[int], None]] = None

    def __init__(self, name: str, stream: Union[BinaryIO, Stretches, None], layout: Layout, frequency: Optional[float] = None, *,
                 segments: Sequence[Segment] = (), first: int = 0) -> None:
        layout.check(name)
        self.name, self.layout, self.first = name, layout, first
        self.segments: Tuple[Segment, ...] = tuple(segments) or (Segment(0, frequency),)
        self._starts = [segment.start for segment in self.segments]
        self._octets = stream if stream is None or isinstance(stream, Stretches) else Stretches(stream)
        self._length, self._rest = divmod(0 if self._octets is None else self._octets.size, layout.octets)
        self.not_finite = self.ever_not_finite = False
        self.remarks: List[str] = []

    @property
    def length(self) -> int:
        """The number of instants; `ENDLESS` as long as the end isn't known."""
        return self._length

    @property
    def rest(self) -> int:
        """Octets behind the last whole instant."""
        return self._rest

    @property
    def earliest(self) -> int:
        """The first instant that can be read, which moves on where samples come through a pipe."""
        return 0

    @property
    def frequency(self) -> Optional[float]:
        """The carrier's at the beginning, in Hz, where it is known."""
        return self.segments[0].frequency

    def segment_at(self, sample: float) -> Segment:
        """The segment that an instant is in."""
        return self.segments[max(0, bisect_right(self._starts, sample) - 1)]

    def frequency_at(self, sample: int) -> Optional[float]:
        """The carrier's frequency at an instant, in Hz, where it is known."""
        return self.segment_at(sample).frequency

    def time_of(self, sample: int) -> int:
        """When an instant was, in nanoseconds: since 1970 where the recording says so, and since its beginning otherwise."""
        segment = self.segment_at(sample)
        start, time = (0, 0) if segment.time is None else (segment.start, segment.time)
        return time + round(1e9 * self.seconds(sample - start))

    def place_of(self, sample: int) -> Tuple[int, float]:
        """The number that the file gives an instant, and what that is in seconds."""
        return self.first + sample, self.seconds(self.first + sample)

    def instant_at(self, seconds: float) -> int:
        """The last instant that isn't later than so many seconds, as `place_of` counts them; maybe below 0."""
        return math.floor(seconds * self.layout.rate) - self.first

    def pass_over(self, first: int) -> None:
        """Nothing in front of an instant will be read."""

    def read(self, first: int, count: int) -> np.ndarray:
        """Samples from instant ``first`` on, fewer than ``count`` where the recording ends.

        Parts that aren't finite, or above 10**15, are given as 0.

        Returns
        -------
        ndarray of complex64, shape (channels, instants)
            Of full scale 1.

        Raises
        ------
        InputError
            If the system can't read them.
        """
        try:
            samples = self._samples(first, max(0, min(count, self.length - first)))
        except OSError as error:
            raise InputError(f"{self.name} can't be read: {error.strerror or error}") from error
        self.not_finite = False
        if samples.size and self._may_be_infinite():
            parts = samples.view(np.float32)
            if not (parts.max() < LARGEST and parts.min() > -LARGEST):
                parts[~(np.abs(parts) < LARGEST)] = 0
                self.not_finite = self.ever_not_finite = True
        if self.watch is not None:
            self.watch(first + samples.shape[1])
        return samples

    def _samples(self, first: int, count: int) -> np.ndarray:
        """Samples as `read` gives them, with whatever parts they have: an array of its own."""
        assert self._octets is not None
        return decoded(self._octets.read(first * self.layout.octets, count * self.layout.octets), self.layout)

    def _may_be_infinite(self) -> bool:
        return TYPES[self.layout.datatype][1] == 1

    def seconds(self, samples: float) -> float:
        """How long so many instants last."""
        return samples / self.layout.rate

    def close(self) -> None:
        """Close the file."""
        if self._octets is not None:
            self._octets.close()

    def __enter__(self) -> "Recording":
        return self

    def __exit__(self, *_: object) -> None:
        self.close()


def decoded(octets: bytes, layout: Layout) -> np.ndarray:
    """The whole samples in octets: complex64 of full scale 1, shape (channels, instants)."""
    kind, scale, zero = TYPES[layout.datatype]
    count, size = len(octets) // layout.octets, 2 * np.dtype(kind).itemsize
    # Whole samples change places, since their parts by themselves would take several times as long.
    whole = np.frombuffer(octets, "c16" if size > 8 else f"u{size}", layout.channels * count).reshape(count, layout.channels)
    parts = np.ascontiguousarray(whole.T).view(kind)
    with np.errstate(invalid="ignore", over="ignore"):
        made = parts.astype(np.float32)
    if zero:
        made -= np.float32(zero)
    if scale != 1:
        made *= np.float32(1 / scale)
    return made.view(np.complex64)


class Joined(Recording):
    """Recordings of the same time side by side, the antennas of each behind those of the one before.

    Parameters
    ----------
    parts : sequence of Recording
        They are closed with this.

    Raises
    ------
    InputError
        If their rates, carriers or times differ, or there are more than 16 antennas in all.
    """

    def __init__(self, parts: Sequence[Recording]) -> None:
        front = parts[0]
        for part in parts[1:]:
            if part.layout.rate != front.layout.rate:
                raise InputError(f"{front.name} has {front.layout.rate:.10g} samples a second, and {part.name} {part.layout.rate:.10g}")
            for what, kind in (("captures", "start"), ("frequencies", "frequency"), ("times", "time")):
                if [getattr(s, kind) for s in part.segments] != [getattr(s, kind) for s in front.segments]:
                    raise InputError(f"{front.name} and {part.name} have other {what}, so they aren't antennas of one receiver")
            if part.first != front.first:
                raise InputError(f"{front.name} begins with sample {front.first}, and {part.name} with {part.first}")
        layout = Layout(front.layout.datatype, front.layout.rate, sum(part.layout.channels for part in parts))
        super().__init__(", ".join(part.name for part in parts), None, layout, segments=front.segments, first=front.first)
        self.parts = parts
        longest = max(part.length for part in parts)
        if longest > self.length:
            self.remarks.append(f"{self.name}: one has {self.length} samples and another one {longest}, and what is beyond was left out")

    @property
    def length(self) -> int:
        """That of the shortest part."""
        return min(part.length for part in self.parts)

    @property
    def rest(self) -> int:
        """The most of any part."""
        return max(part.rest for part in self.parts)

    @property
    def earliest(self) -> int:
        """The latest of any part."""
        return max(part.earliest for part in self.parts)

    def pass_over(self, first: int) -> None:
        """As of each part."""
        for part in self.parts:
            part.pass_over(first)

    def _samples(self, first: int, count: int) -> np.ndarray:
        pieces = [part.read(first, count) for part in self.parts]
        shortest = min(piece.shape[1] for piece in pieces)
        return np.concatenate([piece[:, :shortest] for piece in pieces])

    def read(self, first: int, count: int) -> np.ndarray:
        """As of each part."""
        made = super().read(first, count)
        self.not_finite = any(part.not_finite for part in self.parts)
        self.ever_not_finite = self.ever_not_finite or self.not_finite
        return made

    def close(self) -> None:
        """Close all parts."""
        for part in self.parts:
            part.close()


class Piped(Recording):
    """Samples that come through a pipe, such as standard input. As many of the last ones are kept as the front end goes back.

    Parameters
    ----------
    name : str
    stream : binary file
        Read from where it stands, as its samples come.
    layout : Layout
    frequency : float, optional
    """

    KEPT = 0.025  # seconds, more than four times the longest packet

    def __init__(self, name: str, stream: BinaryIO, layout: Layout, frequency: Optional[float] = None) -> None:
        super().__init__(name, None, layout, frequency)
        self._stream = stream
        self._held, self._earliest, self._kept = bytearray(), 0, int(self.KEPT * layout.rate)
        self._length = ENDLESS

    @property
    def earliest(self) -> int:
        """The first instant that is kept."""
        return self._earliest

    def pass_over(self, first: int) -> None:
        """What comes in front of an instant is read and forgotten."""
        for place in range(self._earliest, first, self._kept):
            self._samples(place, min(self._kept, first - place))

    def _samples(self, first: int, count: int) -> np.ndarray:
        if first < self._earliest:
            raise InputError(f"{self.name}: sample {first} went by, and a pipe doesn't bring it again")
        size = self.layout.octets
        missing = (first + count - self._earliest) * size - len(self._held)
        if missing > 0 and self._length == ENDLESS:
            piece = self._stream.read(missing)
            self._held += piece
            if len(piece) < missing:
                whole, self._rest = divmod(len(self._held), size)
                self._length = self._earliest + whole
        begin = (first - self._earliest) * size
        made = decoded(bytes(self._held[begin : begin + count * size]), self.layout)
        old = len(self._held) // size - self._kept
        if old > self._kept:
            del self._held[: old * size]
            self._earliest += old
        return made

    def close(self) -> None:
        """Nothing is closed, since standard input is the process's own."""
