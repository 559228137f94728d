"""From a recording to its packets, one behind the other, and to a capture of those that can be in one."""

from __future__ import annotations

import shutil
import tempfile
from dataclasses import dataclass, replace
from typing import Any, BinaryIO, Dict, Iterator, Optional, Tuple, cast

from ..errors import FitError, InputError
from ..files import Target, writing
from ..formats import MAGIC, MOST_FRAMES, CaptureFrame, htcp_frame
from ..quantise import Gain, capture
from ..rates import Rate
from .headers import CLAUSE_18
from .legacy import LegacySpool
from .part import WHOLE, Part
from .receive import Packet
from .recording import Recording
from .search import packets

RATES = {20e6: 1, 40e6: 2}
FULL, TOO_LARGE = "the capture is full", "too large at this gain"
COLUMNS = ("packet", "sample", "time", "bandwidth", "mcs", "length", "guard", "aggregated", "stbc", "greenfield", "legacy_rate", "legacy_length",
           "offset", "noise", "clipped", "remarks", "left_out", "frame", "legacy_frame")
IN_MEMORY = 1 << 24  # octets of a capture that are kept in memory before a file is taken
CLIPPED = 1e-3  # the share of parts as large as the largest one from which on a packet is said to be clipped


def oversampling_of(recording: Recording) -> int:
    """1 for 20 million samples a second, 2 for 40 million.

    Raises
    ------
    InputError
        If the recording has another rate.
    """
    for rate, oversampling in RATES.items():
        if abs(recording.layout.rate - rate) <= 1e-4 * rate:
            return oversampling
    raise InputError(f"{recording.name} has {recording.layout.rate:.10g} samples a second, and 20 or 40 million are asked for")


def packets_in(recording: Recording, keep: bool = False, processes: int = 1, part: Part = WHOLE) -> Iterator[Packet]:
    """The packets of a recording, in their order.

    Parameters
    ----------
    recording : Recording
    keep, processes, part
        As in `search.packets`.
    """
    return packets(recording, oversampling_of(recording), keep, processes, part)


@dataclass(frozen=True)
class Line:
    """What is said of a packet.

    Parameters
    ----------
    number : int
        Of the packet in the recording.
    sample : int
    time : float
        In seconds.
    what : str
        Its header in words.
    offset : float
        The carrier's, in Hz.
    noise : float
        Beside the signal, in dB.
    left_out : str or None
    frame : int or None
        The number of its frame in the capture.
    header : dict
        What its headers say, by name.
    clipped : float
    begin, end : int
        Where it begins, and the first sample behind it, in the samples that were received.
    legacy_frame : int or None
        The number of its frame in the capture of clause 18.
    remarks : str
        What else is unusual.
    """

    number: int
    sample: int
    time: float
    what: str
    offset: float
    noise: float
    left_out: Optional[str]
    frame: Optional[int]
    header: Dict[str, Any]
    clipped: float
    begin: int = 0
    end: int = 0
    legacy_frame: Optional[int] = None
    remarks: str = ""

    @property
    def has_header(self) -> bool:
        """Whether L-SIG or HT-SIG could be read."""
        return bool(self.header)

    @property
    def heard(self) -> str:
        """All but what became of it."""
        clipped = f", clipped ({100 * self.clipped:.1f} % of its parts)" if self.clipped > CLIPPED else ""
        return (f"packet {self.number} at sample {self.sample}, {self.time:.6f} s: {self.what}, offset {self.offset / 1e3:+.2f} kHz, "
                f"noise {self.noise:.1f} dB{clipped}" + (f", {self.remarks}" if self.remarks else ""))

    def __str__(self) -> str:
        if self.left_out is not None:
            return f"{self.heard}; left out: {self.left_out}"
        return f"{self.heard}; " + (f"frame {self.frame}" if self.legacy_frame is None else f"frame {self.legacy_frame} of {CLAUSE_18}")

    def record(self) -> Dict[str, Any]:
        """The same as a record for a table, by the names of `COLUMNS`."""
        return {"packet": self.number, "sample": self.sample, "time": self.time, **self.header, "offset": self.offset,
                "noise": self.noise, "clipped": self.clipped, "remarks": self.remarks, "left_out": self.left_out, "frame": self.frame,
                "legacy_frame": self.legacy_frame}


def line_of(packet: Packet, number: int, recording: Recording, frame: Optional[int], left_out: Optional[str]) -> Line:
    """What is said of a packet.

    Parameters
    ----------
    packet : Packet
    number : int
    recording : Recording
    frame : int or None
        The number of its frame in the capture.
    left_out : str or None
    """
    sample, time = recording.place_of(packet.sample)
    return Line(number, sample, time, _in_words(packet), packet.offset, packet.noise, left_out, frame, _header(packet), packet.clipped,
                packet.sample, packet.end, remarks=packet.remarks)


def _in_words(packet: Packet) -> str:
    signal, legacy = packet.signal, packet.legacy
    if signal is not None:
        width = 40 if signal.wide else 20
        rate = str(Rate(width, signal.mcs)) if signal.mcs < 32 else f"{width} MHz, MCS {signal.mcs}"
        octets = "1 octet" if signal.length == 1 else f"{signal.length} octets"
        return f"{rate}, {octets}, {'short' if signal.short_guard else 'long'} guard interval"
    if legacy is not None:
        octets = "1 octet" if legacy.length == 1 else f"{legacy.length} octets"
        return f"L-SIG of {legacy.rate} Mbit/s, {octets}"
    return "no header"


def _header(packet: Packet) -> Dict[str, Any]:
    signal, legacy = packet.signal, packet.legacy
    said: Dict[str, Any] = {}
    if legacy is not None:
        said.update(legacy_rate=legacy.rate, legacy_length=legacy.length)
    if signal is not None:
        said.update(bandwidth=40 if signal.wide else 20, mcs=signal.mcs, length=signal.length,
                    guard=400 if signal.short_guard else 800, aggregated=signal.aggregated, stbc=signal.stbc, greenfield=packet.is_greenfield)
    return said


class Spool:
    """A capture on its way, whose number of frames isn't known yet: a file without a name.

    Parameters
    ----------
    most : int
        The number of frames that it takes.
    gain : float or ``"soft"``, optional
        As in `capture`. A packet's antennas are scaled so that each has noise of mean power 1 on a subcarrier.
    """

    def __init__(self, most: int = MOST_FRAMES, gain: Gain = None) -> None:
        self._file: BinaryIO = cast(BinaryIO, tempfile.SpooledTemporaryFile(IN_MEMORY))
        self.frames, self.octets, self.most, self.gain = 0, 0, most, gain

    def add(self, packet: Packet) -> Optional[CaptureFrame]:
        """Take a packet's frame away from it, since it is large; None where the capture is full.

        Raises
        ------
        FitError
            If a number doesn't fit its field at the gain given.
        """
        measured, packet.frame = packet.frame, None
        assert measured is not None
        if self.frames == self.most:
            return None
        (frame,) = capture([measured], self.gain).frames
        made = htcp_frame(frame)
        try:
            self.octets += self._file.write(made)
        except OSError as error:
            raise InputError(f"the folder of temporary files, {tempfile.gettempdir()}, can't be written: {error.strerror}") from error
        self.frames += 1
        return frame

    def write(self, target: Target, force: bool = False) -> None:
        """Write the capture."""
        with writing(target, force) as stream:
            stream.write(MAGIC["htcp"] + b"\1" + self.frames.to_bytes(2, "big"))
            self._file.seek(0)
            shutil.copyfileobj(self._file, stream, 1 << 20)

    def close(self) -> None:
        """Give its file back."""
        self._file.close()

    def __enter__(self) -> "Spool":
        return self

    def __exit__(self, *_: object) -> None:
        self.close()


def spooled(recording: Recording, spool: Spool, legacy: Optional[LegacySpool] = None, processes: int = 1, part: Part = WHOLE) -> Iterator[Line]:
    """Fill a capture with the packets of a recording, and one of clause 18 where that is asked for.

    Yields
    ------
    Line
        One for each packet, in their order.
    """
    for number, packet in enumerate(packets_in(recording, processes=processes, part=part)):
        left_out, frame, legacy_frame = packet.left_out, None, None
        if left_out is None:
            frame, left_out = _taken(spool, packet)
        elif legacy is not None and packet.clause_18 is not None:
            legacy_frame = legacy.add(packet.clause_18)
            left_out = FULL if legacy_frame is None else None
        yield replace(line_of(packet, number, recording, frame, left_out), legacy_frame=legacy_frame)


def _taken(spool: Spool, packet: Packet) -> Tuple[Optional[int], Optional[str]]:
    """The number of a packet's frame in a capture, or why it isn't there."""
    number = spool.frames
    try:
        return (None, FULL) if spool.add(packet) is None else (number, None)
    except FitError:
        return None, TOO_LARGE


def annotation_of(line: Line, recording: Recording) -> Dict[str, Any]:
    """A packet as SigMF annotates it."""
    sample, _ = recording.place_of(line.begin)
    behind, _ = recording.place_of(line.end)
    made: Dict[str, Any] = {"core:sample_start": sample, "core:sample_count": max(1, behind - sample)}
    frequency = recording.frequency_at(line.begin)
    if frequency is not None:
        half = 1e6 * line.header.get("bandwidth", 20) / 2
        made.update({"core:freq_lower_edge": frequency + line.offset - half, "core:freq_upper_edge": frequency + line.offset + half})
    label = next((f"{before}{line.header[name]}{behind}" for name, before, behind in (("mcs", "MCS ", ""), ("legacy_rate", "", " Mbit/s"))
                  if name in line.header), "no header")
    return {**made, "core:label": label, "core:comment": str(line)}
