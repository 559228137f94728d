"""The three formats of files, read and written exactly.

``docs/FORMATS.md`` of the repository has the fields, and what is refused where. All numbers in the arrays are whole and
are held exactly: every part of a triangle or a sample is below 2**32 in size, and a float64 holds those.

Readers are iterators that hold one frame at a time. They refuse a file with the kind and the offset of its first fault,
as the program does; frames in front of the fault have been given by then. The number of frames is known from the head;
that nothing follows the last frame is known once the iterator has ended.
"""

from __future__ import annotations

import os
from collections.abc import Sequence
from dataclasses import dataclass, field
from functools import lru_cache
from typing import Any, BinaryIO, ContextManager, Iterable, Iterator, Optional, Tuple, Union

import numpy as np

from .errors import FormatError, InputError
from .files import Source, Target, fronted, reading, writing
from .rates import Rate, check_length, labels_of

MAGIC = {"htcp": b"HTCP", "httx": b"HTTX", "htsy": b"HTSY"}
DIAGONAL_LIMIT = 65535
ENTRY_LIMITS = (-(2**15), 2**15 - 1)
SAMPLE_LIMITS = (-(2**31), 2**31 - 1)
MOST_FRAMES = 65535


@dataclass(eq=False)
class CaptureFrame:
    """A frame of a capture (HTCP).

    Parameters
    ----------
    rate : Rate
    length : int
        The number of octets of the PSDU, 1 to 65535.
    triangles : ndarray of complex128, shape (subcarriers, streams, streams)
        Upper triangular: a real diagonal of 0 to 65535, and above it whole parts from -32768 to 32767. Zeros where erased.
    samples : ndarray of complex128, shape (symbols, subcarriers, streams)
        The received vectors after the rotation to the triangle, with whole parts from -2**31 to 2**31 - 1. Zeros where erased.
    erased : ndarray of bool, shape (subcarriers,), optional
        Which subcarriers are marked as not received. None of them by default; never all.
    """

    rate: Rate
    length: int
    triangles: np.ndarray
    samples: np.ndarray
    erased: np.ndarray = field(default=None)  # type: ignore[assignment,arg-type]

    def __post_init__(self) -> None:
        if self.erased is None:
            self.erased = np.zeros(self.rate.subcarriers, bool)

    def check(self, number: int) -> None:
        """Refuse a frame that has no place in a capture, as frame ``number``.

        Raises
        ------
        InputError
            If a shape is wrong, a part isn't whole or is out of its field's range, or all subcarriers are erased.
        """
        n, carriers = self.rate.streams, self.rate.subcarriers
        check_shape(number, "triangles", self.triangles, (carriers, n, n))
        check_shape(number, "samples", self.samples, (self.rate.symbols(self.length), carriers, n))
        check_shape(number, "erased", self.erased, (carriers,))
        if np.all(self.erased):
            raise InputError(f"frame {number}: all subcarriers are erased, and a frame has a present one")
        if not _are_triangles(self.triangles):
            for row in range(n):
                for column in range(n):
                    self._check_entry(number, row, column)
        for parts in (np.real(self.samples), np.imag(self.samples)):
            if _are_whole(parts, *SAMPLE_LIMITS):
                continue
            good = (np.rint(parts) == parts) & (parts >= SAMPLE_LIMITS[0]) & (parts <= SAMPLE_LIMITS[1])
            good |= self.erased[None, :, None]
            if not good.all():
                symbol, carrier, row = np.argwhere(~good)[0]
                value = self.samples[symbol, carrier, row]
                raise InputError(f"frame {number}, symbol {symbol}, subcarrier {carrier}: sample {row + 1} is {show(value)}, "
                                 f"and its parts have to be whole and from -2^31 to 2^31 - 1")

    def _check_entry(self, number: int, row: int, column: int) -> None:
        real, imag = np.real(self.triangles[:, row, column]), np.imag(self.triangles[:, row, column])
        good = (np.rint(real) == real) & (np.rint(imag) == imag)
        if column < row:
            good &= (real == 0) & (imag == 0)
            asked = "0, below the diagonal"
        elif column == row:
            good &= (real >= 0) & (real <= DIAGONAL_LIMIT) & (imag == 0)
            asked = f"a whole number from 0 to {DIAGONAL_LIMIT}"
        else:
            low, high = ENTRY_LIMITS
            good &= (real >= low) & (real <= high) & (imag >= low) & (imag <= high)
            asked = f"of whole parts from {low} to {high}"
        good |= self.erased
        if not good.all():
            carrier = int(np.argmin(good))
            value = self.triangles[carrier, row, column]
            raise InputError(f"frame {number}, subcarrier {carrier}: entry ({row + 1}, {column + 1}) is {show(value)}, "
                             f"and has to be {asked}")


def _are_whole(parts: np.ndarray, low: Union[int, np.ndarray], high: Union[int, np.ndarray]) -> bool:
    """Whether all parts are whole numbers of a range."""
    return bool(((parts >= low) & (parts <= high) & (np.rint(parts) == parts)).all())


def _are_triangles(triangles: np.ndarray) -> bool:
    """Whether all entries are whole, and fit their fields."""
    real, imag = _entry_limits(triangles.shape[-1])
    return _are_whole(np.real(triangles), *real) and _are_whole(np.imag(triangles), *imag)


@lru_cache(maxsize=None)
def _entry_limits(streams: int) -> Tuple[Tuple[np.ndarray, np.ndarray], ...]:
    """The least and the largest real part of each entry of a triangle, and the same of imaginary parts: int64, shape (streams, streams)."""
    above = np.triu(np.ones((streams, streams), np.int64), 1)
    low, high = ENTRY_LIMITS
    return (low * above, high * above + DIAGONAL_LIMIT * np.eye(streams, dtype=np.int64)), (low * above, high * above)


@dataclass(eq=False)
class SentFrame:
    """A frame of a file of frames (HTTX): what a transmitter is given.

    Parameters
    ----------
    rate : Rate
    octets : bytes
        The PSDU, 1 to 65535 octets.
    seed : int
        The scrambler's seed, 1 to 127.
    """

    rate: Rate
    octets: bytes
    seed: int

    @property
    def length(self) -> int:
        """The number of octets of the PSDU."""
        return len(self.octets)

    def check(self, number: int) -> None:
        """Refuse a frame that has no place in a file, as frame ``number``."""
        if not 1 <= self.seed <= 127:
            raise InputError(f"frame {number}: the seed is {self.seed}, and has to be 1 to 127")
        if not 1 <= len(self.octets) <= 65535:
            raise InputError(f"frame {number}: a frame has 1 to 65535 octets, and not {len(self.octets)}")


@dataclass(eq=False)
class SymbolsFrame:
    """A frame of a file of symbols (HTSY): what a transmitter sends.

    Parameters
    ----------
    rate : Rate
    length : int
        The number of octets of the PSDU, 1 to 65535.
    points : ndarray of complex128, shape (symbols, subcarriers, streams)
        Points of the constellation, not normalised, and on pilots the pilot's value, (1, 0) or (-1, 0).
    """

    rate: Rate
    length: int
    points: np.ndarray

    def check(self, number: int) -> None:
        """Refuse a frame that has no place in a file, as frame ``number``."""
        check_shape(number, "points", self.points, (self.rate.symbols(self.length), self.rate.subcarriers, self.rate.streams))
        good = _good_points(self.points, self.rate, 0)
        if not good.all():
            symbol, carrier, stream = np.argwhere(~good)[0]
            what = "the pilot's value" if self.rate.is_pilot[carrier] else "a point of the constellation"
            raise InputError(f"frame {number}, symbol {symbol}, subcarrier {carrier}: stream {stream + 1} has "
                             f"{show(self.points[symbol, carrier, stream])}, which isn't {what}")


def show(value: complex) -> str:
    """A number for a message, as 12 or (1.5, -2)."""
    value = complex(value)
    return f"{value.real:.10g}" if value.imag == 0 else f"({value.real:.10g}, {value.imag:.10g})"


def check_shape(number: int, name: str, array: np.ndarray, shape: Tuple[int, ...]) -> None:
    """Refuse an array of another shape, as one of frame ``number``."""
    if np.shape(array) != shape:
        raise InputError(f"frame {number}: {name} has the shape {np.shape(array)}, and {shape} is asked for")


class Fields:
    """Octets taken from the front, field by field, with the offset reached."""

    def __init__(self, stream: BinaryIO) -> None:
        self.stream = stream
        self.offset = 0

    def up_to(self, count: int) -> bytes:
        """The next octets, fewer than asked for only where the input ends."""
        pieces, left = [], count
        while left:
            piece = self.stream.read(left)
            if not piece:
                break
            pieces.append(piece)
            left -= len(piece)
        taken = b"".join(pieces)
        self.offset += len(taken)
        return taken

    def octets(self, count: int) -> bytes:
        taken = self.up_to(count)
        if len(taken) < count:
            raise FormatError("Truncated", self.offset)
        return taken

    def number(self, width: int, kind: Optional[str] = None, allowed: range = range(0)) -> int:
        """A number of ``width`` octets, refused as ``kind`` where it isn't allowed."""
        value = int.from_bytes(self.octets(width), "big")
        if kind is not None and value not in allowed:
            raise FormatError(kind, self.offset - width)
        return value

    def signed(self, width: int) -> int:
        """A number of ``width`` octets in two's complement."""
        return int.from_bytes(self.octets(width), "big", signed=True)

    def magic(self, magic: bytes) -> None:
        for octet in magic:
            self.number(1, "BadMagic", range(octet, octet + 1))

    def end(self) -> None:
        if self.up_to(1):
            raise FormatError("Trailing", self.offset - 1)

    def rate(self) -> Rate:
        bandwidth = (20, 40)[self.number(1, "BadBandwidth", range(2))]
        return Rate(bandwidth, self.number(1, "BadMcs", range(32)))

    def length(self) -> int:
        return self.number(2, "BadLength", range(1, 65536))


class FrameReader:
    """An iterator over the frames of a file; ``version`` and ``frames``, the number of frames, are known at once."""

    magic = b""
    versions = range(1, 2)

    def __init__(self, source: Source) -> None:
        self._opened: Optional[ContextManager[BinaryIO]] = reading(source)
        self._fields = Fields(self._opened.__enter__())
        try:
            self._fields.magic(self.magic)
            self.version = self._fields.number(1, "BadVersion", self.versions)
            self.frames = self._fields.number(2)
        except BaseException:
            self.close()
            raise
        self._given = 0

    def __len__(self) -> int:
        return self.frames

    def __iter__(self):
        return self

    def __next__(self):
        if self._opened is None:
            raise StopIteration
        try:
            if self._given == self.frames:
                self._fields.end()
                self.close()
                raise StopIteration
            frame = self._frame()
            self._given += 1
            return frame
        except FormatError:
            self.close()
            raise

    def close(self) -> None:
        """Close the file, where the reader opened it."""
        if self._opened is not None:
            self._opened.__exit__(None, None, None)
            self._opened = None

    def __enter__(self):
        return self

    def __exit__(self, *_: object) -> None:
        self.close()

    def _frame(self):
        raise NotImplementedError


class _CaptureReader(FrameReader):
    magic = MAGIC["htcp"]
    versions = range(1, 3)

    def _frame(self) -> CaptureFrame:
        rate, length = self._fields.rate(), self._fields.length()
        if self.version == 1:
            erased = np.zeros(rate.subcarriers, bool)
            words = np.frombuffer(self._fields.octets(rate.subcarriers * 2 * rate.streams**2), ">i2")
        else:
            erased, words = self._flags_and_triangles(rate)
        present = np.flatnonzero(~erased)
        triangles = np.zeros((rate.subcarriers, rate.streams, rate.streams), complex)
        triangles[present] = _triangles_of_words(words.reshape(present.size, -1), rate.streams)
        symbols = rate.symbols(length)
        parts = np.frombuffer(self._fields.octets(symbols * present.size * rate.streams * 8), ">i4")
        parts = parts.reshape(symbols, present.size, rate.streams, 2)
        samples = np.zeros((symbols, rate.subcarriers, rate.streams), complex)
        samples[:, present] = parts[..., 0] + 1j * parts[..., 1]
        return CaptureFrame(rate, length, triangles, samples, erased)

    def _flags_and_triangles(self, rate: Rate) -> Tuple[np.ndarray, np.ndarray]:
        erased = np.zeros(rate.subcarriers, bool)
        triangles = []
        for carrier in range(rate.subcarriers):
            last_chance = carrier == rate.subcarriers - 1 and erased[:carrier].all()
            erased[carrier] = self._fields.number(1, "BadErased", range(1) if last_chance else range(2))
            if not erased[carrier]:
                triangles.append(self._fields.octets(2 * rate.streams**2))
        return erased, np.frombuffer(b"".join(triangles), ">i2")


class _SentReader(FrameReader):
    magic = MAGIC["httx"]

    def _frame(self) -> SentFrame:
        rate, length = self._fields.rate(), self._fields.length()
        seed = self._fields.number(1, "BadSeed", range(1, 128))
        return SentFrame(rate, self._fields.octets(length), seed)


class _SymbolsReader(FrameReader):
    magic = MAGIC["htsy"]

    def _frame(self) -> SymbolsFrame:
        rate, length = self._fields.rate(), self._fields.length()
        symbols = rate.symbols(length)
        points = np.empty((symbols, rate.subcarriers, rate.streams), complex)
        for symbol in range(symbols):
            points[symbol] = self._symbol(rate, symbol)
        return SymbolsFrame(rate, length, points)

    def _symbol(self, rate: Rate, symbol: int) -> np.ndarray:
        shape = (1, rate.subcarriers, rate.streams)
        asked = 2 * rate.subcarriers * rate.streams
        start = self._fields.offset
        octets = self._fields.up_to(asked)
        parts = np.zeros(asked, np.int8)
        parts[: len(octets)] = np.frombuffer(octets, np.int8)
        parts = parts.reshape(-1, 2)
        points = (parts[:, 0] + 1j * parts[:, 1]).reshape(shape)
        bad = np.flatnonzero(~_good_points(points, rate, symbol).reshape(-1)[: len(octets) // 2])
        if bad.size:
            carrier = bad[0] // rate.streams
            raise FormatError("BadPilot" if rate.is_pilot[carrier] else "BadPoint", start + 2 * int(bad[0]))
        if len(octets) < asked:
            raise FormatError("Truncated", self._fields.offset)
        return points[0]


def _good_points(points: np.ndarray, rate: Rate, first_symbol: int) -> np.ndarray:
    """Which points may stand where they stand, the first of them in symbol ``first_symbol``: bool, of the same shape."""
    good = labels_of(points, rate) >= 0
    good[:, rate.is_pilot] = points[:, rate.is_pilot] == rate.pilot_signs(points.shape[0], first_symbol)
    return good


def _word_places(streams: int) -> Iterator[Tuple[int, int, int]]:
    """Row, column and first word of each entry of a triangle, in the order of the file."""
    word = 0
    for row in range(streams):
        for column in range(row, streams):
            yield row, column, word
            word += 1 if row == column else 2


def _triangles_of_words(words: np.ndarray, streams: int) -> np.ndarray:
    """Triangles from big-endian words of 16 bits: shape (count, streams**2) to (count, streams, streams)."""
    triangles = np.zeros((words.shape[0], streams, streams), complex)
    for row, column, word in _word_places(streams):
        if row == column:
            triangles[:, row, column] = words[:, word].view(">u2")
        else:
            triangles[:, row, column] = words[:, word] + 1j * words[:, word + 1]
    return triangles


def _words_of_triangles(triangles: np.ndarray) -> np.ndarray:
    streams = triangles.shape[-1]
    words = np.zeros((triangles.shape[0], streams**2), ">u2")
    for row, column, word in _word_places(streams):
        words[:, word] = triangles[:, row, column].real.astype(np.int64) & 0xFFFF
        if row != column:
            words[:, word + 1] = triangles[:, row, column].imag.astype(np.int64) & 0xFFFF
    return words


def read_htcp(source: Source) -> _CaptureReader:
    """Read a capture (HTCP) of version 1 or 2.

    Parameters
    ----------
    source : path, ``"-"``, bytes or binary stream

    Returns
    -------
    iterator of CaptureFrame
        With the attributes ``version`` and ``frames``, the number of frames.

    Raises
    ------
    FormatError
        At the first fault, here or from the iterator.
    """
    return _CaptureReader(source)


def read_httx(source: Source) -> _SentReader:
    """Read a file of frames (HTTX); as `read_htcp`, an iterator of `SentFrame`."""
    return _SentReader(source)


def read_htsy(source: Source) -> _SymbolsReader:
    """Read a file of symbols (HTSY); as `read_htcp`, an iterator of `SymbolsFrame`."""
    return _SymbolsReader(source)


def read_any(source: Source) -> Tuple[str, FrameReader]:
    """Read a file of any of the three formats, told by its magic.

    Returns
    -------
    name : str
        ``"htcp"``, ``"httx"`` or ``"htsy"``. Octets with another magic are read as a capture, and so refused.
    frames : iterator
    """
    with fronted(source, 4) as (front, stream):
        name = next((name for name, magic in MAGIC.items() if front == magic), "htcp")
        path = isinstance(source, (str, os.PathLike, bytes)) and source != "-"
        return name, {"htcp": read_htcp, "httx": read_httx, "htsy": read_htsy}[name](source if path else stream)


def write_htcp(target: Target, frames: Iterable[CaptureFrame], *, version: Optional[int] = None, count: Optional[int] = None,
               force: bool = False) -> None:
    """Write a capture (HTCP).

    Parameters
    ----------
    target : path, ``"-"`` or binary stream
    frames : sequence or iterable of CaptureFrame
    version : int, optional
        1 or 2. By default 1 where ``frames`` is a sequence without erased subcarriers, and 2 otherwise.
    count : int, optional
        The number of frames, which an iterable that is no sequence has to say.
    force : bool
        Whether a file that is there already is replaced.

    Raises
    ------
    InputError
        If a frame has no place in a capture, if version 1 is asked for and a subcarrier is erased, if there aren't as many
        frames as said or more than 65535, or if the file is there already.
    """
    if version is None:
        version = 1 if isinstance(frames, Sequence) and not any(np.any(frame.erased) for frame in frames) else 2
    if version not in (1, 2):
        raise InputError(f"captures have version 1 or 2, and not {version}")

    def body(frame: CaptureFrame, number: int) -> Iterator[bytes]:
        if version == 1:
            return _body_1(frame, number)
        present = np.flatnonzero(~frame.erased)
        rows = iter(_words_of_triangles(frame.triangles[present]))
        return iter((b"".join(b"\1" if erased else b"\0" + next(rows).tobytes() for erased in frame.erased), _octets_of_samples(frame.samples[:, present])))

    _write(target, MAGIC["htcp"], version, frames, count, body, force)


def htcp_frame(frame: CaptureFrame) -> bytes:
    """A frame of `mizgaure.capture`, whose numbers fit their fields, as it stands in a capture of version 1."""
    return b"".join((_head(frame), *_body_1(frame, 0)))


def _body_1(frame: CaptureFrame, number: int) -> Iterator[bytes]:
    if np.any(frame.erased):
        raise InputError(f"frame {number} has erased subcarriers, which only version 2 knows")
    yield _words_of_triangles(frame.triangles).tobytes()
    yield _octets_of_samples(frame.samples)


def _octets_of_samples(samples: np.ndarray) -> bytes:
    return np.ascontiguousarray(samples, complex).view(float).astype(">i4").tobytes()


def write_httx(target: Target, frames: Iterable[SentFrame], *, count: Optional[int] = None, force: bool = False) -> None:
    """Write a file of frames (HTTX); parameters and errors as in `write_htcp`."""

    def body(frame: SentFrame, number: int) -> Iterator[bytes]:
        yield bytes([frame.seed]) + bytes(frame.octets)

    _write(target, MAGIC["httx"], 1, frames, count, body, force)


def write_htsy(target: Target, frames: Iterable[SymbolsFrame], *, count: Optional[int] = None, force: bool = False) -> None:
    """Write a file of symbols (HTSY); parameters and errors as in `write_htcp`."""

    def body(frame: SymbolsFrame, number: int) -> Iterator[bytes]:
        yield np.stack((frame.points.real, frame.points.imag), axis=-1).astype(np.int8).tobytes()

    _write(target, MAGIC["htsy"], 1, frames, count, body, force)


def _head(frame: Any) -> bytes:
    return bytes([frame.rate.bandwidth == 40, frame.rate.mcs]) + frame.length.to_bytes(2, "big")


def _write(target: Target, magic: bytes, version: int, frames: Iterable, count: Optional[int], body, force: bool) -> None:
    if count is None:
        if not isinstance(frames, Sequence):
            raise InputError("the number of frames has to be said where they aren't a sequence")
        count = len(frames)
    if not 0 <= count <= MOST_FRAMES:
        raise InputError(f"a file has 0 to {MOST_FRAMES} frames, and not {count}")
    with writing(target, force) as stream:
        stream.write(magic + bytes([version]) + count.to_bytes(2, "big"))
        number = 0
        for number, frame in enumerate(frames, 1):
            if number > count:
                raise InputError(f"{count} frames were announced, and more came")
            frame.check(number - 1)
            check_length(frame.length)
            stream.write(_head(frame))
            for piece in body(frame, number - 1):
                stream.write(piece)
        if number < count:
            raise InputError(f"{count} frames were announced, and {number} came")
