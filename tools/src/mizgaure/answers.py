"""The lines of ``radio detect``, ``radio rx`` and ``radio soft``, read as they come.

``docs/COMMANDS.md`` of the repository has the texts:

    job FRAME SYMBOL CARRIER DISTANCE I Q ..
    frame N data D pilot P code C octets HEX
    frame N data D pilot P code C seed zero
    soft N cost C octets HEX
    soft N cost C seed zero
    end N frames
    refused NAME at OFFSET
"""

from __future__ import annotations

import re
from dataclasses import dataclass
from itertools import groupby
from typing import Iterable, Iterator, List, Optional, Union

import numpy as np

from .errors import LineError
from .files import Source, reading

NUMBER = rb"(?:0|[1-9][0-9]*)"
PLACE = rb"(?:0|[1-9][0-9]{0,4})"
LEVEL = rb"(?:0|-?[1-7])"
JOB = re.compile(rb"job(?: " + PLACE + rb"){3} " + NUMBER + rb"(?: " + LEVEL + rb" " + LEVEL + rb"){1,4}")
FRAME = re.compile(rb"frame (%b) data (%b) pilot (%b) code (%b) (?:octets ((?:[0-9a-f]{2})+)|seed zero)" % ((NUMBER,) * 4))
SOFT = re.compile(rb"soft (%b) cost (%b) (?:octets ((?:[0-9a-f]{2})+)|seed zero)" % (NUMBER, NUMBER))
END = re.compile(rb"end (%b) frames" % NUMBER)
REFUSED = re.compile(rb"refused ([A-Za-z]+) at (%b)" % NUMBER)
BLOCK = 1 << 18


@dataclass(eq=False)
class Jobs:
    """Answers to jobs of one frame, in the order of their lines.

    Parameters
    ----------
    frame : int
    symbol, carrier : ndarray of int64, shape (jobs,)
    distance : ndarray, shape (jobs,)
        The least squared distance, exact: int64 where all of them are below 2**63, and Python's whole numbers otherwise.
    points : ndarray of complex128, shape (jobs, streams)
        The first nearest vector.
    """

    frame: int
    symbol: np.ndarray
    carrier: np.ndarray
    distance: np.ndarray
    points: np.ndarray

    def __len__(self) -> int:
        return self.symbol.size

    @property
    def streams(self) -> int:
        """The number of spatial streams."""
        return self.points.shape[1]


@dataclass(frozen=True)
class FrameAnswer:
    """The line of one frame by ``rx``.

    Parameters
    ----------
    frame : int
    data, pilot : int
        The sums of the least distances over the frame's data and pilot subcarriers.
    code : int
        The sum of the codewords' Hamming distances.
    octets : bytes or None
        The PSDU, or None where the seed is zero.
    """

    frame: int
    data: int
    pilot: int
    code: int
    octets: Optional[bytes]


@dataclass(frozen=True)
class SoftAnswer:
    """The line of one frame by ``soft``.

    Parameters
    ----------
    frame : int
    cost : int
        The sum of the weights of the bits against which the codewords decide.
    octets : bytes or None
        The PSDU, or None where the seed is zero.
    """

    frame: int
    cost: int
    octets: Optional[bytes]


@dataclass(frozen=True)
class End:
    """The last line of a capture that is whole."""

    frames: int


@dataclass(frozen=True)
class Refused:
    """The last line of an input that is no capture: the kind and the offset of its first fault."""

    kind: str
    offset: int


Answer = Union[Jobs, FrameAnswer, SoftAnswer]
Record = Union[Answer, End, Refused]


def exact(numbers: Iterable[int]) -> np.ndarray:
    """Whole numbers as an array that holds each of them exactly: int64, or Python's where one is 2**63 or more."""
    numbers = list(numbers)
    small = all(-(2**63) <= number < 2**63 for number in numbers)
    return np.array(numbers, np.int64 if small else object)


class Answers:
    """An iterator over the answers in a text: `Jobs` for each frame, or `FrameAnswer`, or `SoftAnswer`.

    Lines are read as they come, and the jobs of one frame are held at a time. ``last`` is the last line, `End` or
    `Refused`, once it was read, and None before and in a text without one.

    Parameters
    ----------
    source : path, ``"-"``, bytes or binary stream

    Raises
    ------
    LineError
        From the iterator, at the first line that isn't one of the program's.
    """

    def __init__(self, source: Source) -> None:
        self.last: Optional[Union[End, Refused]] = None
        self._records = self._read(source)

    def __iter__(self) -> Iterator[Answer]:
        return self

    def __next__(self) -> Answer:
        return next(self._records)

    def _read(self, source: Source) -> Iterator[Answer]:
        waiting: List[Jobs] = []
        for record in _records(source):
            if isinstance(record, Jobs):
                if waiting and (record.frame != waiting[0].frame or record.streams != waiting[0].streams):
                    yield _joined(waiting)
                    waiting = []
                waiting.append(record)
                continue
            if waiting:
                yield _joined(waiting)
                waiting = []
            if isinstance(record, (FrameAnswer, SoftAnswer)):
                yield record
            else:
                self.last = record
        if waiting:
            yield _joined(waiting)


def read_answers(source: Source) -> Answers:
    """Read the lines of ``radio detect``, ``radio rx`` or ``radio soft``.

    Parameters
    ----------
    source : path, ``"-"``, bytes or binary stream

    Returns
    -------
    Answers
        An iterator of `Jobs`, one for each frame, of `FrameAnswer` and of `SoftAnswer`.
    """
    return Answers(source)


def read_line(line: bytes, number: int = 1) -> Record:
    """Read one line, without its line feed.

    Raises
    ------
    LineError
        With ``number``, if it isn't one of the program's lines.
    """
    if JOB.fullmatch(line):
        _, frame, symbol, carrier, distance, *levels = line.split()
        place = np.array([[int(symbol)], [int(carrier)]], np.int64)
        return Jobs(int(frame), *place, exact([int(distance)]), points_of(np.array([levels]).astype(np.int64)))
    if match := FRAME.fullmatch(line):
        frame, data, pilot, code = (int(word) for word in match.groups()[:4])
        octets = None if match.group(5) is None else bytes.fromhex(match.group(5).decode())
        return FrameAnswer(frame, data, pilot, code, octets)
    if match := SOFT.fullmatch(line):
        return SoftAnswer(int(match.group(1)), int(match.group(2)), None if match.group(3) is None else bytes.fromhex(match.group(3).decode()))
    if match := END.fullmatch(line):
        return End(int(match.group(1)))
    if match := REFUSED.fullmatch(line):
        return Refused(match.group(1).decode(), int(match.group(2)))
    raise LineError(number, f"is no line of the program: {shortened(line)}")


def shortened(line: bytes) -> str:
    """A line for a message."""
    text = line.decode("ascii", "backslashreplace")
    return repr(text if len(text) <= 60 else text[:57] + "...")


def _records(source: Source) -> Iterator[Record]:
    """The records of a text; lines of jobs that follow one another come together, by frame."""
    number = 1
    for block in blocks(source):
        count = block.count(b"\n")
        table = job_table(block)
        if table is not None and table.shape[1] % 2 == 0:
            yield from _jobs_of_table(table)
        else:
            yield from _records_of_lines(block.split(b"\n")[:-1], number)
        number += count


def _records_of_lines(lines: List[bytes], number: int) -> Iterator[Record]:
    """The records of lines, the first of which has a number; jobs that follow one another and are as wide come together."""
    for width, group in groupby(enumerate(lines, number), key=lambda pair: width_of(pair[1])):
        run = list(group)
        table = job_table(b"".join(line + b"\n" for _, line in run)) if width % 2 else None
        if table is not None:
            yield from _jobs_of_table(table)
            continue
        for place, line in run:
            yield read_line(line, place)


def width_of(line: bytes) -> int:
    """The number of words of a line, where it begins as that of a job does; 0 of others."""
    return line.count(b" ") + 1 if line.startswith(b"job ") else 0


PLACES = 3  # frame, symbol, carrier
LONGEST_NUMBER = 18  # digits that an int64 holds, whatever they are


def job_table(text: bytes) -> Optional[np.ndarray]:
    """The numbers of lines of jobs that are all as wide, by whole arrays.

    Parameters
    ----------
    text : bytes
        Lines ``job FRAME SYMBOL CARRIER I Q ..``, each with or each without a distance in front of I, and each with its
        line feed.

    Returns
    -------
    ndarray of int64, shape (lines, words), or None
        The words behind ``job``: an even number of them with a distance, an odd one without. None where the text is anything
        else, and also where a number has more than one way to be read: places and distances with a leading zero or of more
        than 18 digits, levels of more than one digit.
    """
    octets = np.frombuffer(text, np.uint8)
    lines, ends = text.count(b"\n"), np.flatnonzero(octets <= 32)
    width = ends.size // max(lines, 1)
    if not text.endswith(b"\n") or ends.size != lines * width or not 6 <= width <= 13:
        return None
    # Where each word ends and starts, word by word, and what stands there.
    ends = np.ascontiguousarray(ends.reshape(lines, width).T)
    starts = np.empty_like(ends)
    starts[0, 0], starts[0, 1:], starts[1:] = 0, ends[-1, :-1] + 1, ends[:-1] + 1
    sizes, first, behind = ends - starts, octets.take(starts), octets.take(ends)
    levels = 1 + PLACES + width % 2  # the first word of the levels
    minus = first[levels:] == ord("-")
    counted = sizes[1:levels]
    digits = np.count_nonzero(octets - ord("0") < 10)
    if ((behind[:-1] != ord(" ")).any() or (behind[-1] != ord("\n")).any()
            or (sizes[0] != 3).any() or any((octets.take(starts[0] + n) != letter).any() for n, letter in enumerate(b"job"))
            or digits + np.count_nonzero(minus) + 3 * lines + ends.size != octets.size  # nothing but digits, signs, "job" and ends
            or (sizes[levels:] != 1 + minus).any() or counted.min() < 1 or counted.max() > LONGEST_NUMBER
            or ((first[1:levels] == ord("0")) & (counted > 1)).any()):
        return None
    table = np.empty((width - 1, lines), np.int64)
    for word in range(1, levels):
        table[word - 1] = _numbers(octets, ends[word], sizes[word])
    unsigned = _digits(octets, ends[levels:] - 1)
    table[levels - 1 :] = np.where(minus, -unsigned, unsigned)
    return table.T


def _digits(octets: np.ndarray, places: np.ndarray) -> np.ndarray:
    return octets.take(places).astype(np.int64) - ord("0")


def _numbers(octets: np.ndarray, ends: np.ndarray, sizes: np.ndarray) -> np.ndarray:
    """Numbers in digits, by where each ends and how many it has."""
    value = _digits(octets, ends - 1)
    for place in range(1, int(sizes.max())):
        longer = np.flatnonzero(sizes > place)
        value[longer] += _digits(octets, ends[longer] - 1 - place) * 10**place
    return value


def blocks(source: Source) -> Iterator[bytes]:
    """The text in blocks of whole lines, as they come. A last line without a line feed gets one."""
    with reading(source) as stream:
        take = getattr(stream, "read1", stream.read)
        rest = b""
        while piece := take(BLOCK):
            lines, feed, behind = piece.rpartition(b"\n")
            if feed:
                yield rest + lines + feed
                rest = behind
            else:
                rest += piece
        if rest:
            yield rest + b"\n"


def _jobs_of_table(table: np.ndarray) -> Iterator[Jobs]:
    """The jobs of a table with distances, frame by frame."""
    starts = np.flatnonzero(table[1:, 0] != table[:-1, 0]) + 1
    for part in np.split(table, starts):
        yield Jobs(int(part[0, 0]), part[:, 1], part[:, 2], part[:, 3], points_of(part[:, 4:]))


def points_of(levels: np.ndarray) -> np.ndarray:
    """Points from their levels, I before Q: shape (jobs, 2 * streams) to complex128 of shape (jobs, streams)."""
    return levels[:, 0::2] + 1j * levels[:, 1::2]


def _joined(parts: List[Jobs]) -> Jobs:
    if len(parts) == 1:
        return parts[0]
    distance = np.concatenate([part.distance for part in parts])
    return Jobs(parts[0].frame, np.concatenate([part.symbol for part in parts]), np.concatenate([part.carrier for part in parts]),
                distance, np.concatenate([part.points for part in parts]))
