"""Certificates of detection: a checker that shares nothing with the program, in Python's whole numbers.

``docs/CERTIFICATES.md`` of the repository says what a certificate is, why whoever checks one needs no trust in the search
that made it, and has one worked by hand. `check` is the checker; `read_htct` reads a file of certificates (HTCT).
"""

from __future__ import annotations

from dataclasses import dataclass
from typing import BinaryIO, Iterator, List, Optional, Tuple, Union

from .errors import FormatError
from .files import Source, reading
from .formats import Fields

MAGIC = b"HTCT"
MOST_RECORDS, MOST_MARKS = 2**37, 2**25
PIECE = 1 << 16
LEVELS = ((-1, 1), (-1, 1), (-3, -1, 1, 3), (-7, -5, -3, -1, 1, 3, 5, 7))  # by modulation, of I and of Q
CUT, OPEN = 0, 1

Pair = Tuple[int, int]


@dataclass(frozen=True)
class Certificate:
    """A record of a file of certificates: a job, what is claimed of it, and the marks.

    Parameters
    ----------
    modulation : int
        0 BPSK, 1 QPSK, 2 16-QAM, 3 64-QAM.
    triangle : list of list of (int, int)
        Row by row: the diagonal, whose second part is 0, and the entries to its right, as real and imaginary parts.
    samples : list of (int, int)
        y, row by row.
    vector : list of (int, int)
        The claimed vector, as I and Q of each stream.
    distance : int
        The claimed distance.
    marks : bytes
        1 open, 0 cut, in the order of the walk.
    """

    modulation: int
    triangle: List[List[Pair]]
    samples: List[Pair]
    vector: List[Pair]
    distance: int
    marks: bytes

    @property
    def streams(self) -> int:
        """The number of spatial streams."""
        return len(self.samples)


@dataclass(frozen=True)
class CheckFault:
    """Why a certificate doesn't hold.

    Parameters
    ----------
    name : str
        ``OffGrid``: the claimed point of a stream isn't in the constellation. ``WrongDistance``: the claimed vector is at
        another distance. ``Early``: a cut mark where the partial distance isn't above the claimed one. ``Better``: a mark
        that completes a vector that is nearer, or as near and before the claimed one. ``Short``: the marks end before the
        walk. ``Long``: a mark stands behind the walk.
    number : int
        The stream from 1, the other distance, the mark's place from 0, or the number of marks.
    """

    name: str
    number: int

    def __str__(self) -> str:
        return f"{self.name} at {self.number}"


class _Found(Exception):
    """Carries the first fault out of the walk."""

    def __init__(self, name: str, number: int) -> None:
        super().__init__(name, number)


def check(certificate: Certificate) -> Optional[CheckFault]:
    """The first fault of a certificate, None where it holds.

    Where it holds, the claimed vector is the first of the nearest ones and the claimed distance is its distance.
    """
    streams, marks, distance = certificate.streams, certificate.marks, certificate.distance
    levels = (LEVELS[certificate.modulation], (0,) if certificate.modulation == 0 else LEVELS[certificate.modulation])  # of I, of Q
    claim = tuple(part for point in certificate.vector for part in point)
    taken = 0

    def left_over(row: int, vector: List[int]) -> Pair:
        """What the streams behind a row leave of its sample; a vector stands as I and Q of each stream."""
        real, imag = certificate.samples[row]
        for column in range(row + 1, streams):
            (a, b), (i, q) = certificate.triangle[row][column - row], vector[2 * column : 2 * column + 2]
            real, imag = real - a * i + b * q, imag - a * q - b * i
        return real, imag

    def walk(place: int, vector: List[int], reached: int) -> None:
        """Go through the levels of a coordinate, 2n - 1 for Q of the last stream down to 0 for I of the first."""
        nonlocal taken
        row, part = divmod(place, 2)
        rest, diagonal = left_over(row, vector)[part], certificate.triangle[row][0][0]
        for vector[place] in levels[part]:
            if taken == len(marks):
                raise _Found("Short", taken)
            taken += 1
            partial = reached + (rest - diagonal * vector[place]) ** 2
            if marks[taken - 1] == CUT:
                if partial <= distance:
                    raise _Found("Early", taken - 1)
            elif place > 0:
                walk(place - 1, vector, partial)
            elif (partial, tuple(vector)) < (distance, claim):
                raise _Found("Better", taken - 1)

    for stream, (i, q) in enumerate(certificate.vector, 1):
        if i not in levels[0] or q not in levels[1]:
            return CheckFault("OffGrid", stream)
    true = 0
    for row in range(streams):
        rests, diagonal = left_over(row, list(claim)), certificate.triangle[row][0][0]
        true += sum((rest - diagonal * level) ** 2 for rest, level in zip(rests, certificate.vector[row]))
    if true != distance:
        return CheckFault("WrongDistance", true)
    try:
        walk(2 * streams - 1, [0] * (2 * streams), 0)
    except _Found as found:
        return CheckFault(*found.args)
    return None if taken == len(marks) else CheckFault("Long", taken)


class _CertificateReader:
    """An iterator over the records of a file; ``records``, their number, is known at once."""

    def __init__(self, source: Source) -> None:
        self._opened, self._ended = reading(source), False
        self._fields = Fields(self._opened.__enter__())
        try:
            self._fields.magic(MAGIC)
            self._fields.number(1, "BadVersion", range(1, 2))
            self.records = self._fields.number(8, "BadLength", range(MOST_RECORDS + 1))
        except BaseException:
            self.close()
            raise
        self._given = 0

    def __iter__(self) -> Iterator[Certificate]:
        return self

    def __next__(self) -> Certificate:
        if self._ended:
            raise StopIteration
        try:
            if self._given < self.records:
                self._given += 1
                return self._record()
            self._fields.end()
        except FormatError:
            self.close()
            raise
        self.close()
        raise StopIteration

    def close(self) -> None:
        """Close the file, where the reader opened it."""
        if not self._ended:
            self._ended = True
            self._opened.__exit__(None, None, None)

    def _record(self) -> Certificate:
        fields = self._fields
        modulation = fields.number(1, "BadModulation", range(4))
        streams = fields.number(1, "BadStreams", range(1, 5))
        triangle = []
        for row in range(streams):
            triangle.append([(fields.number(2), 0)] + [(fields.signed(2), fields.signed(2)) for _ in range(streams - row - 1)])
        samples = [(fields.signed(4), fields.signed(4)) for _ in range(streams)]
        vector = [(fields.signed(1), fields.signed(1)) for _ in range(streams)]
        distance = fields.number(16)
        count = fields.number(4, "BadLength", range(MOST_MARKS + 1))
        return Certificate(modulation, triangle, samples, vector, distance, self._marks(count))

    def _marks(self, count: int) -> bytes:
        """Marks, refused at the first that is none; no more is held than what came."""
        pieces, left = [], count
        while left:
            start = self._fields.offset
            piece = self._fields.up_to(min(left, PIECE))
            bad = next((place for place, mark in enumerate(piece) if mark > 1), None) if piece.strip(b"\0\1") else None
            if bad is not None:
                raise FormatError("BadMark", start + bad)
            if len(piece) < min(left, PIECE):
                raise FormatError("Truncated", self._fields.offset)
            pieces.append(piece)
            left -= len(piece)
        return b"".join(pieces)


def read_htct(source: Source) -> _CertificateReader:
    """Read a file of certificates (HTCT).

    Parameters
    ----------
    source : path, ``"-"``, bytes or binary stream

    Returns
    -------
    iterator of Certificate
        With the attribute ``records``, their number.

    Raises
    ------
    FormatError
        At the first fault, here or from the iterator.
    """
    return _CertificateReader(source)


def check_lines(source: Union[Source, BinaryIO]) -> Iterator[str]:
    """The lines of ``check`` on a file: one for each record, and then the end or the refused line."""
    records = accepted = 0
    try:
        for records, certificate in enumerate(read_htct(source), 1):
            fault = check(certificate)
            accepted += fault is None
            yield f"job {records - 1} yes" if fault is None else f"job {records - 1} no {fault}"
    except FormatError as fault:
        yield str(fault)
    else:
        yield f"end {records} jobs yes {accepted}"
