"""Another receiver's answers, read as far as a frame needs them, and what no answer of theirs can be.

A text has lines ``job FRAME SYMBOL CARRIER I Q ..`` and ``frame N octets HEX`` or ``frame N seed zero``, in any order, or
those of the program with their distances and sums. A file of certificates (HTCT) has the data jobs of a capture in their
order.
"""

from __future__ import annotations

import re
from collections import Counter
from dataclasses import dataclass, field, fields
from typing import BinaryIO, Callable, Dict, Iterator, List, Optional, Protocol, Set, Tuple, Union

import numpy as np

from .answers import NUMBER, PLACE, blocks, exact, job_table, shortened, width_of
from .certificates import Certificate, read_htct
from .distances import places
from .errors import InputError, LineError
from .formats import MOST_FRAMES, CaptureFrame

MODULATION_NUMBERS = {1: 0, 2: 1, 4: 2, 6: 3}  # of a record, by the bits of a point
WHOLE = rb"-?[0-9]{1,6}"
THEIR_JOB = re.compile(rb"job(?: " + PLACE + rb"){3}(?: " + NUMBER + rb")??(?: " + WHOLE + rb" " + WHOLE + rb"){1,4}")
THEIR_FRAME = re.compile(rb"frame (" + PLACE + rb")(?: data (" + NUMBER + rb") pilot (" + NUMBER + rb") code (" + NUMBER
                         + rb"))? (?:octets ((?:[0-9a-fA-F]{2})+)|seed zero)")
THEIR_END = re.compile(rb"end (" + NUMBER + rb") frames")
NEAR = 8  # by so many frames answers may come late before they count as being in no order

UNREADABLE, REPEATED, MISPLACED = "unreadable", "repeated", "misplaced"
FAULTS = (UNREADABLE, REPEATED, MISPLACED)


@dataclass(frozen=True)
class LineFault:
    """A line that is no answer to be judged.

    Parameters
    ----------
    kind : str
        ``unreadable``: it is neither an answer nor an end. ``repeated``: its job or frame was answered before.
        ``misplaced``: it answers what the capture doesn't have, or with another number of streams.
    line : int
        Its number, counted from 1.
    reason : str
        What is wrong with it, as the end of a sentence.
    """

    kind: str
    line: int
    reason: str

    def __str__(self) -> str:
        return f"{self.kind}: line {self.line} {self.reason}"

    def record(self) -> dict:
        """The fault as it stands in a file of verdicts."""
        return {"line": self.line, "fault": self.kind, "reason": self.reason}


@dataclass
class LineCounts:
    """What is told of lines and frames, whatever is judged.

    Parameters
    ----------
    listed : int
        How many of the worst jobs, of faults and of misstatements are kept.
    missing : list of int
        The frames without octets.
    misstated : int
        The answers that state what isn't so: a distance that isn't their vector's, a sum, a cost, the number of frames.
    misstatements : list of str
        The first of them, each as a sentence.
    faults : list of LineFault
        The first lines that are no answers to be judged.
    causes : list of str
        What explains most of what is wrong.
    """

    listed: int = 10
    missing: List[int] = field(default_factory=list)
    misstated: int = 0
    misstatements: List[str] = field(default_factory=list)
    faults: List[LineFault] = field(default_factory=list)
    causes: List[str] = field(default_factory=list)
    _faults: Counter = field(default_factory=Counter)

    def add_fault(self, fault: LineFault) -> None:
        """One more line that is no answer to be judged."""
        self._faults[fault.kind] += 1
        if len(self.faults) < self.listed:
            self.faults.append(fault)

    def misstate(self, sentence: str) -> None:
        """One more thing that was stated and isn't so."""
        self.misstated += 1
        if len(self.misstatements) < self.listed:
            self.misstatements.append(sentence)

    def compare_ends(self, ends: List[Tuple[int, int]], frames: int) -> None:
        """Compare the number and the frames of each end line with the capture's frames."""
        for line, said in ends:
            if said != frames:
                self.misstate(f"line {line} says that there are {said} frames, and the capture has {frames}")

    @property
    def fault_counts(self) -> Dict[str, int]:
        """How many lines are unreadable, repeated or misplaced."""
        return {kind: self._faults[kind] for kind in FAULTS}

    def line_record(self) -> Dict[str, object]:
        """These counts as they stand in a file of verdicts."""
        return {"missing": self.missing, "misstated": self.misstated, "lines": self.fault_counts, "causes": self.causes}


def misplaced(line: int, frame: int, frames: int) -> LineFault:
    """The fault of a line that answers a frame which the capture doesn't have."""
    return LineFault(MISPLACED, line, f"answers frame {frame}, and the capture has {'1 frame' if frames == 1 else f'{frames} frames'}")


Noted = Callable[[LineFault], None]


def refuse(fault: LineFault) -> None:
    """Take a fault as the end of it all.

    Raises
    ------
    LineError
    """
    raise LineError(fault.line, fault.reason)


@dataclass(eq=False)
class TheirJobs:
    """What the other receiver answers to jobs of one frame.

    Parameters
    ----------
    symbol, carrier : ndarray of int, shape (jobs,)
    levels : ndarray of int, shape (jobs, 2 * streams)
        Its vectors, I before Q.
    stated : ndarray of whole numbers, shape (jobs,)
        The distance that it states, -1 where it states none.
    lines : ndarray of whole numbers, shape (jobs,)
        The number of each answer's line.
    """

    symbol: np.ndarray
    carrier: np.ndarray
    levels: np.ndarray
    stated: np.ndarray
    lines: np.ndarray

    @property
    def streams(self) -> int:
        """The number of streams of its vectors."""
        return self.levels.shape[1] // 2

    def rows(self, which: Union[slice, np.ndarray]) -> "TheirJobs":
        """Some of the answers."""
        return TheirJobs(self.symbol[which], self.carrier[which], self.levels[which], self.stated[which], self.lines[which])

    @classmethod
    def joined(cls, parts: List["TheirJobs"]) -> "TheirJobs":
        """Answers of as many streams in one, in the order of their lines."""
        if len(parts) == 1:
            return parts[0]
        made = cls(*(np.concatenate([getattr(part, name) for part in parts]) for name in COLUMNS))
        return made if (made.lines[1:] > made.lines[:-1]).all() else made.rows(np.argsort(made.lines))


COLUMNS = tuple(column.name for column in fields(TheirJobs))


@dataclass(frozen=True)
class TheirOctets:
    """What the other receiver decodes a frame to.

    Parameters
    ----------
    line : int
        The number of the answer's line.
    octets : bytes or None
        None for a seed of zero.
    sums : tuple of int, optional
        The sums ``data``, ``pilot`` and ``code`` that it states.
    """

    line: int
    octets: Optional[bytes]
    sums: Optional[Tuple[int, int, int]] = None


class Theirs(Protocol):
    """Another receiver's answers, taken as far as they are needed.

    ``ends`` are the end lines that were read, as their numbers and frames; ``data_alone`` says that answers are to the jobs of
    data subcarriers and to nothing else.
    """

    ends: List[Tuple[int, int]]
    data_alone: bool

    def jobs_of(self, number: int, frame: CaptureFrame) -> Optional[TheirJobs]:
        """Its answers to jobs of a frame that weren't taken before, None where there are none yet."""

    def octets_of(self, number: int) -> List["TheirOctets"]:
        """Its octets of a frame, if they weren't taken before."""

    def left(self) -> List[int]:
        """The frames to which there are answers that weren't taken; all of the text is read then."""

    def beyond(self, last: int) -> Iterator[LineFault]:
        """The answers that weren't taken to frames behind the last one."""


class TheirLines:
    """The lines of another receiver, read as far as a frame needs it: up to the first answer to a later one.

    Answers to frames that come later wait, in blocks that are sorted by frame; answers to frames that were asked for before
    are late, and wait for the second time. Where one comes more than `NEAR` frames late the lines are in no order: all are
    read, and wait in one block.

    Parameters
    ----------
    stream : binary stream
    noted : callable, optional
        What is done about a line that is neither kind, a second answer to a frame, and a vector with another number of streams
        than its frame has; each is passed over. By default it ends the reading with a `LineError`.

    Raises
    ------
    InputError
        From `left`, if there is no answer at all.
    """

    data_alone = False

    def __init__(self, stream: BinaryIO, noted: Noted = refuse) -> None:
        self.ends: List[Tuple[int, int]] = []
        self._noted = noted
        self._first: Optional[LineFault] = None
        self._blocks = blocks(stream)
        self._line, self._highest, self._turn = 1, -1, 0
        self._ended = self._disordered = False
        self._waiting: List[_Sorted] = []
        self._late: List[_Sorted] = []
        self._octets: Dict[int, TheirOctets] = {}
        self._decoded: Set[int] = set()

    def jobs_of(self, number: int, frame: CaptureFrame) -> Optional[TheirJobs]:
        self._turn = number
        while not self._ended and (self._highest <= number or self._disordered):
            self._read_block()
        if self._disordered and len(self._waiting) > 1:
            self._waiting = _Sorted.of_kinds(self._waiting)
        parts = sorted((part for part in (block.of(number) for block in self._waiting) if part is not None), key=lambda part: part.lines[0])
        self._waiting = [block for block in self._waiting if block.frames[-1] > number]
        streams = frame.rate.streams
        for part in parts:
            for line in part.lines.tolist() if part.streams != streams else ():
                self._noted(LineFault(MISPLACED, line, f"has {_streams(part.streams)}, and frame {number} has {streams}"))
        fitting = [part for part in parts if part.streams == streams]
        return TheirJobs.joined(fitting) if fitting else None

    def octets_of(self, number: int) -> List[TheirOctets]:
        return [self._octets.pop(number)] if number in self._octets else []

    def left(self) -> List[int]:
        self._waiting = [part for part in (block.behind(self._turn) for block in self._waiting) if part.frames.size]
        self._turn = MOST_FRAMES + 1
        while not self._ended:
            self._read_block()
        if self._highest < 0:
            raise InputError("there is no answer to a job or a frame" + (f": line {self._first.line} {self._first.reason}" if self._first else ""))
        self._waiting += self._late
        self._late = []
        self._waiting = _Sorted.of_kinds(self._waiting)
        return sorted({*self._octets}.union(*(np.unique(block.frames).tolist() for block in self._waiting)))

    def beyond(self, last: int) -> Iterator[LineFault]:
        found = [(answer.line, frame) for frame, answer in self._octets.items() if frame > last]
        for block in self._waiting:
            behind = block.frames > last
            found += zip(block.jobs.lines[behind].tolist(), block.frames[behind].tolist())
        for line, frame in sorted(found):
            yield misplaced(line, frame, last + 1)

    def _read_block(self) -> None:
        block = next(self._blocks, None)
        if block is None:
            self._ended = True
            return
        lines = np.arange(self._line, self._line + block.count(b"\n"))
        self._line += lines.size
        if self._line < 2**32:
            lines = lines.astype(np.uint32)  # since they may wait
        block = block.replace(b"\r\n", b"\n")
        table = job_table(block)
        if table is not None:
            self._add_table(table, lines)
            return
        alike: Dict[int, List[Tuple[int, bytes]]] = {}
        for number, line in zip(lines.tolist(), block.split(b"\n")):
            alike.setdefault(width_of(line), []).append((number, line))
        faults: List[LineFault] = []
        for width, run in alike.items():
            table = job_table(b"".join(line + b"\n" for _, line in run)) if width else None
            if table is not None:
                self._add_table(table, np.array([number for number, _ in run], lines.dtype))
            else:
                faults += self._add_lines(run)
        for fault in sorted(faults, key=lambda fault: fault.line):
            self._first = self._first or fault
            self._noted(fault)

    def _add_table(self, table: np.ndarray, lines: np.ndarray) -> None:
        levels = 3 if table.shape[1] % 2 else 4
        # What may wait is copied to small types, so that the table isn't held by a column of it.
        stated = table[:, 3].copy() if levels == 4 else np.full(len(table), -1, np.int8)
        places_ = table[:, :3]
        if (places_ <= MOST_FRAMES).all():
            places_ = places_.astype(np.uint16)
        self._add(places_[:, 0], TheirJobs(places_[:, 1], places_[:, 2], table[:, levels:].astype(np.int8), stated, lines))

    def _add_lines(self, run: List[Tuple[int, bytes]]) -> List[LineFault]:
        """Lines that are as wide, one by one, with their numbers; gives those that are no answers."""
        faults: List[LineFault] = []
        rows: List[Tuple[int, List[bytes]]] = []
        for number, line in run:
            if THEIR_JOB.fullmatch(line):
                rows.append((number, line.split()[1:]))
            elif match := THEIR_FRAME.fullmatch(line):
                frame = int(match.group(1))
                if frame in self._decoded:
                    faults.append(LineFault(REPEATED, number, f"answers frame {frame} a second time"))
                    continue
                self._decoded.add(frame)
                self._octets[frame] = _octets_in(number, match)
                self._highest = max(self._highest, frame)
            elif match := THEIR_END.fullmatch(line):
                self.ends.append((number, int(match.group(1))))
            elif line:
                faults.append(LineFault(UNREADABLE, number, f"is no answer to a job or a frame: {shortened(line)}"))
        if rows:
            levels = 3 if len(rows[0][1]) % 2 else 4
            stated = exact(int(words[3]) if levels == 4 else -1 for _, words in rows)
            frames, symbol, carrier = np.array([words[:3] for _, words in rows]).astype(np.int64).T
            self._add(frames, TheirJobs(symbol, carrier, np.array([words[levels:] for _, words in rows]).astype(np.int32), stated,
                                        np.array([number for number, _ in rows])))
        return faults

    def _add(self, frames: np.ndarray, jobs: TheirJobs) -> None:
        wide = frames.astype(np.int64)
        highest = np.maximum(np.maximum.accumulate(wide), self._highest)
        self._highest = int(highest[-1])
        self._disordered |= bool((highest - wide > NEAR).any())
        block = _Sorted.by_frame(frames, jobs)
        late = int(np.searchsorted(block.frames, self._turn))
        for part, kept in ((slice(late), self._late), (slice(late, None), self._waiting)):
            if block.frames[part].size:
                kept.append(block.rows(part))


def _octets_in(line: int, match: "re.Match[bytes]") -> TheirOctets:
    """What a line of a frame says."""
    _, *sums, octets = match.groups()
    return TheirOctets(line, None if octets is None else bytes.fromhex(octets.decode()),
                       None if sums[0] is None else (int(sums[0]), int(sums[1]), int(sums[2])))


def _streams(count: int) -> str:
    return "1 stream" if count == 1 else f"{count} streams"


@dataclass(eq=False)
class _Sorted:
    """Answers to jobs of several frames, by ascending frame, and in the order of their lines in each."""

    frames: np.ndarray
    jobs: TheirJobs

    @classmethod
    def by_frame(cls, frames: np.ndarray, jobs: TheirJobs) -> "_Sorted":
        if (frames[1:] >= frames[:-1]).all():
            return cls(frames, jobs)
        order = np.argsort(frames, kind="stable")
        return cls(frames[order], jobs.rows(order))

    @classmethod
    def of_kinds(cls, blocks: List["_Sorted"]) -> List["_Sorted"]:
        """The answers of some blocks in one block for each number of streams and each type."""
        made = []
        for kind in {block.kind for block in blocks}:
            alike = [block for block in blocks if block.kind == kind]
            frames = np.concatenate([block.frames for block in alike])
            order = np.argsort(frames, kind="stable")
            columns = (np.concatenate([getattr(block.jobs, name) for block in alike])[order] for name in COLUMNS)
            made.append(cls(frames[order], TheirJobs(*columns)))
        return made

    @property
    def kind(self) -> Tuple[int, str, str, str]:
        """What blocks have in common that can be put into one."""
        jobs = self.jobs
        return jobs.streams, jobs.levels.dtype.str, jobs.stated.dtype.str, jobs.symbol.dtype.str

    def rows(self, which: slice) -> "_Sorted":
        """Some of the answers."""
        return _Sorted(self.frames[which], self.jobs.rows(which))

    def behind(self, frame: int) -> "_Sorted":
        """The answers to jobs of later frames."""
        return self.rows(slice(int(np.searchsorted(self.frames, frame + 1)), None))

    def of(self, frame: int) -> Optional[TheirJobs]:
        """The answers to jobs of a frame, where there are any."""
        low, high = np.searchsorted(self.frames, (frame, frame + 1))
        return self.jobs.rows(slice(low, high)) if high > low else None


class TheirCertificates:
    """The certificates of another receiver, of which the claimed vectors and distances are taken.

    Raises
    ------
    FormatError
        Where it is read, at its first fault.
    InputError
        Where it is read, if a record is of another job than that whose turn it is, or if there are more than the capture has.
    """

    data_alone = True

    def __init__(self, stream: BinaryIO) -> None:
        self.ends: List[Tuple[int, int]] = []
        self._records = read_htct(stream)
        self._count = 0

    def jobs_of(self, number: int, frame: CaptureFrame) -> Optional[TheirJobs]:
        symbols, carriers = places(frame)
        data = ~frame.rate.is_pilot[carriers]
        taken: List[Certificate] = []
        for symbol, carrier in zip(symbols[data].tolist(), carriers[data].tolist()):
            record = next(self._records, None)
            if record is None:
                break
            if not _is_of(record, frame, symbol, carrier):
                raise InputError(f"record {self._count + len(taken)} is of another job than job {number} {symbol} {carrier} of the capture")
            taken.append(record)
        first, self._count = self._count, self._count + len(taken)
        if not taken:
            return None
        count = len(taken)
        levels = np.array([[part for point in record.vector for part in point] for record in taken], np.int8)
        return TheirJobs(symbols[data][:count], carriers[data][:count], levels, exact(record.distance for record in taken),
                         np.arange(first + 1, self._count + 1))

    def octets_of(self, number: int) -> List[TheirOctets]:
        return []

    def left(self) -> List[int]:
        more = sum(1 for _ in self._records)
        if more:
            raise InputError(f"there are {self._count + more} records, and the capture has {self._count} data jobs")
        return []

    def beyond(self, last: int) -> Iterator[LineFault]:
        return iter(())


def _is_of(record: Certificate, frame: CaptureFrame, symbol: int, carrier: int) -> bool:
    """Whether a record's job is that of a place of a frame."""
    rate, triangle = frame.rate, frame.triangles[carrier]
    return (MODULATION_NUMBERS[rate.bits_per_point] == record.modulation and record.streams == rate.streams
            and record.samples == [(value.real, value.imag) for value in frame.samples[symbol, carrier].tolist()]
            and record.triangle == [[(value.real, value.imag) for value in triangle[row, row:].tolist()] for row in range(rate.streams)])

