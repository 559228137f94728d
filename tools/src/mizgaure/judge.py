"""Another receiver's answers beside the reference.

The other receiver writes one line for each job that it answers, and one for each frame that it decodes, in any order:

    job FRAME SYMBOL CARRIER I Q ..
    frame N octets HEX
    frame N seed zero

The program's own lines, with their distances and sums, are accepted as well, and so is its end line. Or it writes a file of
certificates (HTCT), whose records are the data jobs of the capture in their order; its marks aren't looked at here, but by
`certificates.check`. What is stated is compared: a distance with that of the vector, the sums of a frame with those of the
reference, and the number of frames with the capture's. The reference is what the proved receiver says of the same capture:
the library, where it is there, or the program, or kept lines of that. The distances of the other receiver's vectors are
computed here, exactly, and that of each reference vector is computed too and has to be the one that the program says.

A line that can't be read, a second answer, and one to what the capture doesn't have are told (`LineFault`) and passed over.
What has no answer is counted. Where a look at what is wrong tells its cause, `Counts.causes` says so.

Frames are judged one at a time, as the answers come. Answers to a frame that was judged already are kept until the end,
and then the capture and the reference are gone through once more. Where answers come in no order at all they are read to
their end at once, and kept. So least is held where frames ascend.
"""

from __future__ import annotations

import heapq
import json
from collections import Counter
from contextlib import ExitStack, closing, contextmanager
from dataclasses import dataclass, field
from typing import BinaryIO, ContextManager, Dict, Iterable, Iterator, List, Optional, Protocol, Set, Tuple, Type, Union, cast

import numpy as np

from .answers import Answers, FrameAnswer, Jobs, Refused, points_of, read_answers
from .causes import Looks
from .certificates import MAGIC
from .chain import least_hamming, received_bits
from .distances import distances, on_grid, places
from .errors import InputError, ProgramError
from .files import Source, fronted, naming, repeatable
from .formats import CaptureFrame, read_htcp
from .inside import Called, Inside, receiver
from .program import Radio
from .soft import SoftVerdict
from .theirs import MISPLACED, REPEATED, LineCounts, LineFault, Theirs, TheirCertificates, TheirJobs, TheirLines, TheirOctets

SAME, TIE, WORSE, OUTSIDE, WRONG = "same", "tie", "worse", "outside", "wrong"
VERDICTS = (SAME, TIE, WORSE, OUTSIDE)
SUMS = ("data", "pilot", "code")


@dataclass(eq=False)
class JobVerdicts:
    """Verdicts on the answers to jobs of one frame; arrays of shape (jobs,) but for the points.

    Parameters
    ----------
    frame : int
    symbol, carrier : ndarray of int
    verdict : ndarray of str
        ``same``: the reference's vector. ``tie``: another one at the same distance. ``worse``: one that is farther.
        ``outside``: not a vector of the job's grid.
    distance : ndarray
        The exact distance of the answer; -1 where it is outside.
    least : ndarray
        The least distance.
    points, nearest : ndarray of complex128, shape (jobs, streams)
        The answer and the reference's vector.
    misstated : ndarray of bool
        Whether a distance was stated that isn't the vector's.
    stated : ndarray of whole numbers
        The distance that was stated, -1 where none was.
    """

    frame: int
    symbol: np.ndarray
    carrier: np.ndarray
    verdict: np.ndarray
    distance: np.ndarray
    least: np.ndarray
    points: np.ndarray
    nearest: np.ndarray
    misstated: np.ndarray
    stated: np.ndarray

    def record(self, n: int) -> dict:
        """The verdict on one job, as it stands in a file of verdicts."""
        verdict = str(self.verdict[n])
        record: Dict[str, object] = {"job": [self.frame, int(self.symbol[n]), int(self.carrier[n])], "verdict": verdict}
        if verdict != OUTSIDE:
            record["distance"] = int(self.distance[n])
        record["least"] = int(self.least[n])
        if verdict != SAME:
            record["points"] = _pairs(self.points[n])
            record["nearest"] = _pairs(self.nearest[n])
        if self.misstated[n]:
            record["misstated"] = True
            record["stated"] = int(self.stated[n])
        return record

    def records(self) -> Iterator[dict]:
        """One record for each job."""
        return map(self.record, range(self.verdict.size))

    def worst(self, count: int) -> List[Tuple[int, int]]:
        """At most this number of jobs that are outside or worse, the worst first: what they are sorted by, and their place."""
        found = [(-(2**70), int(n)) for n in np.flatnonzero(self.verdict == OUTSIDE)]
        found += [(int(self.least[n]) - int(self.distance[n]), int(n)) for n in np.flatnonzero(self.verdict == WORSE)]
        return heapq.nsmallest(count, found)


def _pairs(points: np.ndarray) -> List[List[int]]:
    return [[int(point.real), int(point.imag)] for point in points]


@dataclass(frozen=True)
class FrameVerdict:
    """The verdict on one decoded frame.

    Parameters
    ----------
    frame : int
    verdict : str
        ``same``: the reference's octets. ``tie``: others that a codeword at the same Hamming distance carries.
        ``wrong``: all else.
    code : int or None
        The least Hamming distance of a codeword that carries the answer, where that is known.
    least : int
        The least Hamming distance.
    misstated : tuple of (str, int, int)
        The sums that were stated and are others: the name of each, what was stated, and what it is.
    """

    frame: int
    verdict: str
    code: Optional[int]
    least: int
    misstated: Tuple[Tuple[str, int, int], ...] = ()

    def record(self) -> dict:
        """The verdict as it stands in a file of verdicts."""
        record: Dict[str, object] = {"frame": self.frame, "verdict": self.verdict, "code": self.code, "least": self.least}
        if self.misstated:
            record["misstated"] = {name: [stated, true] for name, stated, true in self.misstated}
        return record


Verdict = Union[JobVerdicts, FrameVerdict, LineFault]


@dataclass
class Counts(LineCounts):
    """What the verdicts on a text add up to.

    Parameters
    ----------
    unanswered : int
        The jobs without an answer.
    """

    unanswered: int = 0
    _jobs: Counter = field(default_factory=Counter)
    _frames: Counter = field(default_factory=Counter)
    _worst: List[Tuple[int, int, dict]] = field(default_factory=list)

    def add(self, verdict: Verdict) -> None:
        """One more verdict on a frame, or on jobs of one, or a line that is no answer."""
        if isinstance(verdict, LineFault):
            self.add_fault(verdict)
        elif isinstance(verdict, FrameVerdict):
            self._frames[verdict.verdict] += 1
            for name, stated, true in verdict.misstated:
                self.misstate(f"frame {verdict.frame} states {name} {stated}, and it is {true}")
        else:
            self._add_jobs(verdict)

    def _add_jobs(self, verdict: JobVerdicts) -> None:
        for n in np.flatnonzero(verdict.misstated).tolist():
            place = f"job {verdict.frame} {verdict.symbol[n]} {verdict.carrier[n]}"
            has = "its vector is outside the grid" if verdict.distance[n] < 0 else f"that of its vector is {verdict.distance[n]}"
            self.misstate(f"{place} states the distance {verdict.stated[n]}, and {has}")
        before = sum(self._jobs.values())
        self._jobs.update({name: int(np.count_nonzero(verdict.verdict == name)) for name in VERDICTS})
        if self.listed:
            found = [(key, before + n, verdict.record(n)) for key, n in verdict.worst(self.listed)]
            self._worst = heapq.nsmallest(self.listed, self._worst + found, key=lambda row: row[:2])

    @property
    def job_counts(self) -> Dict[str, int]:
        """How many jobs have each verdict."""
        return {verdict: self._jobs[verdict] for verdict in VERDICTS}

    @property
    def frame_counts(self) -> Dict[str, int]:
        """How many frames have each verdict."""
        return {verdict: self._frames[verdict] for verdict in (SAME, TIE, WRONG)}

    @property
    def is_clean(self) -> bool:
        """Whether nothing is worse, outside its grid or wrong, and each line is an answer to be judged."""
        return not (self._jobs[WORSE] or self._jobs[OUTSIDE] or self._frames[WRONG] or any(self.fault_counts.values()))

    @property
    def worst(self) -> List[dict]:
        """The records of the worst jobs, as many as are kept: those outside first, then the farthest."""
        return [record for _, _, record in self._worst]

    def record(self) -> dict:
        """The counts as they stand behind the verdicts in a file."""
        return {"counts": {"jobs": self.job_counts, "frames": self.frame_counts, "unanswered": self.unanswered, **self.line_record()}}


@dataclass
class Judgement(Counts):
    """All verdicts on a text, kept.

    Parameters
    ----------
    jobs : list of JobVerdicts
        One for each frame of which jobs were answered, and a further one where some of its answers came late.
    frames : list of FrameVerdict
    """

    jobs: List[JobVerdicts] = field(default_factory=list)
    frames: List[FrameVerdict] = field(default_factory=list)

    def add(self, verdict: Verdict) -> None:
        """One more verdict."""
        super().add(verdict)
        if isinstance(verdict, FrameVerdict):
            self.frames.append(verdict)
        elif isinstance(verdict, JobVerdicts):
            self.jobs.append(verdict)


def write_verdict(stream: BinaryIO, verdict: Union[Verdict, SoftVerdict]) -> None:
    """Write a verdict as JSON lines: one for each job, or one for a frame or a line."""
    records = verdict.records() if isinstance(verdict, JobVerdicts) else [verdict.record()]
    stream.write("".join(json.dumps(record) + "\n" for record in records).encode())


def judge(capture: Source, answers: Source, *, reference: Optional[Source] = None,
          radio: Optional[Union[Inside, Radio]] = None) -> Judgement:
    """Judge another receiver's answers, and keep all verdicts.

    Parameters
    ----------
    capture : path, ``"-"``, bytes or binary stream
    answers : path, ``"-"``, bytes or binary stream
        The other receiver's lines, or its certificates (HTCT).
    reference : path, bytes or binary stream, optional
        Lines of ``radio detect`` and ``radio rx`` on the capture, one behind the other, where they are kept. Otherwise
        the library is called, or the program is run.
    radio : Inside or Radio, optional
        The library or the program, where it isn't to be looked for.

    Returns
    -------
    Judgement

    Raises
    ------
    FormatError
        If the capture is none.
    InputError
        If there is no answer at all, or if the reference isn't that of the capture.
    ProgramError
        If the program isn't there or fails, or if frames are to be judged and it has no command ``rx``.
    """
    made = Judgement()
    for _ in judged(capture, answers, made, reference=reference, radio=radio):
        pass
    return made


def judged(capture: Source, answers: Source, counts: Counts, *, reference: Optional[Source] = None,
           radio: Optional[Union[Inside, Radio]] = None) -> Iterator[Verdict]:
    """Judge another receiver's answers frame by frame; other parameters and errors as in `judge`.

    Parameters
    ----------
    counts : Counts
        Each verdict is added to it, and in the end what has no answer, and the causes.

    Yields
    ------
    JobVerdicts, FrameVerdict or LineFault
        In the order of frames, and behind them those on answers that came late; faults as their lines are read.
    """
    capture = repeatable(capture)
    kept = None if reference is None else repeatable(reference)
    with ExitStack() as stack:
        bench = _Bench(answers, counts)
        with naming(answers):
            front, stream = stack.enter_context(fronted(answers, len(MAGIC)))
            bench.theirs = TheirCertificates(stream) if front == MAGIC else TheirLines(stream, bench.waiting.append)
        first = True
        while first or bench.late:
            with ExitStack() as running:
                known = _Kept(running, kept) if kept is not None else _proved(running, radio or receiver(), capture)
                for verdict in bench.passed(capture, known, first):
                    counts.add(verdict)
                    yield verdict
            first = False
    bench.conclude()


class _Bench:
    """What is judged in one way through a capture, and in a second one where answers came too late for the first."""

    theirs: Theirs

    def __init__(self, answers: Source, counts: Counts) -> None:
        self.answers, self.counts = answers, counts
        self.present = self.answered = self.frames = 0  # jobs of the capture, those that are answered, and the capture's frames
        self.seen: Dict[int, np.ndarray] = {}  # which jobs of a frame are answered, as bits
        self.decoded: Set[int] = set()
        self.late: List[int] = []
        self.waiting: List[LineFault] = []
        self.beyond: Set[int] = set()  # frames that are answered and aren't in the capture
        self.looks = Looks()

    def passed(self, capture: Source, known: "Reference", first: bool) -> Iterator[Verdict]:
        """Judge what there is of each frame."""
        for number, frame in enumerate(_frames(capture)):
            if first:
                self.frames += 1
                asked = ~frame.erased & ~frame.rate.is_pilot if self.theirs.data_alone else ~frame.erased
                self.present += frame.samples.shape[0] * int(np.count_nonzero(asked))
            elif number not in self.late:
                continue
            yield from self._frame(number, frame, known)
            yield from self._noted()
        with naming(self.answers):
            left = self.theirs.left() if first else []
        yield from self._noted()
        if first:
            self.late = [frame for frame in left if frame < self.frames]
            self.beyond = set(left).difference(self.late)
            yield from self.theirs.beyond(self.frames - 1)
        else:
            self.late = []

    def conclude(self) -> None:
        """Count what has no answer, and say what explains most of what is wrong."""
        counts = self.counts
        counts.unanswered += self.present - self.answered
        if not self.theirs.data_alone:
            counts.missing += [number for number in range(self.frames) if number not in self.decoded]
        counts.compare_ends(self.theirs.ends, self.frames)
        counts.causes += self.looks.found(self.frames, self.decoded.union(self.seen), self.beyond)

    def _noted(self) -> Iterator[LineFault]:
        """The faults of lines that were read since this was last asked for."""
        while self.waiting:
            yield self.waiting.pop(0)

    def _frame(self, number: int, frame: CaptureFrame, known: "Reference") -> Iterator[Verdict]:
        with naming(self.answers):
            jobs = self.theirs.jobs_of(number, frame)
            octets = self.theirs.octets_of(number)
        jobs = None if jobs is None else self._fresh(number, frame, jobs)
        if jobs is None and not octets:
            return
        reference = known.jobs(number, frame)
        if reference is not None:
            _check_reference(frame, number, reference)
        if jobs is not None:
            if reference is None:
                raise InputError(f"the reference has no jobs of frame {number}")
            verdicts = _judge_jobs(frame, number, jobs, reference)
            self.looks.at_jobs(frame, reference, verdicts.symbol, verdicts.carrier, verdicts.points, np.isin(verdicts.verdict, (WORSE, OUTSIDE)))
            yield verdicts
        for decoded in octets:
            answer = known.frame(number, frame)
            if answer is None:
                raise InputError(f"the reference has no line of frame {number}")
            self.decoded.add(number)
            verdict = _judge_octets(frame, decoded, answer, reference)
            if verdict.verdict == WRONG:
                self.looks.at_octets(decoded.octets, answer.octets)
            yield verdict

    def _fresh(self, number: int, frame: CaptureFrame, jobs: TheirJobs) -> Optional[TheirJobs]:
        """The answers to jobs that the frame has and that weren't answered before; the others are noted."""
        carriers, symbols = frame.rate.subcarriers, frame.samples.shape[0]
        inside = (jobs.symbol < symbols) & (jobs.carrier < carriers)
        inside[inside] = ~frame.erased[jobs.carrier[inside]]
        self._note(MISPLACED, jobs.rows(~inside), number, "which the capture doesn't have")
        jobs = jobs.rows(inside)
        keys = jobs.symbol.astype(np.int64) * carriers + jobs.carrier
        seen = np.unpackbits(self.seen[number], count=symbols * carriers).astype(bool) if number in self.seen else np.zeros(symbols * carriers, bool)
        fresh = np.zeros(keys.size, bool)
        fresh[np.unique(keys, return_index=True)[1]] = True
        fresh &= ~seen[keys]
        self._note(REPEATED, jobs.rows(~fresh), number, "a second time")
        seen[keys] = True
        self.seen[number] = np.packbits(seen)
        self.answered += int(np.count_nonzero(fresh))
        return jobs.rows(fresh) if fresh.any() else None

    def _note(self, kind: str, jobs: TheirJobs, number: int, ending: str) -> None:
        comma = "," if kind == MISPLACED else ""
        for line, symbol, carrier in zip(jobs.lines.tolist(), jobs.symbol.tolist(), jobs.carrier.tolist()):
            self.waiting.append(LineFault(kind, line, f"answers job {number} {symbol} {carrier}{comma} {ending}"))


def _frames(capture: Source) -> Iterator[CaptureFrame]:
    """The frames of a capture; what is said of its content has its name in front."""
    with naming(capture):
        frames = read_htcp(capture)
    with frames:
        while True:
            with naming(capture):
                frame = next(frames, None)
            if frame is None:
                return
            yield frame


class Reference(Protocol):
    """What the proved receiver says of a capture; frames are asked for in ascending order."""

    def jobs(self, number: int, frame: CaptureFrame) -> Optional[Jobs]:
        """Its answers to the jobs of a frame."""

    def frame(self, number: int, frame: CaptureFrame) -> Optional[FrameAnswer]:
        """Its line of a frame."""


def _proved(stack: ExitStack, radio: Union[Inside, Radio], capture: Source) -> Reference:
    if isinstance(radio, Inside):
        return stack.enter_context(closing(Called(radio, capture, "judge")))
    return _Run(stack, radio, capture)


class _Texts:
    """Texts of the program's answers, read frame by frame, each from when it is first asked for."""

    def __init__(self, stack: ExitStack) -> None:
        self._stack = stack
        self._open: Dict[str, Iterator[Union[Jobs, FrameAnswer]]] = {}
        self._next: Dict[str, Optional[Union[Jobs, FrameAnswer]]] = {}

    def opened(self, word: str) -> ContextManager[Iterable[Union[Jobs, FrameAnswer]]]:
        """The answers of ``detect`` or ``rx``."""
        raise NotImplementedError

    def of(self, word: str, number: int) -> Optional[Union[Jobs, FrameAnswer]]:
        """What a text has of a frame, None where it has nothing."""
        if word not in self._open:
            self._open[word] = iter(self._stack.enter_context(self.opened(word)))
            self._next[word] = next(self._open[word], None)
        while (record := self._next[word]) is not None and record.frame < number:
            self._next[word] = next(self._open[word], None)
        return record if record is not None and record.frame == number else None


class _Run(_Texts):
    """The reference by running the program."""

    def __init__(self, stack: ExitStack, radio: Radio, capture: Source) -> None:
        super().__init__(stack)
        self._radio, self._capture = radio, capture

    def opened(self, word: str) -> ContextManager[Answers]:
        return self._radio.answers(word, self._capture)

    def jobs(self, number: int, _: CaptureFrame) -> Jobs:
        record = self.of("detect", number)
        if not isinstance(record, Jobs):
            self._stack.close()  # where the program failed, this says why
            raise ProgramError(f"the program's detect wrote no jobs of frame {number}")
        return record

    def frame(self, number: int, _: CaptureFrame) -> FrameAnswer:
        record = self.of("rx", number)
        if not isinstance(record, FrameAnswer):
            self._stack.close()
            raise ProgramError(f"the program's rx wrote no line of frame {number}")
        return record


class _Kept(_Texts):
    """The reference from lines that were kept: those of ``detect`` and those of ``rx``, the frames of each ascending."""

    def __init__(self, stack: ExitStack, reference: Source) -> None:
        super().__init__(stack)
        self._reference = reference

    @contextmanager
    def opened(self, word: str) -> Iterator[Iterator[Union[Jobs, FrameAnswer]]]:
        kind: Type = Jobs if word == "detect" else FrameAnswer
        yield (record for record in self._records() if isinstance(record, kind))

    def _records(self) -> Iterator[Union[Jobs, FrameAnswer]]:
        with naming(self._reference):
            answers = read_answers(self._reference)
            yield from answers
            if isinstance(answers.last, Refused):
                raise InputError("these lines are to an input that is no capture")

    def jobs(self, number: int, _: CaptureFrame) -> Optional[Jobs]:
        return cast(Optional[Jobs], self.of("detect", number))

    def frame(self, number: int, _: CaptureFrame) -> Optional[FrameAnswer]:
        return cast(Optional[FrameAnswer], self.of("rx", number))


def _check_reference(frame: CaptureFrame, number: int, reference: Jobs) -> None:
    symbol, carrier = places(frame)
    fits = (reference.frame == number and reference.streams == frame.rate.streams and np.array_equal(reference.symbol, symbol)
            and np.array_equal(reference.carrier, carrier) and bool(np.all(distances(frame, symbol, carrier, reference.points) == reference.distance)))
    if not fits:
        raise InputError(f"the reference isn't that of this capture: its jobs of frame {number} are others")


def _judge_jobs(frame: CaptureFrame, number: int, theirs: TheirJobs, reference: Jobs) -> JobVerdicts:
    index = np.full(frame.samples.shape[:2], -1, np.int64)
    index[reference.symbol, reference.carrier] = np.arange(len(reference))
    found = index[theirs.symbol, theirs.carrier]
    points, nearest, least = points_of(theirs.levels), reference.points[found], reference.distance[found]
    # The distances of the reference's vectors are known, so only the others are looked at.
    verdict, reached = np.full(found.size, SAME, "U7"), least.copy()
    others = np.flatnonzero((points != nearest).any(axis=1))
    good = on_grid(frame.rate, theirs.symbol[others], theirs.carrier[others], points[others])
    verdict[others[~good]], reached[others[~good]] = OUTSIDE, -1
    others = others[good]
    distance = distances(frame, theirs.symbol[others], theirs.carrier[others], points[others])
    nearer = distance < least[others]
    if nearer.any():
        n = others[int(np.argmax(nearer))]
        raise InputError(f"the reference isn't that of this capture: job {number} {theirs.symbol[n]} {theirs.carrier[n]} has a nearer vector")
    verdict[others] = compared(distance, least[others])
    if distance.dtype != reached.dtype:
        reached = reached.astype(object)
    reached[others] = distance
    misstated = (theirs.stated >= 0) & (theirs.stated != reached)
    return JobVerdicts(number, theirs.symbol, theirs.carrier, verdict, reached, least, points, nearest, misstated.astype(bool),
                       theirs.stated)


def compared(distance: np.ndarray, least: np.ndarray) -> np.ndarray:
    """The verdicts on vectors of the grid that aren't the reference's, by their distances and the least ones: ``tie`` or ``worse``."""
    return np.where(distance == least, TIE, WORSE)


def _judge_octets(frame: CaptureFrame, theirs: TheirOctets, answer: FrameAnswer, reference: Optional[Jobs]) -> FrameVerdict:
    verdict, code = _compared_octets(frame, theirs.octets, answer, reference)
    true = (answer.data, answer.pilot, code)
    misstated = tuple((name, stated, known) for name, stated, known in zip(SUMS, theirs.sums or (), true) if known is not None and stated != known)
    return FrameVerdict(answer.frame, verdict, code, answer.code, misstated)


def _compared_octets(frame: CaptureFrame, octets: Optional[bytes], answer: FrameAnswer, reference: Optional[Jobs]) -> Tuple[str, Optional[int]]:
    """The verdict on octets, and the least Hamming distance of a codeword that carries them where it is known."""
    if octets == answer.octets:
        return SAME, answer.code
    if octets is None or len(octets) != frame.length or reference is None:
        return WRONG, None
    points = np.zeros(frame.samples.shape, complex)
    points[reference.symbol, reference.carrier] = reference.points
    received = received_bits(frame.rate, frame.length, points, frame.erased)
    code = least_hamming(frame.rate, octets, received)
    if code < answer.code:
        raise InputError(f"the reference isn't that of this capture: frame {answer.frame} has a nearer codeword")
    return TIE if code == answer.code else WRONG, code
