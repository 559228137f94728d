"""Error rates against the signal-to-noise ratio, over random channels in floating point.

A frame goes through a channel (`mizgaure.channels`), which it keeps for all of its symbols, and the noise on each antenna has
the power 10**(-SNR/10), where each antenna receives mean power 1 on a data subcarrier.

The receiver knows the channel (``perfect``), or estimates it by least squares (``ls``) from training symbols of the same
noise that each stream sends with the signs of the orthogonal matrix of clause 20.3.9.4.6: 1, 2, 4 and 4 training symbols
for one to four streams. Then the frame is quantised, and the program does the rest; other detectors may stand beside it
(`mizgaure.detectors`). Where the program's soft decoder is one of them, the gain is so small that few of its weights are cut.

Each frame draws from a generator of its own, which the seed, the number of the SNR point and the number of the frame
determine; so a sweep is the same in one process and in many, on one machine and on many, in parts, and by the proved library
(`mizgaure.inside`), which is called where it is there, as by the program.

A sweep is kept as JSON lines: its setting, and then a line for each few frames of a point (a chunk), as they come. What was
broken off goes on from there, and the files of parts are merged by their chunks.
"""

from __future__ import annotations

import errno
import io
import json
import os
from dataclasses import asdict, dataclass, field, fields
from typing import Any, BinaryIO, Callable, Dict, Iterable, Iterator, List, Optional, Sequence, Set, Tuple, Union

import numpy as np

from . import measures, plugs
from .answers import FrameAnswer, Jobs, SoftAnswer
from .channels import Profile, check_channel, draw, gaussian, rayleigh
from .detectors import REFERENCE, Detector, decided
from .errors import InputError, ProgramError
from .files import Source, reading, refuse_overwriting
from .formats import CaptureFrame, SentFrame, SymbolsFrame, read_htsy, write_htcp, write_httx
from .inside import Inside, receiver
from .measures import ErrorRates, FrameProportion, Proportion
from .program import Radio
from .quantise import MeasuredFrame, capture, soft_diagonal
from .rates import Rate, check_length
from .tables import rate_columns
from .workers import Workers

__all__ = ["ESTIMATES", "Chunk", "Journal", "Setting", "Sweep", "gaussian", "least_squares", "merged", "random_symbols", "rayleigh",
           "read_sweep", "received_frame", "sweep"]

TRAINING = np.array([[1, -1, 1, 1], [1, 1, -1, 1], [1, 1, 1, -1], [-1, 1, 1, 1]])
ESTIMATES = ("perfect", "ls")
BY_FRAME = ("bits", "symbols", "octet_bits")  # the rates that are kept with how many frames had how many errors
NAMES = {"ser": "symbols", "ber": "bits", "octet_ber": "octet_bits", "per": "frames"}  # of rates in tables
COLUMNS = ("detector", "snr", *(f"{name}{end}" for name in NAMES for end in ("", "_low", "_high", "_errors", "_trials")))


@dataclass(frozen=True)
class Setting:
    """What a sweep is over.

    Parameters
    ----------
    bandwidth, mcs, length : int
        The rate and the octets of each frame.
    snr : tuple of float
        The signal-to-noise ratios of one receive antenna, in dB.
    frames : int
        The frames of each point.
    antennas : int
        The receive antennas; as many as streams where 0.
    decay : float
        By how many samples the taps' mean power falls by e; 0 is one tap alone.
    estimate : str
        ``"perfect"`` or ``"ls"``.
    seed : int
    channel : str
        One of `mizgaure.channels`: a name or a function of the user's own.
    profile : tuple
        The delays in ns and powers in dB of the channel ``tapped``.
    errors : int
        A point ends behind the chunk that brings its frames with errors to this number; 0 is never.
    chunk : int
        The frames that are done in one go: of one run of the program, one task of a worker, and one line of what is kept.
    """

    bandwidth: int = 20
    mcs: int = 9
    length: int = 100
    snr: Tuple[float, ...] = (0.0, 5.0, 10.0, 15.0, 20.0)
    frames: int = 50
    antennas: int = 0
    decay: float = 2.0
    estimate: str = "perfect"
    seed: int = 1
    channel: str = "exponential"
    profile: Profile = ()
    errors: int = 0
    chunk: int = 10

    def check(self) -> None:
        """Refuse a setting that means nothing.

        Raises
        ------
        InputError
        """
        Rate(self.bandwidth, self.mcs)
        check_length(self.length)
        if not self.snr:
            raise InputError("a sweep needs a signal-to-noise ratio")
        if self.frames < 1:
            raise InputError(f"a sweep needs a frame at each point, and not {self.frames}")
        if self.chunk < 1:
            raise InputError(f"a chunk has a frame at least, and not {self.chunk}")
        if self.antennas < 0 or not (np.isfinite(self.decay) and self.decay >= 0) or self.seed < 0 or self.errors < 0:
            raise InputError("the antennas, the decay, the seed and the errors of a sweep are 0 or more")
        check_channel(self.channel, self.profile)
        if self.estimate not in ESTIMATES:
            raise InputError(f"the estimate is one of {', '.join(ESTIMATES)}, and not {self.estimate}")

    @property
    def rate(self) -> Rate:
        """The rate of all frames."""
        return Rate(self.bandwidth, self.mcs)


Rates = Dict[str, ErrorRates]


@dataclass(frozen=True)
class Chunk:
    """Some frames of a point.

    Parameters
    ----------
    point, first, frames : int
        The number of the point, that of the first frame, and how many there are.
    rates : dict from str to ErrorRates
        Of the reference and each detector, by name.
    """

    point: int
    first: int
    frames: int
    rates: Rates

    def to_line(self) -> str:
        """The chunk as a line of a kept sweep, without its end."""
        rates = {name: {**{each: getattr(rates, each).rows() for each in BY_FRAME}, "frames": [rates.frames.events, rates.frames.trials]}
                 for name, rates in self.rates.items()}
        return json.dumps({"point": self.point, "first": self.first, "frames": self.frames, "rates": rates})

    @classmethod
    def of(cls, read: Dict[str, Any]) -> "Chunk":
        """A chunk from what its line holds."""
        rates = {name: ErrorRates(**{each: FrameProportion.from_rows(kept[each]) for each in BY_FRAME}, frames=Proportion(*map(int, kept["frames"])))
                 for name, kept in read["rates"].items()}
        return cls(int(read["point"]), int(read["first"]), int(read["frames"]), rates)


@dataclass
class Sweep:
    """The outcome of a sweep, or of as much of it as there is.

    Parameters
    ----------
    setting : Setting
    coded : bool
        Whether frames were sent by ``radio tx`` and decoded by ``radio rx``; otherwise their points were drawn at random,
        and there are no frame error rates.
    detectors : tuple of Detector
        Those beside the reference.
    part : (int, int)
        Part K of N.
    digests : dict from str to str
        Of the files with functions of the user's own.
    chunks : list of Chunk
    """

    setting: Setting
    coded: bool
    detectors: Tuple[Detector, ...] = ()
    part: Tuple[int, int] = (1, 1)
    digests: Dict[str, str] = field(default_factory=dict)
    chunks: List[Chunk] = field(default_factory=list)

    @property
    def names(self) -> Tuple[str, ...]:
        """The names of the reference and of all detectors."""
        return (REFERENCE, *(detector.name for detector in self.detectors))

    @property
    def rates(self) -> List[ErrorRates]:
        """The reference's error rates, one for each signal-to-noise ratio."""
        return self.rates_of(REFERENCE)

    def rates_of(self, name: str) -> List[ErrorRates]:
        """The error rates of a detector, one for each signal-to-noise ratio."""
        found = [ErrorRates() for _ in self.setting.snr]
        for chunk in self.chunks:
            found[chunk.point] += chunk.rates[name]
        return found

    def frames(self, point: int) -> int:
        """How many frames of a point there are."""
        return sum(chunk.frames for chunk in self.chunks if chunk.point == point)

    def missing(self) -> int:
        """How many frames of all points there aren't, points that had their errors left out."""
        limit = self.setting.errors
        return sum(self.setting.frames - self.frames(point) for point, rates in enumerate(self.rates)
                   if not 0 < limit <= rates.frames.events)

    def head(self) -> str:
        """The first line of a kept sweep, without its end."""
        return json.dumps({"sweep": asdict(self.setting), "coded": self.coded, "part": list(self.part), "digests": self.digests,
                           "detectors": {detector.name: detector.words for detector in self.detectors}})

    def to_json(self) -> str:
        """The sweep as JSON lines, which `read_sweep` reads."""
        return "".join(f"{line}\n" for line in (self.head(), *(chunk.to_line() for chunk in self.chunks)))

    def title(self) -> str:
        """The first line of the table."""
        s = self.setting
        count = f"{s.frames} frames a point" + (f" or {s.errors} in error" if s.errors else "")
        channel = "" if s.channel == "exponential" else f", channel {s.channel}"
        return f"{s.rate}, {s.length} octets, {count}, estimate {s.estimate}{channel}"

    def lines(self, point: int) -> Iterator[str]:
        """The lines of a point in the table: the reference's, and one for each detector."""
        for name in self.names:
            rates = self.rates_of(name)[point]
            front = f"{self.setting.snr[point]:6g} dB  " if name == REFERENCE else f"{'':9}  {name}: "
            points = [f"SER {rates.symbols}"] if rates.symbols.trials or not rates.frames.trials else []
            yield front + "  ".join(points + ([f"PER {rates.frames}"] if self.coded else []))

    def table(self) -> str:
        """The sweep as a table to read."""
        lines = [self.title(), *(line for point in range(len(self.setting.snr)) for line in self.lines(point))]
        if not self.coded:
            lines.append("random points without a code: the program has no tx or no rx, so there is no PER")
        return "\n".join(lines)

    def records(self) -> Iterator[Dict[str, Any]]:
        """The rates as rows of a table, one for each detector and ratio, with the columns `COLUMNS`."""
        for name in self.names:
            for snr, rates in zip(self.setting.snr, self.rates_of(name)):
                row: Dict[str, Any] = {"detector": name, "snr": snr}
                for column, kept in NAMES.items():
                    if getattr(rates, kept).trials:
                        row.update(rate_columns(column, getattr(rates, kept)))
                yield row


def read_sweep(source: Source) -> Sweep:
    """Read a sweep that was kept. A last line that has no end, as where the writing was broken off, isn't looked at.

    Raises
    ------
    InputError
        If it is none.
    """
    with reading(source) as stream:
        text = stream.read()
    try:
        head, *lines = (json.loads(line) for line in text[: text.rfind(b"\n") + 1].splitlines())
        given: Dict[str, Any] = dict(head["sweep"])
        given["snr"] = tuple(float(snr) for snr in given["snr"])
        given["profile"] = tuple((float(delay), float(power)) for delay, power in given["profile"])
        setting = Setting(**given)
        setting.check()
        detectors = tuple(Detector(str(name), str(words)) for name, words in head["detectors"].items())
        number, count = head["part"]
        made = Sweep(setting, bool(head["coded"]), detectors, (int(number), int(count)), dict(head["digests"]))
        for line in lines:
            chunk = Chunk.of(line)
            if not 0 <= chunk.point < len(setting.snr) or set(chunk.rates) != set(made.names):
                raise ValueError
            made.chunks.append(chunk)
        return made
    except (ValueError, KeyError, TypeError, AttributeError) as error:
        raise InputError(f"this isn't the output of a sweep ({type(error).__name__})") from error


def merged(sweeps: Sequence[Sweep]) -> Sweep:
    """Parts of a sweep as one.

    Parameters
    ----------
    sweeps : sequence of Sweep
        One at least, all of one setting.

    Raises
    ------
    InputError
        If they aren't of one sweep, or the same frames came to different numbers.
    """
    first = sweeps[0]
    found: Dict[Tuple[int, int], Chunk] = {}
    for other in sweeps:
        _check_same(first, other, parts=False)
        for chunk in other.chunks:
            if found.setdefault((chunk.point, chunk.first), chunk) != chunk:
                raise InputError(f"frames from {chunk.first} on at {first.setting.snr[chunk.point]:g} dB stand in two files with different numbers")
    return Sweep(first.setting, first.coded, first.detectors, (1, 1), first.digests, [found[key] for key in sorted(found)])


def _check_same(one: Sweep, other: Sweep, parts: bool = True) -> None:
    """Refuse two that aren't of one sweep, naming the first thing that differs."""
    pairs = [(each.name, getattr(one.setting, each.name), getattr(other.setting, each.name)) for each in fields(Setting)]
    pairs += [("code", one.coded, other.coded), ("detectors", one.detectors, other.detectors), ("files of functions", one.digests, other.digests)]
    pairs += [("part", one.part, other.part)] if parts else []
    for name, here, there in pairs:
        if here != there:
            raise InputError(f"it is another sweep: the {name} differ{'' if name.endswith('s') else 's'}")


class Journal:
    """A file that a sweep is written to as it comes.

    Parameters
    ----------
    path : path
    resume : bool
        Whether a file that is there is gone on with.
    force : bool
        Whether it is replaced.

    Raises
    ------
    InputError
        If the file is there already and neither is so, or if it is to be gone on with and is no sweep.
    """

    def __init__(self, path: str, resume: bool = False, force: bool = False) -> None:
        self.path = path
        self.known: Optional[Sweep] = None
        self._stream: Optional[BinaryIO] = None
        if resume and os.path.isfile(path) and os.path.getsize(path):
            self.known = read_sweep(path)
        elif not resume:
            refuse_overwriting(path, force)

    def begin(self, made: Sweep) -> None:
        """Write the head, or see that what stands there is of the same sweep.

        Raises
        ------
        InputError
            If it isn't, or the file can't be written.
        """
        try:
            if self.known is None:
                self._stream = open(self.path, "wb", buffering=0)
                self._write_head(made.head().encode() + b"\n")
                return
            _check_same(made, self.known)
            self._stream = open(self.path, "rb+", buffering=0)
            whole = self._stream.read().rfind(b"\n") + 1
            self._stream.truncate(whole)
            self._stream.seek(whole)
        except OSError as error:
            raise InputError(f"{self.path} can't be written: {error.strerror}") from error

    def _write_head(self, line: bytes) -> None:
        """Write the first line, or leave no file."""
        assert self._stream is not None
        try:
            if self._stream.write(line) != len(line):
                raise OSError(errno.EFBIG, os.strerror(errno.EFBIG))
        except OSError:
            os.unlink(self.path)
            raise

    def write(self, chunk: Chunk) -> None:
        """Write a chunk: in one piece, so that what is broken off is a last line without an end."""
        assert self._stream is not None
        line = chunk.to_line().encode() + b"\n"
        try:
            if self._stream.write(line) != len(line):
                raise OSError(errno.ENOSPC, os.strerror(errno.ENOSPC))
        except OSError as error:
            raise InputError(f"{self.path} can't be written: {error.strerror}; --resume goes on with it") from error

    def close(self) -> None:
        """Close the file."""
        if self._stream is not None:
            self._stream.close()


@dataclass(frozen=True)
class Task:
    """A chunk to do; without a program's path by the library, where whoever does it has that."""

    setting: Setting
    coded: bool
    detectors: Tuple[Detector, ...]
    texts: Tuple[Tuple[str, str], ...]
    radio: Optional[str]
    point: int
    first: int
    count: int


def sweep(setting: Setting, radio: Optional[Union[Inside, Radio]] = None, processes: Optional[int] = None,
          progress: Optional[Callable[[int, int], None]] = None, *, path: Optional[str] = None, scheduler: Optional[str] = None,
          detectors: Iterable[Detector] = (), part: Tuple[int, int] = (1, 1), journal: Optional[Journal] = None,
          point_done: Optional[Callable[[Sweep, int], None]] = None) -> Sweep:
    """Run a sweep.

    Parameters
    ----------
    setting : Setting
    radio : Inside or Radio, optional
        What receives, the library or the program, where it isn't to be looked for.
    processes : int, optional
        How many processes share the work; by default as many as there are processors.
    progress : callable, optional
        Called with the frames that are done and those that there are in all.
    path : str, optional
        Where the workers of a scheduler have the program; by default each finds the library or the program for itself.
    scheduler : str, optional
        The address of a scheduler of dask.distributed, whose workers do the work.
    detectors : iterable of Detector
        Beside the reference.
    part : (int, int)
        Part K of N: every N-th chunk from the K-th on. It ends a point at its share of the frame errors, rounded up.
    journal : Journal, optional
        Written as chunks come; chunks that it knows aren't done again.
    point_done : callable, optional
        Called with the sweep and a point's number when that point has all of its chunks.

    Returns
    -------
    Sweep

    Raises
    ------
    InputError
        If the setting means nothing, the journal is another sweep's, or there is no such scheduler.
    ProgramError
        If the program isn't there or fails.
    """
    setting.check()
    workers = Workers(processes, scheduler)
    detectors = tuple(detectors)
    own = [word for word in (setting.channel, *(detector.words for detector in detectors)) if plugs.names_function(word)]
    texts = tuple((word, plugs.text_of(word)) for word in own)
    if scheduler is None:
        found = radio or receiver(path)
        path = None if isinstance(found, Inside) else found.path
    coded = _is_coded(path) if scheduler is None else next(workers.run(_is_coded, [path]))[1]
    done = Sweep(setting, coded, detectors, _checked_part(part), {word: plugs.digest(word) for word in own})
    if len(set(done.names)) < len(done.names):
        raise InputError("two detectors have the same name")
    if not coded and any(detector.is_soft for detector in detectors):
        raise InputError("the program has no tx or no rx, so there are no frames to decode by weights")
    if setting.errors and not coded:
        raise InputError("the program has no tx or no rx, so there are no frame errors to end a point by")
    if journal is not None:
        journal.begin(done)
        done.chunks += journal.known.chunks if journal.known is not None else []
    run = _Run(done, path, texts, journal, progress, point_done)
    for task, rates in workers.run(_chunk, run.tasks()):
        run.take(task, rates)
    run.end()
    return done


def _checked_part(part: Tuple[int, int]) -> Tuple[int, int]:
    number, count = part
    if not 1 <= number <= count:
        raise InputError(f"part {number} of {count} isn't one of them")
    return number, count


def _is_coded(path: Optional[str]) -> bool:
    found = receiver(path, progress=False)
    return isinstance(found, Inside) or found.knows("tx") and found.knows("rx")


class _Run:
    """A sweep under way: which chunks are still to do, and what came of those that are done."""

    def __init__(self, done: Sweep, path: Optional[str], texts: tuple, journal: Optional[Journal], progress: Optional[Callable[[int, int], None]],
                 point_done: Optional[Callable[[Sweep, int], None]]) -> None:
        self.done, self.path, self.texts, self.journal, self.progress, self.point_done = done, path, texts, journal, progress, point_done
        number, count = done.part
        snr, frames, size = range(len(done.setting.snr)), done.setting.frames, done.setting.chunk
        chunks = [(point, first, min(size, frames - first)) for point in snr for first in range(0, frames, size)][number - 1 :: count]
        known = {(chunk.point, chunk.first) for chunk in done.chunks}
        self.left = [chunk for chunk in chunks if chunk[:2] not in known]
        self.total = sum(size for _, _, size in chunks)
        self.limit = -(-done.setting.errors // count)
        self.wrong = [rates.frames.events for rates in done.rates]
        self.open = [sum(1 for point, _, _ in self.left if point == here) for here in snr]
        self.told: Set[int] = set()

    def is_over(self, point: int) -> bool:
        """Whether a point has its errors."""
        return 0 < self.limit <= self.wrong[point]

    def tasks(self) -> Iterator[Task]:
        """The chunks to do, each looked at again when it is asked for."""
        self._tell()
        for point, first, size in self.left:
            if not self.is_over(point):
                yield Task(self.done.setting, self.done.coded, self.done.detectors, self.texts, self.path, point, first, size)

    def take(self, task: Task, rates: Rates) -> None:
        """Keep what came of a chunk, but for one that was begun before its point had its errors."""
        if self.is_over(task.point):
            return
        chunk = Chunk(task.point, task.first, task.count, rates)
        self.done.chunks.append(chunk)
        if self.journal is not None:
            self.journal.write(chunk)
        self.wrong[task.point] += rates[REFERENCE].frames.events
        self.open[task.point] -= 1
        self._tell()

    def end(self) -> None:
        """Say that nothing is left."""
        self._tell()
        if self.progress is not None:
            self.progress(self.total, self.total)

    def _tell(self) -> None:
        if self.progress is not None:
            skipped = sum(size for point, first, size in self.left if self.is_over(point))
            self.progress(min(self.total, sum(chunk.frames for chunk in self.done.chunks) + skipped), self.total)
        for point, count in enumerate(self.open):
            if point not in self.told and (count == 0 or self.is_over(point)):
                self.told.add(point)
                if self.point_done is not None:
                    self.point_done(self.done, point)


def _chunk(task: Task) -> Rates:
    """The errors of some frames at one point."""
    plugs.keep(dict(task.texts))
    setting = task.setting
    found = receiver(task.radio, progress=False)
    radio: Union[_Called, _Read] = _Called(found) if isinstance(found, Inside) else _Read(Radio(task.radio, progress=False, workers=1))
    generators = [np.random.default_rng([setting.seed, task.point, number]) for number in range(task.first, task.first + task.count)]
    octets, symbols = _sent(setting, task.coded, radio, generators)
    snr = setting.snr[task.point]
    gain = _soft_gain(setting.rate) if any(detector.is_soft for detector in task.detectors) else None
    made = capture([received_frame(setting, snr, frame, generator) for frame, generator in zip(symbols, generators)], gain)
    detected = radio.detect(made.frames)
    rates: Rates = {REFERENCE: _point_errors(symbols, detected)}
    if task.coded:
        rates[REFERENCE] += _octet_errors(octets, radio.decoded(made.frames, detected))
    noises = [gain**2 * 10 ** (-snr / 10) for gain in made.gains]
    for detector in task.detectors:
        if detector.is_soft:
            rates[detector.name] = _octet_errors(octets, radio.soft(made.frames))
            continue
        points = detector.decide(made.frames, _octets(made.frames), noises)
        jobs = [_jobs(number, each) for number, each in enumerate(points)]
        rates[detector.name] = _point_errors(symbols, jobs)
        if task.coded:
            again = [decided(frame, each) for frame, each in zip(made.frames, points)]
            rates[detector.name] += _octet_errors(octets, radio.decoded(again, jobs))
    return rates


class _Called:
    """The receiver of a chunk by calls of the library."""

    def __init__(self, library: Inside) -> None:
        self.library = library

    def sent(self, frames: Sequence[SentFrame]) -> List[SymbolsFrame]:
        return [self.library.sent(frame) for frame in frames]

    def detect(self, frames: Sequence[CaptureFrame]) -> List[Jobs]:
        return [self.library.jobs(number, frame) for number, frame in enumerate(frames)]

    def decoded(self, frames: Sequence[CaptureFrame], jobs: Sequence[Jobs]) -> List[Optional[bytes]]:
        """The octets of frames whose nearest points these are."""
        found = [self.library.octets(frame, each) for frame, each in zip(frames, jobs)]
        return [None if each is None else each[0] for each in found]

    def soft(self, frames: Sequence[CaptureFrame]) -> List[Optional[bytes]]:
        return [self.library.soft(number, frame).octets for number, frame in enumerate(frames)]


class _Read:
    """The receiver of a chunk by the program's texts."""

    def __init__(self, radio: Radio) -> None:
        self.radio = radio

    def sent(self, frames: Sequence[SentFrame]) -> List[SymbolsFrame]:
        made = io.BytesIO()
        write_httx(made, frames)
        return list(read_htsy(self.radio.tx(made.getvalue())))

    def detect(self, frames: Sequence[CaptureFrame]) -> List[Jobs]:
        return self.radio.detect(_octets(frames))

    def decoded(self, frames: Sequence[CaptureFrame], _: Sequence[Jobs]) -> List[Optional[bytes]]:
        """The octets of frames."""
        return self._answers("rx", frames)

    def soft(self, frames: Sequence[CaptureFrame]) -> List[Optional[bytes]]:
        return self._answers("soft", frames)

    def _answers(self, word: str, frames: Sequence[CaptureFrame]) -> List[Optional[bytes]]:
        with self.radio.answers(word, _octets(frames)) as answers:
            found = {answer.frame: answer.octets for answer in answers if isinstance(answer, (FrameAnswer, SoftAnswer))}
        if set(found) != set(range(len(frames))):
            raise ProgramError(f"{self.radio.path} {word} gave no line for each frame")
        return [found[number] for number in range(len(frames))]


def _soft_gain(rate: Rate) -> float:
    """A gain at which a channel of mean power has diagonals of some `soft_diagonal`."""
    return soft_diagonal(rate) * rate.streams**0.5 / rate.normalising_factor


def _octets(frames: Sequence[CaptureFrame]) -> bytes:
    made = io.BytesIO()
    write_htcp(made, frames)
    return made.getvalue()


def _jobs(number: int, points: np.ndarray) -> Jobs:
    """Decisions on all subcarriers of a frame as answers; their distances mean nothing."""
    symbols, carriers, streams = points.shape
    count = symbols * carriers
    return Jobs(number, np.repeat(np.arange(symbols), carriers), np.tile(np.arange(carriers), symbols), np.zeros(count, np.int64),
                points.reshape(count, streams))


def _point_errors(sent: Sequence[SymbolsFrame], answers: Sequence[Jobs]) -> ErrorRates:
    total = ErrorRates()
    for jobs in answers:
        total += measures.point_errors(sent[jobs.frame], jobs)
    return total


def _octet_errors(sent: Sequence[bytes], received: Sequence[Optional[bytes]]) -> ErrorRates:
    return sum((measures.octet_errors(*pair) for pair in zip(sent, received)), ErrorRates())


def _sent(setting: Setting, coded: bool, radio: Union[_Called, _Read], generators: Sequence[np.random.Generator]):
    """The octets and the symbols of frames; where there is no code the octets mean nothing."""
    rate = setting.rate
    octets = [generator.bytes(setting.length) for generator in generators]
    seeds = [int(generator.integers(1, 128)) for generator in generators]
    if not coded:
        return octets, [random_symbols(rate, setting.length, generator) for generator in generators]
    return octets, radio.sent([SentFrame(rate, *pair) for pair in zip(octets, seeds)])


def random_symbols(rate: Rate, length: int, generator: np.random.Generator) -> SymbolsFrame:
    """A frame whose data subcarriers have random points without a code, and whose pilots have their values."""
    symbols = rate.symbols(length)
    points = rate.points[generator.integers(0, rate.points.size, (symbols, rate.subcarriers, rate.streams))]
    points[:, rate.is_pilot] = rate.pilot_signs(symbols)
    return SymbolsFrame(rate, length, points)


def received_frame(setting: Setting, snr: float, sent: SymbolsFrame, generator: np.random.Generator) -> MeasuredFrame:
    """A frame behind a random channel and noise.

    Parameters
    ----------
    setting : Setting
    snr : float
        In dB.
    sent : SymbolsFrame
    generator : Generator

    Returns
    -------
    MeasuredFrame
        With the channel as the receiver believes it to be.
    """
    rate = sent.rate
    antennas = setting.antennas or rate.streams
    deviation = 10 ** (-snr / 20)
    channel = draw(setting.channel, rate, antennas, setting.decay, setting.profile, generator)
    factors = np.where(rate.is_pilot, 1, rate.normalising_factor)
    clean = np.einsum("cas,ncs->nca", channel * factors[:, None, None], sent.points)
    received = clean + deviation * gaussian(generator, clean.shape)
    if setting.estimate == "ls":
        channel = least_squares(channel, deviation, generator)
    return MeasuredFrame(rate.bandwidth, rate.mcs, sent.length, channel, received)


def least_squares(channel: np.ndarray, deviation: float, generator: np.random.Generator) -> np.ndarray:
    """The channel as it is estimated from training symbols (clause 20.3.9.4.6).

    Parameters
    ----------
    channel : ndarray of complex128, shape (subcarriers, antennas, streams)
    deviation : float
        The square root of the noise's mean power.
    generator : Generator

    Returns
    -------
    ndarray of complex128, of the same shape
        The true channel and Gaussian noise, whose power is that of the received noise by the number of training symbols.
    """
    streams = channel.shape[-1]
    count = (1, 2, 4, 4)[streams - 1]
    signs = TRAINING[:streams, :count]
    heard = channel @ signs + deviation * gaussian(generator, (*channel.shape[:2], count))
    return heard @ signs.T / count
