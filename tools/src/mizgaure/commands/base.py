"""What the commands share: how one is described, the kinds of words, and frames with their file's name."""

from __future__ import annotations

import argparse
import io
import sys
from contextlib import contextmanager
from dataclasses import dataclass
from itertools import chain
from pathlib import Path
from typing import Any, BinaryIO, Callable, Iterable, Iterator, List, Mapping, Optional, Sequence, Tuple, TypeVar, Union, cast

import numpy as np

from ..answers import FrameAnswer, Jobs, Refused, read_answers
from ..errors import InputError
from ..files import Source, naming, reading, refuse_overwriting
from ..formats import CaptureFrame, read_htcp
from ..channels import EXPONENTIAL, TAPPED, profile_of
from ..channels import NAMES as CHANNELS
from ..inside import Inside, receiver, unheeded
from ..program import Progress, Radio, octets_left
from ..quantise import FOR_SOFT, Gain
from ..sweep import ESTIMATES, Setting
from ..tables import Records, write_csv, write_json_lines


Item = TypeVar("Item")


@dataclass(frozen=True)
class Command:
    """One command of ``mizgaure``.

    Parameters
    ----------
    name : str
        The word that calls it.
    text : str
        What it does, in a line that begins with a small letter.
    words : callable
        Adds its words to a parser.
    run : callable
        Does it; gives a status, None being 0.
    radio : bool
        Whether it runs the program and takes ``--radio``.
    writes : bool
        Whether it writes files and takes ``--force``.
    """

    name: str
    text: str
    words: Callable[[argparse.ArgumentParser], None]
    run: Callable[[argparse.Namespace], Optional[int]]
    radio: bool = False
    writes: bool = False


# words

def whole(word: str) -> int:
    """A whole number of at least 0."""
    if not (word.isascii() and word.isdigit()) or len(word) > 18:
        raise argparse.ArgumentTypeError(f"{word} is no whole number of at least 0")
    return int(word)


def positive_whole(word: str) -> int:
    """A whole number above 0."""
    number = whole(word)
    if number == 0:
        raise argparse.ArgumentTypeError("it has to be above 0")
    return number


def not_negative(word: str) -> float:
    """A number of at least 0."""
    try:
        number = float(word)
    except ValueError:
        number = -1.0
    if not (np.isfinite(number) and number >= 0):
        raise argparse.ArgumentTypeError(f"{word} is no number of at least 0")
    return number


def positive(word: str) -> float:
    """A number above 0."""
    number = not_negative(word)
    if number == 0:
        raise argparse.ArgumentTypeError("it has to be above 0")
    return number


LARGEST = "largest"


def gain(word: str) -> Gain:
    """What to multiply with before rounding: a number above 0, ``soft``, or ``largest``, which is None."""
    if word in (FOR_SOFT, LARGEST):
        return FOR_SOFT if word == FOR_SOFT else None
    return positive(word)


def level(word: str) -> float:
    """A level in dBm."""
    try:
        number = float(word)
    except ValueError:
        number = float("nan")
    if not abs(number) <= 300:
        raise argparse.ArgumentTypeError(f"{word} is no level from -300 to 300 dBm")
    return number


def ratios(text: str) -> Tuple[float, ...]:
    """Ratios in dB, as 0:20:5 or 3,7.5,12."""
    try:
        if ":" in text:
            first, last, step = (float(word) for word in text.split(":"))
            if not step > 0 or not np.isfinite((first, last, step)).all() or (last - first) / step > 1000:
                raise ValueError
            count = int((last - first) / step + 1e-9) + 1 if last >= first else 0
            found = [first + step * n for n in range(count)]
        else:
            found = [float(word) for word in text.split(",")]
    except ValueError:
        raise argparse.ArgumentTypeError(f"{text} is neither FIRST:LAST:STEP nor numbers set apart by commas") from None
    if len(found) == 0 or not np.isfinite(found).all() or np.max(np.abs(found)) > 300:
        raise argparse.ArgumentTypeError(f"{text} gives no ratios from -300 to 300 dB")
    return tuple(found)


def profile(text: str) -> Tuple[Tuple[float, float], ...]:
    """A delay profile, as 0:0,50:-3 in ns and dB."""
    try:
        return profile_of(text)
    except InputError as error:
        raise argparse.ArgumentTypeError(str(error)) from None


def part(text: str) -> Tuple[int, int]:
    """Part K of N, as K/N."""
    number, _, count = text.partition("/")
    if not all(word.isascii() and word.isdigit() and len(word) <= 18 for word in (number, count)) or not 1 <= int(number) <= int(count):
        raise argparse.ArgumentTypeError(f"{text} is no part as K/N, with K from 1 to N")
    return int(number), int(count)


def add_setting(command: argparse.ArgumentParser) -> None:
    """The options that a sweep and an example have in common."""
    setting = Setting()
    command.add_argument("--bandwidth", type=int, choices=(20, 40), default=setting.bandwidth, help="in MHz (default 20)")
    command.add_argument("--mcs", type=whole, default=setting.mcs, help="0 to 31 (default 9)")
    command.add_argument("--length", type=whole, default=setting.length, help="octets of a frame (default 100)")
    command.add_argument("--antennas", type=positive_whole, default=setting.antennas, help="receive antennas (default: as many as streams)")
    command.add_argument("--decay", type=not_negative, help=f"samples by which the power of the taps of {EXPONENTIAL} falls by e (default 2)")
    command.add_argument("--channel", metavar="CHANNEL", default=setting.channel,
                         help=f"{', '.join(CHANNELS)}, or a function as FILE.py:NAME (default {setting.channel})")
    command.add_argument("--profile", metavar="NS:DB,..", type=profile, default=setting.profile, help="of the channel tapped, as 0:0,50:-3,110:-7.5")
    command.add_argument("--estimate", choices=ESTIMATES, default=setting.estimate, help="what the receiver knows of the channel (default perfect)")
    command.add_argument("--seed", type=whole, default=setting.seed, help="of the random numbers (default 1)")


def add_workers(command: argparse.ArgumentParser) -> None:
    """The options that say who does the work."""
    command.add_argument("--processes", metavar="N", type=positive_whole, help="how many share the work (default: one for each processor)")
    command.add_argument("--scheduler", metavar="ADDRESS", help="let the workers of this scheduler of dask.distributed do it, as tcp://HOST:8786")


def add_part(command: argparse.ArgumentParser, what: str) -> None:
    """The option that asks for a part."""
    command.add_argument("--part", metavar="K/N", type=part, default=(1, 1), help=f"do part K of N alone: {what}")


def add_tables(command: argparse.ArgumentParser) -> None:
    """The options that write records."""
    command.add_argument("--csv", metavar="FILE", help="write a table as CSV")
    command.add_argument("--json", metavar="FILE", help="write the same records as JSON lines")


def refuse_both(given: argparse.Namespace) -> None:
    """Refuse a number of processes where a scheduler's workers do the work."""
    if given.scheduler is not None and given.processes is not None:
        raise InputError("--processes is said of this machine, and with --scheduler its workers do the work")


def refuse_idle(given: argparse.Namespace, name: str, idle: object, why: str) -> None:
    """Refuse an option that does nothing here, with the reason."""
    if idle and getattr(given, name) is not None:
        raise InputError(f"--{name.replace('_', '-')} does nothing here: {why}")


def refuse_tables(given: argparse.Namespace) -> None:
    """Refuse tables that are there already, before work is done for them."""
    for path in (given.csv, given.json):
        if path:
            refuse_overwriting(path, given.force)


def write_tables(given: argparse.Namespace, records: Union[Sequence[Mapping[str, Any]], Records], columns: Sequence[str],
                 behind: Sequence[Mapping[str, Any]] = ()) -> None:
    """Write the tables that are asked for; ``behind`` stands behind the records as JSON alone."""
    if given.csv:
        write_csv(given.csv, records, columns, given.force)
    if given.json:
        write_json_lines(given.json, chain(records, behind), given.force)


def setting_of(given: argparse.Namespace, frames: int) -> Setting:
    """The setting that these options give."""
    if given.decay is not None and given.channel != EXPONENTIAL:
        raise InputError(f"--decay is that of the channel {EXPONENTIAL}, and does nothing to {given.channel}")
    if given.profile and given.channel != TAPPED:
        raise InputError(f"--profile is that of the channel {TAPPED}, and does nothing to {given.channel}")
    decay = Setting().decay if given.decay is None else given.decay
    setting = Setting(given.bandwidth, given.mcs, given.length, given.snr, frames, given.antennas, decay, given.estimate, given.seed,
                      given.channel, given.profile, getattr(given, "errors", 0), getattr(given, "chunk", 1))
    setting.check()
    return setting


def receiver_of(program: Optional[str]) -> Union[Inside, Radio]:
    """The library, which is said, where it is there and no program is named; and else the program."""
    found = receiver(program)
    said = f"the reference is that of the proved library {found.path}" if isinstance(found, Inside) else unheeded(program)
    if said:
        print(f"mizgaure: {said}", file=sys.stderr)
    return found


# progress

class WatchedStream:
    """A stream with a bar that shows how far it was read; none where lines go to a terminal, which show it themselves.

    Parameters
    ----------
    stream : binary stream
    label : str
    """

    def __init__(self, stream: BinaryIO, label: str) -> None:
        self.bar = Progress(octets_left(stream), label, sys.stderr.isatty() and not sys.stdout.isatty())
        self._stream = stream

    def read(self, count: int = -1) -> bytes:
        """As that of the stream."""
        piece = self._stream.read(count)
        self.bar.add(len(piece))
        return piece


@contextmanager
def watching(source: str, label: str) -> Iterator[BinaryIO]:
    """Open a file for reading, ``"-"`` being standard input, with a bar while the block lasts."""
    with reading(source) as stream:
        watched = WatchedStream(stream, label)
        try:
            yield cast(BinaryIO, watched)
        finally:
            watched.bar.close()


def counted(items: Iterable[Item], count: int, label: str, printing: bool = False) -> Iterator[Item]:
    """Items as they come, with a bar that shows how many of so many were done; none where lines are printed to a terminal."""
    bar = Progress(count, label, sys.stderr.isatty() and not (printing and sys.stdout.isatty()), " frames")
    try:
        for item in items:
            yield item
            bar.add(1)
    finally:
        bar.close()


# files

def write_arrays(stream: BinaryIO, arrays: Mapping[str, Any]) -> None:
    """Write an archive of arrays (.npz): whole, since an archive that can't be written to its end would complain when it is dropped."""
    made = io.BytesIO()
    np.savez(made, **arrays)
    stream.write(made.getbuffer())


def frames_of(source: Source, name: str) -> Iterator[CaptureFrame]:
    """The frames of a capture, with the file's name in front of what is said of it."""
    with naming(name):
        yield from read_htcp(source)


def held(source: str) -> Source:
    """A source that can be read twice: the path, or the octets of standard input."""
    if source != "-":
        return source
    with reading(source) as stream:
        return stream.read()


def kept_answers(path: str) -> Tuple[List[Jobs], List[FrameAnswer]]:
    """The answers in kept lines of the program: those to jobs, frame by frame, and those of frames."""
    with naming(path):
        answers = read_answers(path)
        records = list(answers)
        if isinstance(answers.last, Refused):
            raise InputError("these answers are to an input that is no capture")
    return [r for r in records if isinstance(r, Jobs)], [r for r in records if isinstance(r, FrameAnswer)]


def name_of(path: Optional[str]) -> str:
    """A file's name for a title; nothing for standard input and output."""
    return "" if not path or path == "-" else Path(path).name


# what is said

def octets(count: int) -> str:
    """A number of octets in words."""
    return "1 octet" if count == 1 else f"{count} octets"


def unheard(frame: CaptureFrame) -> str:
    """What is to be said of a frame whose diagonals are all 0: every vector of it is as near as some others."""
    return "" if np.einsum("cii->ci", frame.triangles).any() else ", all diagonals are 0: the numbers are too small, or nothing was received"
