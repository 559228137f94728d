"""``mizgaure answers``: the program's answers to a capture, kept as lines or as arrays."""

from __future__ import annotations

import argparse
import io
from typing import BinaryIO, Dict, Iterator, Sequence, cast

import numpy as np

from ..answers import Answers, FrameAnswer, Jobs, Refused, exact
from ..errors import FormatError, InputError, ProgramError
from ..files import naming, refuse_overwriting, writing
from ..program import Radio
from ..shards import texts
from ..workers import Workers
from .base import Command, add_part, add_workers, refuse_both, watching, write_arrays

PIECE = 1 << 16


def words(command: argparse.ArgumentParser) -> None:
    command.add_argument("capture", metavar="CAPTURE")
    command.add_argument("--command", choices=("detect", "rx"), default="detect", help="what radio does (default detect)")
    command.add_argument("-o", "--output", metavar="FILE", default="-", help="where to write; arrays where it ends in .npz, lines otherwise")
    add_workers(command)
    add_part(command, "of the frames, in a row; the parts' lines one behind the other are those of all")


def run(given: argparse.Namespace) -> None:
    refuse_both(given)
    refuse_overwriting(given.output, given.force)
    arrays = given.output.endswith(".npz")
    if arrays and given.part[1] > 1:
        raise InputError("a part has lines and no arrays: join the parts first")
    with naming(given.capture, FormatError):
        pieces = _pieces(given)
        with writing(given.output, given.force) as stream:
            if arrays:
                write_arrays(stream, _arrays(_records(given, pieces)))
                return
            last = b""
            for piece in pieces:
                stream.write(piece)
                last = (last + piece)[-100:]
            end = list(last.splitlines() or [b""])[-1]
            if end.startswith(b"refused "):
                _, kind, _, offset = end.decode().split()
                raise FormatError(kind, int(offset))


def _pieces(given: argparse.Namespace) -> Iterator[bytes]:
    """The text as it comes: by one run of the program where a stream is read as it comes, and otherwise by shards."""
    shared = given.scheduler is not None or given.processes or given.part[1] > 1
    if given.capture == "-" and not shared:
        return _streamed(given)
    return _shared(given)


def _streamed(given: argparse.Namespace) -> Iterator[bytes]:
    with Radio(given.radio).text(given.command, given.capture) as lines:
        while piece := lines.read1(PIECE):
            yield piece


def _shared(given: argparse.Namespace) -> Iterator[bytes]:
    path = given.radio if given.scheduler is not None else Radio(given.radio).path
    with watching(given.capture, f"radio {given.command}") as stream:
        yield from texts(given.command, stream, Workers(given.processes or None, given.scheduler), path, given.part)


class _Joined(io.RawIOBase):
    """Pieces of a text as a stream."""

    def __init__(self, pieces: Iterator[bytes]) -> None:
        self._pieces = pieces

    def read1(self, _: int = -1) -> bytes:
        return next((piece for piece in self._pieces if piece), b"")


def _records(given: argparse.Namespace, pieces: Iterator[bytes]) -> Sequence:
    answers = Answers(cast(BinaryIO, _Joined(pieces)))
    records = list(answers)
    if isinstance(answers.last, Refused):
        raise FormatError(answers.last.kind, answers.last.offset)
    if answers.last is None:
        raise ProgramError(f"radio {given.command} wrote no last line")
    return records


def _arrays(records: Sequence) -> Dict[str, np.ndarray]:
    """Answers as named arrays: for each frame N those of its jobs, or one entry for each frame of an rx."""
    arrays: Dict[str, np.ndarray] = {}
    decoded = [record for record in records if isinstance(record, FrameAnswer)]
    for jobs in records:
        if isinstance(jobs, Jobs):
            arrays.update({f"symbol{jobs.frame}": jobs.symbol, f"carrier{jobs.frame}": jobs.carrier,
                           f"distance{jobs.frame}": _numbers(jobs.distance), f"points{jobs.frame}": jobs.points})
    if decoded:
        for name in ("data", "pilot", "code"):
            arrays[name] = _numbers(exact(getattr(record, name) for record in decoded))
        arrays["octets"] = np.array(["" if record.octets is None else record.octets.hex() for record in decoded])
    return arrays


def _numbers(exact_numbers: np.ndarray) -> np.ndarray:
    """Whole numbers as an archive can hold them: int64, or their digits where one is 2**63 or more."""
    return exact_numbers if exact_numbers.dtype != object else np.array([str(number) for number in exact_numbers])


COMMAND = Command("answers", "run radio on a capture, with a progress bar, and keep its answers", words, run, radio=True, writes=True)
