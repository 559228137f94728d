"""Captures in shards of whole frames, and what the program says of a shard as a part of what it says of the capture.

What ``detect`` and ``rx`` write of a frame depends on that frame alone, but for its number. So the frames of a capture can be
divided among many runs of the program: each gets a shard, which is a capture of its own, the frames' numbers are put right
in its lines, and all but the last lose their last line. Joined in order this is the text of one run over the whole, octet
for octet. Where the input is no capture, the fault lies behind the whole frames before it and goes to the program with the
last shard; only its offset is put right. The shards look at no field that the program refuses.
"""

from __future__ import annotations

import io
from dataclasses import dataclass
from typing import BinaryIO, Iterator, List, Optional, Tuple

from .errors import InputError, ProgramError
from .files import Source, reading
from .program import Radio
from .rates import Rate
from .workers import TRIES, Workers

HEAD = 7  # octets in front of the first frame
SHARD = 1 << 18  # octets of a shard, or one frame where that is longer
COMMANDS = {"detect": b"job", "rx": b"frame"}


@dataclass(frozen=True)
class Shard:
    """Some frames of a capture.

    Parameters
    ----------
    first : int
        The number of the first one.
    count : int
        How many are whole.
    start : int
        The offset of the first one in the capture.
    octets : bytes
        A capture of these frames; in the last shard what stands behind them up to a fault, too.
    total : int or None
        In the last shard the number of frames that the capture's head says; None in all others.
    """

    first: int
    count: int
    start: int
    octets: bytes
    total: Optional[int] = None


def shards(source: Source, size: int = SHARD, part: Tuple[int, int] = (1, 1)) -> Iterator[Shard]:
    """Cut a capture.

    Parameters
    ----------
    source : path, ``"-"``, bytes or binary stream
        Read from front to back, a shard at a time.
    size : int
        A shard ends with the frame that brings it to so many octets.
    part : (int, int)
        Part K of N: the frames from T (K - 1) / N on, of T in all, up to those of the next part; rounded down.

    Yields
    ------
    Shard
        The last part has the end, and the part of a fault whatever stands behind the whole frames before it.
    """
    number, parts = part
    with reading(source) as stream:
        head = _take(stream, HEAD)
        if len(head) < HEAD or head[:4] != b"HTCP" or head[4] not in (1, 2):
            if number == 1:
                yield Shard(0, 0, HEAD, head, 0)
            return
        version, total = head[4], int.from_bytes(head[5:], "big")
        begin, end = total * (number - 1) // parts, total * number // parts
        start = HEAD
        for _ in range(begin):
            octets, whole = _frame(stream, version)
            if not whole:
                return  # the fault is in a part before this one
            start += len(octets)
        frames: List[bytes] = []
        first, held = begin, 0
        while first + len(frames) < end:
            octets, whole = _frame(stream, version)
            if not whole:
                yield Shard(first, len(frames), start, _capture(head, len(frames) + 1, [*frames, octets]), total)
                return
            frames.append(octets)
            held += len(octets)
            if held >= size and first + len(frames) < total:
                yield Shard(first, len(frames), start, _capture(head, len(frames), frames))
                first, start, held, frames = first + len(frames), start + held, 0, []
        if number == parts:
            # An octet behind the last frame is a fault, and what stands behind it isn't looked at.
            yield Shard(first, len(frames), start, _capture(head, len(frames), [*frames, _take(stream, 1)]), total)
        elif frames:
            yield Shard(first, len(frames), start, _capture(head, len(frames), frames))


def rates_of(source: Source) -> Iterator[Rate]:
    """The rates of the whole frames of a capture, up to its first fault."""
    for shard in shards(source):
        stream = io.BytesIO(shard.octets[HEAD:])
        for _ in range(shard.count):
            octets, _ = _frame(stream, shard.octets[4])
            yield Rate((20, 40)[octets[0]], octets[1])


def _capture(head: bytes, count: int, pieces: List[bytes]) -> bytes:
    return head[:5] + count.to_bytes(2, "big") + b"".join(pieces)


def _take(stream: BinaryIO, count: int) -> bytes:
    """The next octets, fewer than asked for only where the input ends."""
    pieces, left = [], count
    while left and (piece := stream.read(left)):
        pieces.append(piece)
        left -= len(piece)
    return b"".join(pieces)


def _frame(stream: BinaryIO, version: int) -> Tuple[bytes, bool]:
    """The octets of the next frame, and whether it is whole. One that isn't has the octets up to its fault or the end."""
    head = _take(stream, 4)
    length = int.from_bytes(head[2:], "big")
    if len(head) < 4 or head[0] > 1 or head[1] > 31 or length == 0:
        return head, False
    rate = Rate((20, 40)[head[0]], head[1])
    triangle = 2 * rate.streams**2
    pieces, present = [head], rate.subcarriers
    if version == 2:
        present = 0
        for _ in range(rate.subcarriers):
            flag = _take(stream, 1)
            pieces.append(flag)
            if flag == b"\0":
                pieces.append(_take(stream, triangle))
                present += 1
            elif flag != b"\1":
                return b"".join(pieces), False
        if present == 0:
            return b"".join(pieces), False
        asked = 0
    else:
        asked = rate.subcarriers * triangle
    asked += rate.symbols(length) * present * rate.streams * 8
    body = _take(stream, asked)
    return b"".join((*pieces, body)), len(body) == asked


@dataclass(frozen=True)
class Task:
    """A shard for a worker: the program's command and path, and the threads that the program may use."""

    command: str
    radio: Optional[str]
    shard: Shard


def shard_text(task: Task) -> bytes:
    """What the program's text over a whole capture has of a shard: the lines of its frames, and in the last one the last line."""
    shard = task.shard
    text = _run(task)
    lines, _, last = text[:-1].rpartition(b"\n")
    lines = renumbered(lines + b"\n" if lines else b"", COMMANDS[task.command], shard.first)
    if shard.total is None:
        return lines
    if last.startswith(b"refused "):
        front, _, offset = last.rpartition(b" ")
        return lines + front + b" %d\n" % (int(offset) - HEAD + shard.start)
    return lines + b"end %d frames\n" % shard.total


def _run(task: Task) -> bytes:
    """What the program writes of the shard; a run that was killed is done again."""
    for left in range(TRIES - 1, -1, -1):
        try:
            with Radio(task.radio, progress=False, workers=1).text(task.command, task.shard.octets) as output:
                return output.read()
        except ProgramError as error:
            if not left or "was ended by signal 9" not in str(error):
                raise
    raise AssertionError("the last try returns or raises")


def renumbered(text: bytes, word: bytes, first: int) -> bytes:
    """Lines of frames from 0 on as lines of frames from ``first`` on: the lines of a frame stand together, in order."""
    if first == 0:
        return text
    text = b"\n" + text
    pieces, at, frame = [], 0, 0
    while at < len(text):
        end = text.find(b"\n%b %d " % (word, frame + 1), at)
        end = len(text) if end < 0 else end
        pieces.append(text[at:end].replace(b"\n%b %d " % (word, frame), b"\n%b %d " % (word, first + frame)))
        at, frame = end, frame + 1
    return b"".join(pieces)[1:]


def texts(command: str, source: Source, workers: Workers, radio: Optional[str] = None, part: Tuple[int, int] = (1, 1),
          size: int = SHARD) -> Iterator[bytes]:
    """The program's text over a capture, in pieces as they come.

    Parameters
    ----------
    command : str
        ``"detect"`` or ``"rx"``.
    source : path, ``"-"``, bytes or binary stream
        A capture.
    workers : Workers
    radio : str, optional
        The path of the program where the workers are; by default each finds it for itself.
    part : (int, int)
        Part K of N, as in `shards`; the texts of all parts one behind the other are the whole text.
    size : int
        The octets of a shard.

    Raises
    ------
    InputError
        If there is no such command, or the part is none.
    ProgramError
        If the program isn't there or fails.
    """
    if command not in COMMANDS:
        raise InputError(f"{command} isn't one of {', '.join(COMMANDS)}")
    number, count = part
    if not 1 <= number <= count:
        raise InputError(f"part {number} of {count} isn't one of them")
    for _, text in workers.run(shard_text, (Task(command, radio, shard) for shard in shards(source, size, part)), threads=True):
        yield text
