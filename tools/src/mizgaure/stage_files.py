"""Stages of the chain as files: text in the manner of the standard's annex, CSV, archives of arrays (.npz and .mat), and
words for ``$readmemh`` of Verilog. `mizgaure.stages` makes them.
"""

from __future__ import annotations

import os
import struct
from dataclasses import dataclass
from typing import Any, BinaryIO, Callable, Dict, Iterable, Iterator, List, Mapping, Optional

import numpy as np

from .errors import InputError
from .files import Target, writing
from .tables import write_csv

BITS, LABELS, POINTS, OCTETS, SAMPLES = "bits", "labels", "points", "octets", "samples"  # what a stage's values are
LIBRARY, PROGRAM, TOOLS = "library", "program", "tools"  # where they come from
ERASED_BIT, ERASED_LABEL = 2, 255
COLUMNS = ("frame", "stage", "source", "symbol", "encoder", "stream", "chain", "subcarrier", "index", "value", "i", "q")
SOURCES = {LIBRARY: "by the proved library", PROGRAM: "by the proved program radio", TOOLS: "by these tools, tested and not proved"}
FRACTION = 1024  # units of a sample's part in a word
WORDS = {POINTS: "; I and Q of 8 bits each", SAMPLES: f"; I and Q of 16 bits each in units of 1/{FRACTION}"}


@dataclass(eq=False)
class Stage:
    """What one stage has for a frame.

    Parameters
    ----------
    name : str
        As ``"scrambled"``.
    text : str
        What it is, with the clause.
    kind : str
        BITS (uint8, with ERASED_BIT where nothing is known), LABELS (uint8, with ERASED_LABEL), POINTS (int8, a last axis of I
        and Q, not normalised), OCTETS (uint8) or SAMPLES (complex128).
    axes : dict of str to ndarray
        The name of each axis, in order, and the numbers of its places. Streams and transmit chains count from 1, subcarriers as
        the standard does, all else from 0.
    values : ndarray
        Over these axes; points have one axis more.
    source : str
        LIBRARY, PROGRAM or TOOLS.
    factors : ndarray of float64, optional
        Of points: what each subcarrier's are multiplied with when they are sent, K_MOD, or 1 of pilots (clause 18.3.5.8).
    """

    name: str
    text: str
    kind: str
    axes: Dict[str, np.ndarray]
    values: np.ndarray
    source: str = LIBRARY
    factors: Optional[np.ndarray] = None


@dataclass(eq=False)
class Staged:
    """A frame with its stages.

    Parameters
    ----------
    number : int
        Of the frame in its file, from 0.
    text : str
        Its rate, length and seed in words.
    numbers : dict of str to int
        The same as numbers.
    stages : list of Stage
    left_out : list of str
        The stages that it lacks, each with the reason.
    """

    number: int
    text: str
    numbers: Dict[str, int]
    stages: List[Stage]
    left_out: List[str]


# text

def write_text(stream: Any, staged: Staged) -> None:
    """Write a frame's stages as text: bits in groups of eight behind the number of the first, points and samples four on a line."""
    print(f"frame {staged.number}: {staged.text}", file=stream)
    for stage in staged.stages:
        print(f"\n{stage.name}: {stage.text}; {SOURCES[stage.source]}", file=stream)
        for name, line in _lines(stage):
            print(f"{name}{line}", file=stream)
    for reason in staged.left_out:
        print(f"\n{reason}", file=stream)
    print(file=stream)


def _lines(stage: Stage) -> Iterator[tuple[str, str]]:
    """The lines of a stage, each row of places under the numbers of the other axes: a heading has an empty line of values."""
    axis = "subcarrier" if "subcarrier" in stage.axes else "index"
    others = [name for name in stage.axes if name != axis]
    values = np.moveaxis(stage.values, list(stage.axes).index(axis), len(others))
    show: Callable[..., Iterator[str]] = {BITS: _bits, LABELS: _labels, POINTS: _points, OCTETS: _octets, SAMPLES: _samples}[stage.kind]
    for place in np.ndindex(*values.shape[: len(others)]):
        if others:
            yield ", ".join(f"{name} {stage.axes[name][at]}" for name, at in zip(others, place)), ""
        for line in show(values[place], stage.axes[axis], stage.factors):
            yield "  ", line


def _bits(bits: np.ndarray, *_: Any) -> Iterator[str]:
    digits = "".join(np.array(("0", "1", "x"))[bits])
    for first in range(0, len(digits), 64):
        row = digits[first : first + 64]
        yield f"{first:6}  " + " ".join(row[n : n + 8] for n in range(0, len(row), 8))


def _octets(octets: np.ndarray, *_: Any) -> Iterator[str]:
    for first in range(0, len(octets), 16):
        yield f"{first:6}  {octets[first : first + 16].tobytes().hex(' ')}"


def _rows(cells: List[str], count: int) -> Iterator[str]:
    for first in range(0, len(cells), count):
        yield "  ".join(cells[first : first + count])


def _labels(labels: np.ndarray, subcarriers: np.ndarray, _: Any) -> Iterator[str]:
    return _rows([f"{number:4} {_hex_label(label)}" for number, label in zip(subcarriers, labels)], 8)


def _points(points: np.ndarray, subcarriers: np.ndarray, factors: np.ndarray) -> Iterator[str]:
    """Each with its parts on the grid of odd numbers, and as they are sent."""
    return _rows([f"{number:4} {i:3}{q:3}{factor * i:7.3f}{factor * q:7.3f}" for number, (i, q), factor in zip(subcarriers, points, factors)], 4)


def _samples(samples: np.ndarray, numbers: np.ndarray, _: Any) -> Iterator[str]:
    return _rows([f"{number:6} {value.real:8.4f}{value.imag:8.4f}" for number, value in zip(numbers, samples)], 4)


def _hex_label(label: int) -> str:
    return "xx" if label == ERASED_LABEL else f"{label:02x}"


# tables and arrays

def write_stage_rows(target: Target, frames: Iterable[Staged], force: bool = False) -> None:
    """Write a row of CSV for each value: its frame, stage, source and place, and the value, or I and Q. What is erased has no value."""
    write_csv(target, (row for staged in frames for row in _records(staged)), COLUMNS, force)


def _records(staged: Staged) -> Iterator[Mapping[str, Any]]:
    for stage in staged.stages:
        shape = tuple(numbers.size for numbers in stage.axes.values())
        numbers = list(stage.axes.values())
        for place in np.ndindex(*shape):
            row = {"frame": staged.number, "stage": stage.name, "source": stage.source}
            row.update((name, int(each[at])) for name, each, at in zip(stage.axes, numbers, place))
            value = stage.values[place]
            if stage.kind == POINTS:
                row["i"], row["q"] = int(value[0]), int(value[1])
            elif stage.kind == SAMPLES:
                row["i"], row["q"] = float(value.real), float(value.imag)
            elif not (stage.kind, value) in ((BITS, ERASED_BIT), (LABELS, ERASED_LABEL)):
                row["value"] = int(value)
            yield row


def arrays_of(frames: Iterable[Staged]) -> Dict[str, np.ndarray]:
    """The arrays of frames by their names, as ``frame0_scrambled``, and the numbers of subcarriers and frames beside them."""
    made = {}
    for staged in frames:
        front = f"frame{staged.number}_"
        made.update((front + name, np.array(number)) for name, number in staged.numbers.items())
        for stage in staged.stages:
            made[front + stage.name] = stage.values
            if "subcarrier" in stage.axes:
                made[f"{front}{stage.name}_subcarrier"] = stage.axes["subcarrier"]
    return made


_CLASSES = {np.dtype(np.int8): (8, 1), np.dtype(np.uint8): (9, 2), np.dtype(np.int64): (12, 12), np.dtype(np.float64): (6, 9)}  # mx and mi


def write_mat(stream: BinaryIO, arrays: Mapping[str, np.ndarray]) -> None:
    """Write arrays as a MAT-file of level 5, uncompressed, which MATLAB, Octave and SciPy read. A row of numbers is a row there."""
    stream.write(b"MATLAB 5.0 MAT-file, stages of the chain of IEEE 802.11n".ljust(116) + bytes(8) + struct.pack("<H", 0x0100) + b"IM")
    for name, array in arrays.items():
        stream.write(_matrix(name, np.asarray(array)))


def _matrix(name: str, array: np.ndarray) -> bytes:
    parts = [array.real, array.imag] if array.dtype.kind == "c" else [array]
    parts = [np.asarray(part) for part in parts]
    shape = (1,) * (2 - array.ndim) + array.shape
    number, kind = _CLASSES[parts[0].dtype]
    flags = number | (0x0800 if len(parts) == 2 else 0)
    body = _element(6, struct.pack("<II", flags, 0)) + _element(5, struct.pack(f"<{len(shape)}i", *shape)) + _element(1, name.encode())
    return _element(14, body + b"".join(_element(kind, part.tobytes(order="F")) for part in parts))


def _element(kind: int, octets: bytes) -> bytes:
    return struct.pack("<II", kind, len(octets)) + octets + bytes(-len(octets) % 8)


# words for $readmemh

def write_words(folder: str, frames: Iterable[Staged], force: bool = False) -> int:
    """Write a file of words for each stage of each frame, as ``frame0-scrambled.mem``; gives their number.

    A bit is a digit and a label two, x where erased; a point is I and Q in two's complement of 8 bits each, a sample the same of
    16 bits in units of 1/1024. Remarks say what it is and in which order, the last axis being the fastest.
    """
    try:
        os.makedirs(folder, exist_ok=True)
    except OSError as error:
        raise InputError(f"{folder} can't be made: {error.strerror}") from error
    count = 0
    for staged in frames:
        for stage in staged.stages:
            with writing(os.path.join(folder, f"frame{staged.number}-{stage.name}.mem"), force) as stream:
                stream.write("\n".join((*_remarks(staged, stage), *_words(stage), "")).encode())
            count += 1
    return count


def _remarks(staged: Staged, stage: Stage) -> Iterator[str]:
    yield f"// frame {staged.number}: {staged.text}"
    yield f"// {stage.name}: {stage.text}; {SOURCES[stage.source]}"
    yield "// " + ", ".join(f"{name} {numbers[0]} to {numbers[-1]}" for name, numbers in stage.axes.items()) + WORDS.get(stage.kind, "")


def _words(stage: Stage) -> Iterable[str]:
    if stage.kind == BITS:
        return np.array(("0", "1", "x"))[stage.values.reshape(-1)]
    if stage.kind == LABELS:
        return map(_hex_label, stage.values.reshape(-1))
    if stage.kind == OCTETS:
        return (f"{octet:02x}" for octet in stage.values.reshape(-1))
    if stage.kind == POINTS:
        return (f"{i & 255:02x}{q & 255:02x}" for i, q in stage.values.reshape(-1, 2).tolist())
    parts = np.rint(FRACTION * np.ascontiguousarray(stage.values).reshape(-1, 1).view(float)).astype(int)
    return (f"{i & 65535:04x}{q & 65535:04x}" for i, q in parts.tolist())
