"""``mizgaure capture``: a capture from channels and received vectors in floating point."""

from __future__ import annotations

import argparse
import io
import sys
from typing import Dict, Mapping

import numpy as np

from ..errors import InputError
from ..files import naming, reading, refuse_overwriting
from ..formats import write_htcp
from ..quantise import MeasuredFrame, capture
from .base import Command, counted, gain, octets, unheard


def words(command: argparse.ArgumentParser) -> None:
    command.add_argument("frames", metavar="FRAME.npz", nargs="+",
                         help="a frame each: the arrays channel, received, bandwidth, mcs, length and, if any, erased")
    command.add_argument("-o", "--output", metavar="FILE", required=True, help="the capture (HTCP) to write; - is standard output")
    command.add_argument("--gain", type=gain, help="what to multiply with before rounding: a number, soft, which fits soft decisions, or largest, "
                                                   "which is the largest that fits (default)")
    command.add_argument("--format", type=int, choices=(1, 2), help="the version of the capture (default 1, and 2 where a subcarrier is erased)")


def run(given: argparse.Namespace) -> None:
    refuse_overwriting(given.output, given.force)
    made = []
    for number, path in enumerate(counted(given.frames, len(given.frames), "capture")):
        with naming(path):
            made.append(capture([measured(path, number)], given.gain, first=number))
    frames = [frame for part in made for frame in part.frames]
    write_htcp(given.output, frames, version=given.format, force=given.force)
    for path, frame, part in zip(given.frames, frames, made):
        print(f"{path}: {frame.rate}, {octets(frame.length)}, gain {part.gains[0]:.6g}, "
              f"the root of a distance is off by at most {part.bounds[0]:.3g}{unheard(frame)}", file=sys.stderr)


ASKED = ("channel", "received", "bandwidth", "mcs", "length")


def measured(path: str, number: int) -> MeasuredFrame:
    """The frame that an archive of arrays holds; its number is that of messages."""
    arrays = _arrays(path, number)
    missing = [name for name in ASKED if name not in arrays]
    if missing:
        raise InputError(f"frame {number}: there is no array {missing[0]}")
    whole = (_whole(number, name, arrays[name]) for name in ("bandwidth", "mcs", "length"))
    return MeasuredFrame(*whole, arrays["channel"], arrays["received"], arrays.get("erased"))


def _arrays(path: str, number: int) -> Dict[str, np.ndarray]:
    """The arrays of an archive that are asked for, by name."""
    with reading(path) as stream:
        try:
            loaded = np.load(io.BytesIO(stream.read()) if path == "-" else stream, allow_pickle=False)
        except MemoryError:
            raise
        except Exception as error:  # what numpy and zipfile raise at files that are none is no closed list
            raise InputError(f"frame {number}: this is no archive of arrays (.npz)") from error
        if isinstance(loaded, np.ndarray):
            raise InputError(f"frame {number}: this is one array, and an archive of arrays (.npz) is asked for")
        return {name: _array(loaded, number, name) for name in (*ASKED, "erased") if name in loaded.files}


def _array(archive: Mapping[str, np.ndarray], number: int, name: str) -> np.ndarray:
    """An array of an archive."""
    try:
        array = archive[name]
    except MemoryError:
        raise
    except Exception as error:
        raise InputError(f"frame {number}: {name} can't be read as an array of numbers") from error
    if not isinstance(array, np.ndarray):
        raise InputError(f"frame {number}: {name} can't be read as an array of numbers")
    return array


def _whole(number: int, name: str, array: np.ndarray) -> int:
    if array.size != 1 or array.dtype.kind not in "iu":
        raise InputError(f"frame {number}: {name} has to be one whole number")
    return int(array.reshape(-1)[0])


COMMAND = Command("capture", "make a capture from channels and received vectors in floating point", words, run, writes=True)
