"""Recordings of complex samples, opened and written.

A recording is SigMF (`mizgaure.air.sigmf`), an array of another program (`mizgaure.air.arrays`), or a raw file of interleaved I
and Q, in which the samples of several channels, one for each antenna, stand one behind the other for every instant; the type,
rate and number of channels of the last are said beside it. Samples are read in pieces, so a recording may be of any length.
"""

from __future__ import annotations

import json
import os
import stat
import sys
from dataclasses import dataclass, field
from typing import Any, BinaryIO, Dict, List, Optional, Sequence, Union

import numpy as np

from .. import __version__
from ..errors import InputError
from ..files import refuse_overwriting, writing
from .arrays import MAT, is_array, open_mat, open_npy
from .samples import ENDLESS, MOST_CHANNELS, TYPES, Joined, Layout, Piped, Recording, Segment
from .sigmf import ARCHIVE, COLLECTION, DATA, META, Folder, base_name, empty, name_of, open_archive, open_collection, open_sigmf

__all__ = ["ENDLESS", "MOST_CHANNELS", "TYPES", "WRITTEN", "Joined", "Layout", "Piped", "Recording", "Segment", "Writer", "base_name",
           "name_of", "open_recording", "write_recording"]

WRITTEN = ("cf32_le", "ci16_le")
USUAL_RATE = 20e6


def open_recording(path: Union[str, Sequence[str]], raw: Optional[Layout] = None, frequency: Optional[float] = None, *,
                   rate: float = USUAL_RATE, variable: Optional[str] = None) -> Recording:
    """Open a recording.

    Parameters
    ----------
    path : str or sequence of str
        Of a raw file where ``raw`` is given, ``"-"`` being standard input; otherwise of either file of a SigMF recording, or
        their name without the ending, of a SigMF archive or collection, or of an array (.npy or .mat). Several are the
        antennas of one receiver.
    raw : Layout, optional
    frequency : float, optional
        The carrier's, in Hz, which goes before what the recording says.
    rate : float
        Samples a second of an array, which doesn't say it.
    variable : str, optional
        The name of an array in a .mat with several.

    Raises
    ------
    InputError
        If a file is missing or empty, or what it says of its samples can't be used.
    """
    if isinstance(path, str):
        return _open(path, raw, frequency, rate, variable)
    if len(path) > 1 and "-" in path:
        raise InputError("standard input is one recording, and so isn't an antenna beside others")
    opened: List[Recording] = []
    try:
        for each in path:
            opened.append(_open(each, raw, frequency, rate, variable))
        return opened[0] if len(opened) == 1 else Joined(opened)
    except BaseException:
        for recording in opened:
            recording.close()
        raise


def _open(path: str, raw: Optional[Layout], frequency: Optional[float], rate: float, variable: Optional[str]) -> Recording:
    if raw is not None:
        return _open_raw(path, raw, frequency)
    if path == "-":
        raise InputError("samples in standard input are raw, and --datatype says what they are")
    if is_array(path):
        return open_mat(path, rate, frequency, variable) if path.lower().endswith(MAT) else open_npy(path, rate, frequency)
    if path.endswith(COLLECTION):
        return open_collection(Folder(""), path, frequency)
    if path.endswith(ARCHIVE):
        return open_archive(path, frequency)
    base = base_name(path)
    if base == path and os.path.isfile(path) and not os.path.isfile(base + META):
        raise InputError(f"{path} is no SigMF recording (there is no {base + META}); "
                         f"of raw samples --datatype and --sample-rate say what they are")
    return open_sigmf(Folder(""), base, frequency)


def _open_raw(path: str, layout: Layout, frequency: Optional[float]) -> Recording:
    if path == "-":
        return Piped("standard input", sys.stdin.buffer, layout, frequency)
    try:
        stream = open(path, "rb")
    except OSError as error:
        raise InputError(f"{path} can't be read: {error.strerror}") from error
    try:
        mode = os.fstat(stream.fileno()).st_mode
        if stat.S_ISFIFO(mode) or stat.S_ISSOCK(mode):
            return Piped(path, stream, layout, frequency)
        if not stat.S_ISREG(mode):
            raise InputError(f"{path} is neither an ordinary file nor a pipe")
        recording = Recording(path, stream, layout, frequency)
        if not recording.length:
            raise InputError(empty(path, recording.rest, layout))
        return recording
    except OSError as error:
        stream.close()
        raise InputError(f"{path} can't be read: {error.strerror}") from error
    except BaseException:
        stream.close()
        raise


@dataclass
class Writer:
    """Samples on their way into a file.

    Parameters
    ----------
    stream : binary file
    layout : Layout
    length, clipped : int
        The instants written, and how many parts were beyond full scale.
    annotations : list of dict
        What SigMF is to say of them.
    bits : int, optional
        Of the converter, 2 to 16: parts are rounded to so many; by default to what the type holds.
    """

    stream: BinaryIO
    layout: Layout
    length: int = 0
    clipped: int = 0
    annotations: List[Dict[str, Any]] = field(default_factory=list)
    bits: Optional[int] = None

    def write(self, samples: np.ndarray) -> None:
        """Write samples of full scale 1: complex, shape (channels, instants). What is beyond full scale is clipped."""
        kind, scale, _ = TYPES[self.layout.datatype]
        parts = np.stack((samples.real, samples.imag), axis=-1).transpose(1, 0, 2)
        levels = scale if self.bits is None else 2.0 ** (self.bits - 1)
        if levels != 1:
            scaled = np.rint(parts * levels)
            parts = np.clip(scaled, -levels, levels - 1)
            self.clipped += int(np.count_nonzero(parts != scaled))
            parts *= scale / levels
        self.stream.write(np.ascontiguousarray(parts, kind).tobytes())
        self.length += samples.shape[1]


def write_recording(path: str, layout: Layout, fill, *, raw: bool = False, frequency: Optional[float] = None, description: str = "",
                    force: bool = False, bits: Optional[int] = None) -> Writer:
    """Write a recording: SigMF, or the samples alone. Either file appears once both are written.

    Parameters
    ----------
    path : str
        Of a raw file, or of a SigMF recording as in `open_recording`.
    layout : Layout
    fill : callable
        Called with a `Writer`, which takes the samples.
    raw : bool
        Whether the samples are written alone, under the name as it is.
    frequency : float, optional
        The carrier's, in Hz.
    description : str
        For people.
    force : bool
        Whether files that are there already are replaced.
    bits : int, optional
        As of `Writer`.

    Returns
    -------
    Writer

    Raises
    ------
    InputError
    """
    if path == "-" and not raw:
        raise InputError("a SigMF recording is two files, and so isn't written to standard output; --raw writes the samples alone")
    base = base_name(path)
    meta, data = (None, path) if raw else (base + META, base + DATA)
    for name in (meta, data):
        if name is not None:
            refuse_overwriting(name, force)
    with writing(data, force) as stream:
        writer = Writer(stream, layout, bits=bits)
        fill(writer)
        if meta is not None:
            stream.flush()  # before the metadata get their name
            with writing(meta, force) as beside:
                beside.write(_metadata(writer, frequency, description))
    return writer


def _metadata(writer: Writer, frequency: Optional[float], description: str) -> bytes:
    layout = writer.layout
    capture = {"core:sample_start": 0, **({} if frequency is None else {"core:frequency": frequency})}
    said = {"core:datatype": layout.datatype, "core:sample_rate": layout.rate, "core:num_channels": layout.channels,
            "core:version": "1.0.0", "core:description": description, "core:recorder": f"mizgaure tools {__version__}"}
    return json.dumps({"global": said, "captures": [capture], "annotations": writer.annotations}, indent=1).encode() + b"\n"
