"""SigMF: recordings, archives and collections, and packets written back as annotations (Signal Metadata Format 1.x).

A recording is NAME.sigmf-meta (JSON) and NAME.sigmf-data, or the data that its metadata name. A collection,
NAME.sigmf-collection, names recordings that belong together, here the antennas of one receiver. An archive, NAME.sigmf, is a
tar file with either. Each field of the metadata that changes which samples are read, or what they are, is honoured or refused
by its name.
"""

from __future__ import annotations

import hashlib
import json
import os
import re
import tarfile
from dataclasses import dataclass
from datetime import datetime, timezone
from pathlib import Path
from typing import Any, Dict, List, Mapping, Optional, Sequence, Tuple

from ..errors import InputError
from ..files import writing
from .samples import PLAUSIBLE_RATE, Joined, Layout, Recording, Segment, Stretches

META, DATA, COLLECTION, ARCHIVE = ".sigmf-meta", ".sigmf-data", ".sigmf-collection", ".sigmf"
VERSION = re.compile(r"[01]\.[0-9]+(\.[0-9]+)?")
TIME = re.compile(r"(\d{4}-\d\d-\d\dT\d\d:\d\d:\d\d)(?:\.(\d+))?(?:Z|\+00:00)")
PIECE = 1 << 20


class Folder:
    """The files beside one another in a folder.

    Parameters
    ----------
    path : str
    """

    def __init__(self, path: str) -> None:
        self.path = path

    def called(self, name: str) -> str:
        """A file's name for messages."""
        return os.path.join(self.path, name)

    def stretches(self, name: str) -> Stretches:
        """A file, open for reading.

        Raises
        ------
        InputError
        """
        path = self.called(name)
        try:
            stream = open(path, "rb")
            if not stream.seekable():
                stream.close()
                raise InputError(f"{path} isn't an ordinary file, and a recording is read at more than one place")
            return Stretches(stream)
        except OSError as error:
            raise InputError(f"{path} can't be read: {error.strerror}") from error


class Archive(Folder):
    """The files in a SigMF archive.

    Parameters
    ----------
    path : str

    Raises
    ------
    InputError
        If it is no tar file, or one of its files can't be read where it stands.
    """

    def __init__(self, path: str) -> None:
        super().__init__(path)
        try:
            with tarfile.open(path, "r:") as archive:
                self.members = {os.path.normpath(member.name): member for member in archive.getmembers() if not member.isdir()}
        except OSError as error:
            raise InputError(f"{path} can't be read: {error.strerror}") from error
        except tarfile.TarError as error:
            raise InputError(f"{path} is no SigMF archive, which is an uncompressed tar file") from error

    def called(self, name: str) -> str:
        return f"{self.path}: {name}"

    def ending(self, ending: str) -> List[str]:
        """The names of the files with an ending."""
        return sorted(name for name in self.members if name.endswith(ending))

    def stretches(self, name: str) -> Stretches:
        member = self.members.get(os.path.normpath(name))
        if member is None:
            raise InputError(f"{self.called(name)} is missing")
        if not member.isreg() or member.issparse():
            raise InputError(f"{self.called(name)} isn't an ordinary file")
        return Stretches(open(self.path, "rb"), [(member.offset_data, member.size)])


@dataclass(frozen=True)
class Metadata:
    """What metadata say of their samples.

    Parameters
    ----------
    layout : Layout
    dataset : str, optional
        The name of the file of samples where that isn't the usual one.
    captures : tuple of Segment
        Their starts are numbers of the file, `offset` counted; empty where there is none.
    headers : tuple of int
        The octets in front of each capture's samples.
    trailing : int
        The octets behind the last sample.
    offset : int
        The number of the file's first sample.
    sha512 : str, optional
    """

    layout: Layout
    dataset: Optional[str] = None
    captures: Tuple[Segment, ...] = ()
    headers: Tuple[int, ...] = ()
    trailing: int = 0
    offset: int = 0
    sha512: Optional[str] = None


def read_json(octets: bytes, name: str, kind: str) -> Dict[str, Any]:
    """An object of a file of SigMF, by its name.

    Raises
    ------
    InputError
    """
    try:
        whole = json.loads(octets)
    except (ValueError, RecursionError) as error:
        raise InputError(f"{name} isn't JSON") from error
    said = whole.get(kind) if isinstance(whole, dict) else None
    if not isinstance(said, dict):
        raise InputError(f"{name} has no object {kind}, which {'the metadata' if kind == 'global' else 'a collection'} of SigMF "
                         f"{'have' if kind == 'global' else 'has'}")
    _check_version(said, name)
    return {**said, "captures": whole.get("captures", [])}


def read_metadata(octets: bytes, name: str) -> Metadata:
    """What metadata say.

    Parameters
    ----------
    octets : bytes
        Of a .sigmf-meta.
    name : str
        For messages.

    Raises
    ------
    InputError
        For each field that changes what is read and isn't as SigMF has it, or that asks for what isn't done here.
    """
    said = read_json(octets, name, "global")
    if said.get("core:metadata_only", False) is not False:
        raise InputError(f"{name} has core:metadata_only, so there are no samples")
    datatype, rate, channels = said.get("core:datatype"), said.get("core:sample_rate"), said.get("core:num_channels", 1)
    if not isinstance(datatype, str):
        raise InputError(f"{name} doesn't say the type of its samples (core:datatype)")
    if not _is_number(rate):
        raise InputError(f"{name} doesn't say how many samples there are in a second (core:sample_rate)")
    if not (_is_number(channels) and channels == int(channels)):
        raise InputError(f"{name}: core:num_channels isn't a whole number")
    layout = Layout(datatype, float(rate), int(channels))
    layout.check(name)
    dataset, digest = said.get("core:dataset"), said.get("core:sha512")
    if dataset is not None and not (isinstance(dataset, str) and dataset and os.path.basename(dataset) == dataset):
        raise InputError(f"{name}: core:dataset isn't the name of a file beside it")
    if digest is not None and not (isinstance(digest, str) and re.fullmatch("[0-9a-fA-F]{128}", digest)):
        raise InputError(f"{name}: core:sha512 isn't 128 hexadecimal digits")
    offset, trailing = _whole(said, "core:offset", name), _whole(said, "core:trailing_bytes", name)
    captures, headers = _captures(said["captures"], offset, name)
    return Metadata(layout, dataset, captures, headers, trailing, offset, digest and digest.lower())


def _captures(said: Any, offset: int, name: str) -> Tuple[Tuple[Segment, ...], Tuple[int, ...]]:
    if not (isinstance(said, list) and all(isinstance(capture, dict) for capture in said)):
        raise InputError(f"{name}: captures isn't an array of objects")
    segments, headers = [], []
    for number, capture in enumerate(said):
        where = f"{name}: of capture {number}"
        start = _whole(capture, "core:sample_start", where, offset if number == 0 else None)
        if start < (segments[-1].start if segments else offset):
            raise InputError(f"{where} core:sample_start is {start}, which is before {'the capture' if segments else 'the sample'} in front of it")
        frequency = capture.get("core:frequency")
        if frequency is not None and not _is_number(frequency):
            raise InputError(f"{where} core:frequency isn't a frequency")
        segments.append(Segment(start, float(frequency) if frequency and frequency > 0 else None, _time(capture.get("core:datetime"), where)))
        headers.append(_whole(capture, "core:header_bytes", where))
    return tuple(segments), tuple(headers)


def _time(said: Any, where: str) -> Optional[int]:
    """Nanoseconds since 1970."""
    if said is None:
        return None
    match = TIME.fullmatch(said) if isinstance(said, str) else None
    try:
        if match is None:
            raise ValueError
        whole = datetime.strptime(match.group(1), "%Y-%m-%dT%H:%M:%S").replace(tzinfo=timezone.utc)
    except ValueError:
        raise InputError(f"{where} core:datetime isn't a time as 2026-01-31T12:00:00.5Z") from None
    return int(whole.timestamp()) * 10**9 + int((match.group(2) or "0").ljust(9, "0")[:9])


def _whole(said: Mapping[str, Any], field: str, where: str, missing: Optional[int] = 0) -> int:
    value = said.get(field, missing)
    if not (isinstance(value, int) and not isinstance(value, bool) and 0 <= value < 1 << 62):
        raise InputError(f"{where}{'' if 'capture' in where else ':'} {field} isn't a whole number of at least 0")
    return value


def _check_version(said: Mapping[str, Any], name: str) -> None:
    """Refuse another major version, and extensions that a reader has to know."""
    version, extensions = said.get("core:version"), said.get("core:extensions", [])
    if version is not None and not (isinstance(version, str) and VERSION.match(version)):
        raise InputError(f"{name} has core:version {version}, and only 0 and 1 are known")
    if not isinstance(extensions, list):
        extensions = [{"name": extension} for extension in extensions] if isinstance(extensions, dict) else [extensions]
    for extension in extensions:
        if not (isinstance(extension, dict) and extension.get("optional") is True):
            called = extension.get("name") if isinstance(extension, dict) else extension
            raise InputError(f"{name} has the extension {called} in core:extensions, which isn't optional and isn't known")


def _is_number(value: Any) -> bool:
    return isinstance(value, (int, float)) and not isinstance(value, bool) and abs(value) < PLAUSIBLE_RATE


def base_name(path: str) -> str:
    """The common part of the names of a SigMF recording's files."""
    for ending in (META, DATA):
        if path.endswith(ending):
            return path[: -len(ending)]
    return path


def open_sigmf(folder: Folder, base: str, frequency: Optional[float] = None) -> Recording:
    """Open a recording.

    Parameters
    ----------
    folder : Folder
    base : str
        Its name in there.
    frequency : float, optional
        The carrier's, in Hz, which goes before what the metadata say.

    Raises
    ------
    InputError
    """
    octets = _whole_file(folder, base + META)
    meta = read_metadata(octets, folder.called(base + META))
    data = base + DATA if meta.dataset is None else os.path.join(os.path.dirname(base), meta.dataset)
    name, file = folder.called(data), folder.stretches(data)
    try:
        if meta.sha512 is not None and _digest(file) != meta.sha512:
            raise InputError(f"{name}: core:sha512 is that of other samples")
        parts, segments = _stretches(meta, file.size, name)
        if frequency is not None:
            segments = [Segment(segment.start, frequency, segment.time) for segment in segments]
        first = meta.captures[0].start if meta.captures else meta.offset
        recording = Recording(name, file.within(parts), meta.layout, segments=segments, first=first)
        if not recording.length:
            raise InputError(empty(name, recording.rest, meta.layout))
        return recording
    except OSError as error:
        file.close()
        raise InputError(f"{name} can't be read: {error.strerror}") from error
    except BaseException:
        file.close()
        raise


def empty(name: str, rest: int, layout: Layout) -> str:
    """What is said of a file without a whole sample."""
    return f"{name} has {rest} octets, and a sample takes {layout.octets}" if rest else f"{name} is empty"


def _stretches(meta: Metadata, size: int, name: str) -> Tuple[List[Tuple[int, int]], List[Segment]]:
    """Where the samples of the captures stand in a file, and the captures counted from the first one's first sample."""
    width, end = meta.layout.octets, size - meta.trailing
    captures, headers = meta.captures or (Segment(meta.offset),), meta.headers or (0,)
    begins, before = [], 0
    for capture, header in zip(captures, headers):
        before += header
        begins.append(before + (capture.start - meta.offset) * width)
    if end < 0 or begins[-1] > end:
        raise InputError(f"{name} has {size} octets, and its captures, headers and what is behind them take more")
    ends = [begin - header for begin, header in zip(begins[1:], headers[1:])] + [end]
    parts = [(begin, stop - begin) for begin, stop in zip(begins, ends)]
    return parts, [Segment(capture.start - captures[0].start, capture.frequency, capture.time) for capture in captures]


def _digest(file: Stretches) -> str:
    found = hashlib.sha512()
    for place in range(0, file.size, PIECE):
        found.update(file.read(place, PIECE))
    return found.hexdigest()


def _whole_file(folder: Folder, name: str) -> bytes:
    file = folder.stretches(name)
    try:
        return file.read(0, file.size)
    except OSError as error:
        raise InputError(f"{folder.called(name)} can't be read: {error.strerror}") from error
    finally:
        file.close()


def open_collection(folder: Folder, name: str, frequency: Optional[float] = None) -> Recording:
    """Open the recordings of a collection as the antennas of one.

    Raises
    ------
    InputError
        If it names none, or one whose metadata have another hash than it says.
    """
    called = folder.called(name)
    said = read_json(_whole_file(folder, name), called, "collection")
    streams = said.get("core:streams")
    if not (isinstance(streams, list) and streams and all(isinstance(stream, dict) for stream in streams)):
        raise InputError(f"{called} names no recording (core:streams)")
    opened: List[Recording] = []
    try:
        for stream in streams:
            base, digest = stream.get("name"), stream.get("hash")
            if not (isinstance(base, str) and base and os.path.basename(base) == base):
                raise InputError(f"{called}: core:streams has a recording without a name")
            base = os.path.join(os.path.dirname(name), base_name(base))
            if digest is not None and hashlib.sha512(_whole_file(folder, base + META)).hexdigest() != str(digest).lower():
                raise InputError(f"{called}: the hash of {base + META} is that of other metadata")
            opened.append(open_sigmf(folder, base, frequency))
        return opened[0] if len(opened) == 1 else Joined(opened)
    except BaseException:
        for recording in opened:
            recording.close()
        raise


def open_archive(path: str, frequency: Optional[float] = None) -> Recording:
    """Open the recording or the collection in an archive.

    Raises
    ------
    InputError
        If there is none, or more than one without a collection.
    """
    archive = Archive(path)
    collections, metas = archive.ending(COLLECTION), archive.ending(META)
    if len(collections) == 1:
        return open_collection(archive, collections[0], frequency)
    if len(metas) != 1:
        raise InputError(f"{path} holds {len(metas)} recordings" + (" without a collection" if metas else ""))
    return open_sigmf(archive, base_name(metas[0]), frequency)


def annotate(base: str, annotations: Sequence[Mapping[str, Any]], generator: str) -> None:
    """Write annotations into the metadata of a recording, in place of those that the same generator wrote before.

    Parameters
    ----------
    base : str
        The recording's name without an ending.
    annotations : sequence of mappings
    generator : str

    Raises
    ------
    InputError
    """
    path = base + META
    octets = _whole_file(Folder(os.path.dirname(path)), os.path.basename(path))
    read_json(octets, path, "global")
    whole = json.loads(octets)
    there = whole.get("annotations", [])
    if not (isinstance(there, list) and all(isinstance(note, dict) for note in there)):
        raise InputError(f"{path}: annotations isn't an array of objects")
    kept = [note for note in there if note.get("core:generator") != generator]
    made = [*kept, *({**note, "core:generator": generator} for note in annotations)]
    whole["annotations"] = sorted(made, key=lambda note: note.get("core:sample_start", 0))
    with writing(path, force=True) as stream:
        stream.write(json.dumps(whole, indent=1).encode() + b"\n")


def name_of(path: str) -> str:
    """A recording's name for a title."""
    return Path(base_name(path)).name
