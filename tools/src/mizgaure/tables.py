"""Records for other programs: JSON lines, and CSV with a head line."""

from __future__ import annotations

import csv
import json
import math
import pickle
import tempfile
from contextlib import contextmanager
from typing import Any, BinaryIO, Dict, Iterable, Iterator, Mapping, Sequence

import numpy as np

from .errors import InputError
from .files import Target, writing


def plain(value: Any) -> Any:
    """A value as JSON has it: arrays as lists, numbers of numpy as Python's, and None for what isn't finite."""
    if isinstance(value, np.ndarray):
        return [plain(part) for part in value]
    if isinstance(value, np.generic):
        value = value.item()
    if isinstance(value, float) and not math.isfinite(value):
        return None
    return value


@contextmanager
def _naming_the_folder() -> Iterator[None]:
    """Name the folder of temporary files where one can't be written."""
    try:
        yield
    except OSError as error:
        raise InputError(f"a temporary file in {tempfile.gettempdir()} can't be written: {error.strerror}") from error


class Records:
    """Records kept in a file of their own until they are written, so that memory doesn't grow with their number."""

    def __init__(self) -> None:
        with _naming_the_folder():
            self._file = tempfile.TemporaryFile()

    def append(self, record: Mapping[str, Any]) -> None:
        """Keep one more, behind the others."""
        with _naming_the_folder():
            pickle.dump(record, self._file)

    def __iter__(self) -> Iterator[Mapping[str, Any]]:
        with _naming_the_folder():
            self._file.flush()
        end = self._file.tell()
        self._file.seek(0)
        while self._file.tell() < end:
            yield pickle.load(self._file)


class _Octets:
    """Text that goes into a binary stream."""

    def __init__(self, stream: BinaryIO) -> None:
        self._stream = stream

    def write(self, text: str) -> None:
        self._stream.write(text.encode())


def write_json_lines(target: Target, records: Iterable[Mapping[str, Any]], force: bool = False) -> None:
    """Write records, one a line, as JSON.

    Parameters
    ----------
    target : path, ``"-"`` or binary stream
    records : iterable of mappings
        Values may be arrays; numbers that aren't finite stand as null.
    force : bool
        Whether a file that is there already is replaced.
    """
    with writing(target, force) as stream:
        for record in records:
            stream.write(json.dumps({name: plain(value) for name, value in record.items()}).encode() + b"\n")


def write_csv(target: Target, rows: Iterable[Mapping[str, Any]], columns: Sequence[str], force: bool = False) -> None:
    """Write rows as CSV (RFC 4180 with line feeds) under a line with the names of the columns.

    Parameters
    ----------
    target, force
        As in `write_json_lines`.
    rows : iterable of mappings
        What a row lacks, None, and numbers that aren't finite stand as nothing; true and false as they are.
    columns : sequence of str
    """
    with writing(target, force) as stream:
        table = csv.DictWriter(_Octets(stream), columns, restval="", lineterminator="\n")
        table.writeheader()
        for row in rows:
            table.writerow({name: _cell(value) for name, value in row.items()})


def _cell(value: Any) -> Any:
    value = plain(value)
    return {None: "", True: "true", False: "false"}[value] if value is None or isinstance(value, bool) else value


def rate_columns(name: str, rate: Any) -> Dict[str, Any]:
    """A rate as columns: its events, its trials, its value and the ends of its interval."""
    low, high = rate.interval
    return {f"{name}_errors": rate.events, f"{name}_trials": rate.trials, name: rate.value, f"{name}_low": low, f"{name}_high": high}
