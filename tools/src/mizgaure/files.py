"""Files: opened for reading under their names, and written whole or not at all."""

from __future__ import annotations

import io
import os
import stat
import sys
import tempfile
from contextlib import contextmanager, redirect_stdout
from pathlib import Path
from typing import BinaryIO, Iterator, Optional, TextIO, Tuple, Type, Union, cast

from .errors import InputError

_data: Optional[TextIO] = None  # standard output where text is aside

Source = Union[str, os.PathLike, bytes, BinaryIO]
Target = Union[str, os.PathLike, BinaryIO]


@contextmanager
def reading(source: Source) -> Iterator[BinaryIO]:
    """Open octets for reading.

    Parameters
    ----------
    source : path, ``"-"``, bytes or binary stream
        ``"-"`` is standard input. A stream that is given stays open.

    Raises
    ------
    InputError
        If a file can't be opened.
    """
    if isinstance(source, (bytes, bytearray, memoryview)):
        yield io.BytesIO(source)
    elif hasattr(source, "read"):
        yield cast(BinaryIO, source)
    elif os.fspath(cast(str, source)) == "-":
        yield sys.stdin.buffer
    else:
        path = os.fspath(cast(str, source))
        try:
            stream = open(path, "rb")
        except OSError as error:
            raise InputError(f"{path} can't be read: {error.strerror}") from error
        with stream:
            yield stream


def repeatable(source: Source) -> Source:
    """A source that can be read more than once: what is neither octets nor an ordinary file is read and held."""
    if isinstance(source, (bytes, bytearray, memoryview)):
        return source
    if isinstance(source, (str, os.PathLike)) and os.fspath(source) != "-" and (os.path.isfile(source) or not os.path.exists(source)):
        return source
    with reading(source) as stream:
        return stream.read()


class _Rejoined(io.RawIOBase):
    """A stream with the octets in front that were taken from it."""

    def __init__(self, front: bytes, stream: BinaryIO) -> None:
        super().__init__()
        self._front, self._stream = front, stream

    def readable(self) -> bool:
        return True

    def read(self, count: int = -1) -> bytes:
        piece = self._taken(count)
        return piece + self._stream.read(count - len(piece) if count >= 0 else -1) if len(piece) != count else piece

    def read1(self, count: int = -1) -> bytes:
        """As `read`, from what is there already."""
        return self._taken(count) if self._front else getattr(self._stream, "read1", self._stream.read)(count)

    def _taken(self, count: int) -> bytes:
        """What is left of the front, at most so many octets."""
        piece, self._front = (self._front, b"") if count < 0 else (self._front[:count], self._front[count:])
        return piece


@contextmanager
def fronted(source: Source, count: int) -> Iterator[Tuple[bytes, BinaryIO]]:
    """Open octets for reading as `reading` does, and look at the first ones.

    Yields
    ------
    front : bytes
        So many octets, or fewer where there aren't more.
    stream : binary stream
        From the first octet on.
    """
    with reading(source) as stream:
        front = b""
        while len(front) < count and (piece := stream.read(count - len(front))):
            front += piece
        yield front, cast(BinaryIO, _Rejoined(front, stream))


@contextmanager
def naming(source: object, kind: Type[InputError] = InputError) -> Iterator[None]:
    """Put the name of a file in front of what is said of its content, in errors of a kind."""
    try:
        yield
    except kind as error:
        if isinstance(source, (str, os.PathLike)):
            name = "standard input" if os.fspath(source) == "-" else os.fspath(source)
            if not str(error).startswith(name):
                raise InputError(f"{name}: {error}") from error
        raise


@contextmanager
def writing(target: Target, force: bool = False) -> Iterator[BinaryIO]:
    """Open a file that appears under its name once all of it is written, and doesn't where the writing fails.

    Parameters
    ----------
    target : path, ``"-"`` or binary stream
        ``"-"`` is standard output. A stream that is given, standard output and what is no ordinary file, as ``/dev/null``,
        are written as they are.
    force : bool
        Whether a file that is there already is replaced.

    Raises
    ------
    InputError
        If the file is there already and ``force`` isn't given, or if it can't be written.
    """
    if hasattr(target, "write"):
        yield cast(BinaryIO, target)
        return
    name = os.fspath(cast(str, target))
    if name == "-":
        stream = (_data or sys.stdout).buffer
        yield stream
        stream.flush()
        return
    path = Path(name)
    try:
        if path.exists() and not path.is_file():
            with open(path, "wb") as stream:
                yield stream
            return
        refuse_overwriting(path, force)
        yield from _written_aside(path, force)
    except OSError as error:
        raise InputError(f"{name} can't be written: {error.strerror or error}") from error


@contextmanager
def text_aside() -> Iterator[None]:
    """Until the block is left, what is printed goes to standard error, and what `writing` gets for ``"-"`` to standard output."""
    global _data
    _data, before = sys.stdout, _data
    try:
        with redirect_stdout(sys.stderr):
            yield
        _data.flush()
    finally:
        _data = before


def refuse_overwriting(path: Target, force: bool) -> None:
    """Refuse a file that is there already, before work is done for it."""
    if force or not isinstance(path, (str, os.PathLike)) or os.fspath(path) == "-":
        return
    if os.path.isfile(path):
        raise InputError(f"{os.fspath(path)} is there already, and only --force overwrites it")


def _written_aside(path: Path, force: bool) -> Iterator[BinaryIO]:
    handle, aside = tempfile.mkstemp(prefix=f".{path.name}.", dir=path.parent)
    try:
        with open(handle, "wb") as stream:
            yield stream
        os.chmod(aside, _usual_mode(path))
        if force:
            os.replace(aside, path)
        else:
            _move_if_free(aside, path)
    finally:
        if os.path.exists(aside):
            os.unlink(aside)


def _usual_mode(path: Path) -> int:
    if path.exists():
        return stat.S_IMODE(path.stat().st_mode)
    mask = os.umask(0)
    os.umask(mask)
    return 0o666 & ~mask


def _move_if_free(aside: str, path: Path) -> None:
    try:
        os.link(aside, path)
    except FileExistsError:
        raise InputError(f"{path} is there already, and only --force overwrites it") from None
    except OSError:  # a file system without links
        refuse_overwriting(path, False)
        os.replace(aside, path)
