"""Bundles of captures (HTMB), which ``radio many`` receives.

``docs/FORMATS.md`` of the repository has the fields. What stands in a bundle may be any octets: a capture that is spoiled is
refused in its own place, and never makes the bundle one.
"""

from __future__ import annotations

from typing import Iterator, Sequence

from .errors import InputError
from .files import Source, Target, reading, writing
from .formats import Fields

MAGIC = b"HTMB"
MOST = 16  # captures of a bundle
LARGEST = 2**32 - 1  # octets of a capture


def read_htmb(source: Source) -> Iterator[bytes]:
    """Read the captures of a bundle, one at a time.

    Parameters
    ----------
    source : path, ``"-"``, bytes or binary stream

    Raises
    ------
    FormatError
        Where it is read, at its first fault: ``BadMagic``, ``BadVersion``, ``BadCount``, ``Truncated`` or ``Trailing``.
    """
    with reading(source) as stream:
        fields = Fields(stream)
        fields.magic(MAGIC)
        fields.number(1, "BadVersion", range(1, 2))
        for _ in range(fields.number(1, "BadCount", range(1, MOST + 1))):
            yield fields.octets(fields.number(4))
        fields.end()


def write_htmb(target: Target, captures: Sequence[Source], *, force: bool = False) -> None:
    """Write the bundle of some captures.

    Parameters
    ----------
    target : path, ``"-"`` or binary stream
    captures : sequence of path, ``"-"``, bytes or binary stream
        1 to 16 of them, in the order of their numbers.
    force : bool
        Whether a file that is there already is replaced.

    Raises
    ------
    InputError
        If there are none or too many, one is too large, or a file can't be read or written.
    """
    if not 1 <= len(captures) <= MOST:
        raise InputError(f"a bundle has 1 to {MOST} captures, and not {len(captures)}")
    with writing(target, force) as sink:
        sink.write(MAGIC + bytes([1, len(captures)]))
        for number, capture in enumerate(captures):
            with reading(capture) as stream:
                octets = stream.read()
            if len(octets) > LARGEST:
                raise InputError(f"capture {number} has {len(octets)} octets, and in a bundle it has at most {LARGEST}")
            sink.write(len(octets).to_bytes(4, "big"))
            sink.write(octets)
