"""The blocks of pcapng files (IETF draft-ietf-opsawg-pcapng), as far as packets need them.

A file is a row of sections, each with an order of octets of its own and its interfaces, whose link types and units of time
differ. Blocks of other kinds are passed over.
"""

from __future__ import annotations

import struct
from dataclasses import dataclass
from typing import BinaryIO, Iterator, List, Optional, Tuple

from .errors import FormatError, InputError

SECTION, INTERFACE, SIMPLE, ENHANCED = 0x0A0D0D0A, 1, 3, 6
ORDER = 0x1A2B3C4D
RESOLUTION, NANO = 9, 9  # the option that gives the unit of times, and its value for nanoseconds
LONGEST_BLOCK = 1 << 24


@dataclass(frozen=True)
class Interface:
    """What an interface's packets have in common: their link type, and their unit of time in units a second."""

    link: int
    units: int


def head(link: int) -> bytes:
    """The blocks in front of packets of a link type, with times in nanoseconds."""
    return _block(SECTION, struct.pack("<IHHq", ORDER, 1, 0, -1)) + _block(INTERFACE, struct.pack("<HHIHHB3xI", link, 0, 0, RESOLUTION, 1, NANO, 0))


def packet(octets: bytes, nanoseconds: int) -> bytes:
    """The block of a packet."""
    return _block(ENHANCED, struct.pack("<IIIII", 0, nanoseconds >> 32 & 0xFFFFFFFF, nanoseconds & 0xFFFFFFFF, len(octets), len(octets)) + octets)


def _block(kind: int, body: bytes) -> bytes:
    padded = body + bytes(-len(body) % 4)
    length = struct.pack("<I", 12 + len(padded))
    return struct.pack("<I", kind) + length + padded + length


def packets(stream: BinaryIO) -> Iterator[Tuple[int, bytes, int]]:
    """The packets of a file: link type, octets, and time in nanoseconds, 0 where there is none.

    Raises
    ------
    FormatError
        ``BadMagic`` where a section doesn't begin as one, ``Truncated`` where the file ends inside of a block.
    InputError
        If a block's lengths contradict each other, a packet was cut off, or its interface isn't there.
    """
    order, interfaces, at = "<", [], 0  # type: Tuple[str, List[Interface], int]
    while front := stream.read(8):
        order, body, kind = _body(stream, front, order, at)
        if kind == SECTION:
            interfaces = []
        elif kind == INTERFACE:
            interfaces.append(_interface(body, order, at))
        elif kind in (ENHANCED, SIMPLE):
            yield _packet(kind, body, order, interfaces, at)
        at += 12 + len(body)


def _body(stream: BinaryIO, front: bytes, order: str, at: int) -> Tuple[str, bytes, int]:
    """The order of octets, the body and the kind of a block whose first octets were read."""
    if front[:4] == SECTION.to_bytes(4, "little"):
        front += stream.read(4)
        order = next((found for found in "<>" if front[8:12] == struct.pack(found + "I", ORDER)), "")
        if not order and len(front) == 12:
            raise FormatError("BadMagic", at + 8)
    if len(front) < 8 or not order:
        raise FormatError("Truncated", at + len(front))
    kind, length = struct.unpack(order + "II", front[:8])
    if length % 4 or not 12 <= length <= LONGEST_BLOCK:
        raise InputError(f"the block at {at} says that it has {length} octets")
    rest = stream.read(length - len(front))
    if len(rest) < length - len(front):
        raise FormatError("Truncated", at + len(front) + len(rest))
    if rest[-4:] != front[4:8]:
        raise InputError(f"the block at {at} says at its end that it has another length")
    return order, front[8:] + rest[:-4], kind


def _interface(body: bytes, order: str, at: int) -> Interface:
    if len(body) < 8:
        raise InputError(f"the block at {at} is too short for an interface")
    link = struct.unpack(order + "H", body[:2])[0]
    value = _option(body[8:], order, RESOLUTION)
    exponent = 6 if not value else value[0] & 0x7F
    return Interface(link, (2 if value and value[0] & 0x80 else 10) ** exponent)


def _option(octets: bytes, order: str, wanted: int) -> Optional[bytes]:
    """The value of an option, None where there is none."""
    at = 0
    while at + 4 <= len(octets):
        number, length = struct.unpack(order + "HH", octets[at : at + 4])
        if number in (0, wanted):
            return octets[at + 4 : at + 4 + length] if number else None
        at += 4 + length + -length % 4
    return None


def _packet(kind: int, body: bytes, order: str, interfaces: List[Interface], at: int) -> Tuple[int, bytes, int]:
    size = 20 if kind == ENHANCED else 4
    if len(body) < size:
        raise InputError(f"the block at {at} is too short for a packet")
    number, high, low, taken, full = struct.unpack(order + "IIIII", body[:20]) if kind == ENHANCED else (0, 0, 0, len(body) - 4, 0)
    if kind == SIMPLE:
        full = struct.unpack(order + "I", body[:4])[0]
        taken = full if full + -full % 4 == taken else taken
    if number >= len(interfaces):
        raise InputError(f"the packet at {at} is of interface {number}, and there are {len(interfaces)}")
    if taken != full or size + taken > len(body):
        raise InputError(f"the packet at {at} has {taken} of {full} octets, and only whole ones are read")
    units = (high << 32 | low) * 10**9
    return interfaces[number].link, body[size : size + taken], units // interfaces[number].units
