"""The layers of the reference receiver as functions over numpy arrays: the proved library ``libmizgaure``, called in this process.

Each function is one call of the library, which ``mizgaure.h`` and docs/LIBRARY.md describe with their clauses of IEEE Std
802.11-2012. The library is proved; this module, which hands it arrays, is tested and not proved.

The library is looked for at ``MIZGAURE_LIBRARY``, then beside this file as ``libmizgaure.so.0``, and then by that name as the
system does. Importing this module fails with an ``ImportError`` where there is none, or one of other calls, and where a header that
comes with it, as in packages, declares another version, other calls or other faults.

Arrays of the right type, C-contiguous and aligned, are passed as they are; others are converted. An array that is written to, as an
``out`` is, and one for ``hits``, ``labels`` or ``sums``, is never converted, and shares memory with no other argument, but for
``scramble``. The interpreter's lock is let go during a call, so threads run side by side.
"""

from __future__ import annotations

import ctypes
import os
import re
import sys
from pathlib import Path
from typing import NamedTuple, Optional, Union

import numpy as np

from .declarations import Declarations, Signature, header_of, read_declarations
from .errors import InputError
from .rates import Rate

VERSION = 5

#: An entry of a channel above the diagonal. As the types below, it is laid out and aligned as in the header.
TAP = np.dtype([("re", "<i2"), ("im", "<i2")], align=True)
#: The triangular channel of a subcarrier: its diagonal, and the entries above it row by row (32 octets).
CHANNEL = np.dtype([("diagonal", "<u2", 4), ("above", TAP, 6)], align=True)
#: What was received on the rows of a subcarrier: real and imaginary parts (32 octets).
RECEIVED = np.dtype([("samples", "<i4", (4, 2))], align=True)
#: What was found for a subcarrier: a point (I, Q) for each stream, and the distance ``low + 2**64 * high`` (24 octets).
HIT = np.dtype([("points", "i1", (4, 2)), ("low", "<u8"), ("high", "<u8")], align=True)
#: A sum of squared distances: ``low + 2**64 * high`` (16 octets).
DISTANCE = np.dtype([("low", "<u8"), ("high", "<u8")], align=True)

#: What holds octets, as ``bytes`` and arrays of uint8 do.
Octets = Union[bytes, bytearray, memoryview, np.ndarray]

#: An output of several: True where it is wanted, False where it is left out, or the array that it is put into.
Wanted = Union[bool, np.ndarray]


class Fault(InputError):
    """A call did nothing; its class says why."""


class NoMemory(Fault, MemoryError):
    """Memory ran out."""


class NoRate(Fault):
    """The bandwidth and the MCS index name no rate."""


class NoPattern(Fault):
    """The puncturing pattern is none of 0 to 3."""


class NoSeed(Fault):
    """The seed is outside 1 to 127, or the bits are those of no seed."""


class BadLength(Fault):
    """An array has another length than the call asks for."""


class NoStream(Fault):
    """The rate has no such spatial stream."""


class NoRoom(Fault):
    """The output is longer than its array."""


class Refused(Fault):
    """The input is no file of its format.

    Attributes
    ----------
    kind : str
        The kind of its first fault, as ``Truncated``.
    offset : int
        The offset of the field at fault, or the input's length where it ends early.
    """

    def __init__(self, kind: str, offset: int) -> None:
        super().__init__(f"refused {kind} at {offset}")
        self.kind = kind
        self.offset = offset


class NoModulation(Fault):
    """No constellation has labels of so many bits: there are 1, 2, 4 and 6."""


class NoLabel(Fault):
    """A label has more bits than those of the constellation."""


class NoPoint(Fault):
    """A point is off the constellation."""


class NotCertified(Fault):
    """A certificate doesn't hold.

    Attributes
    ----------
    kind : str
        What is wrong with it, as ``WrongDistance`` (docs/CERTIFICATES.md).
    at : int
        The number that goes with that.
    """

    def __init__(self, kind: str, at: int) -> None:
        super().__init__(f"{kind} at {at}")
        self.kind = kind
        self.at = at


#: The faults by their numbers; 0 is none.
FAULTS = (
    None, NoMemory, NoRate, NoPattern, NoSeed, BadLength, NoStream, NoRoom, Refused, NoModulation, NoLabel, NoPoint, NotCertified,
)

#: What can be wrong with a certificate, by numbers (docs/CERTIFICATES.md).
FLAWS = ("", "OffGrid", "WrongDistance", "Early", "Better", "Short", "Long")

#: The kinds of refusals by their numbers (docs/FORMATS.md).
KINDS = (
    "", "BadMagic", "BadVersion", "BadBandwidth", "BadMcs", "BadLength", "Truncated", "Trailing", "BadSeed", "BadPoint", "BadPilot",
    "BadErased", "BadModulation", "BadStreams", "BadMark", "BadCount",
)


class _Pair(ctypes.Structure):
    _fields_ = [("low", ctypes.c_uint64), ("high", ctypes.c_uint64)]


class _Refusal(ctypes.Structure):
    _fields_ = [("offset", ctypes.c_uint64), ("kind", ctypes.c_uint32)]


class _Flaw(ctypes.Structure):
    _fields_ = [("low", ctypes.c_uint64), ("high", ctypes.c_uint64), ("kind", ctypes.c_uint32)]


def _opened() -> ctypes.CDLL:
    name = "libmizgaure.so.0"
    named = os.environ.get("MIZGAURE_LIBRARY")
    beside = Path(__file__).with_name(name)
    path = named or (str(beside) if beside.exists() else name)
    try:
        library = ctypes.CDLL(path)
        version = library.mizgaure_version
    except (OSError, AttributeError) as error:
        raise ImportError(f"there is no proved library at {path} (MIZGAURE_LIBRARY names one): {error}") from error
    version.argtypes, version.restype = (), ctypes.c_uint32
    if version() != VERSION:
        raise ImportError(f"the library at {path} has the calls of version {version()}, and this module those of version {VERSION}")
    return library


_library = _opened()
_P, _N, _U8, _U16, _U32, _U64 = ctypes.c_void_p, ctypes.c_size_t, ctypes.c_uint8, ctypes.c_uint16, ctypes.c_uint32, ctypes.c_uint64


_calls: dict[str, Signature] = {}


def _call(name: str, *types: type):
    try:
        function = getattr(_library, "mizgaure_" + name)
    except AttributeError as error:
        raise ImportError(f"the library {_library._name} lacks a call: {error}") from error
    function.argtypes, function.restype = types, _U64 if name.endswith("_size") else _U32
    _calls[name] = types, function.restype
    return function


_version = _call("version")
_nearest = _call("nearest", _U8, _U8, _P, _P, _P)
_detect_symbols = _call("detect_symbols", _U8, _U8, _P, _N, _P, _N, _P, _N, _P, _N, _P, _N)
_weigh_symbols = _call("weigh_symbols", _U8, _U8, _P, _N, _P, _N, _P, _N)
_scramble = _call("scramble", _U8, _P, _N)
_recover = _call("recover", _P, _N, _P)
_encode = _call("encode", _U8, _P, _N, _P, _N)
_decode = _call("decode", _U8, _P, _N, _P, _N, _P)
_soft_decode = _call("soft_decode", _U8, _P, _N, _P, _N, _P)
_lay = _call("lay", _U8, _U8, _P, _N, _P, _N, _P, _N)
_gather = _call("gather", _U8, _U8, _P, _N, _P, _N, _P, _N)
_places = _call("places", _U8, _U8, _U8, _P, _N)
_origins = _call("origins", _U8, _U8, _U8, _P, _N)
_points = _call("points", _U8, _P, _N, _P, _N)
_labels = _call("labels", _U8, _P, _N, _P, _N)
_pilots = _call("pilots", _U8, _U8, _U32, _U8, _P, _N)
_transmit = _call("transmit", _U8, _U8, _U8, _P, _N, _P, _N)
_decode_frame = _call("decode_frame", _U8, _U8, _U64, _U64, _P, _N, _P, _N, _P)
_soft_frame = _call("soft_frame", _U8, _U8, _U64, _U64, _P, _N, _P, _N, _P)
_legacy_transmit = _call("legacy_transmit", _U8, _U8, _P, _N, _P, _N)
_legacy_places = _call("legacy_places", _U8, _P, _N)
_legacy_origins = _call("legacy_origins", _U8, _P, _N)
_legacy_pilots = _call("legacy_pilots", _U32, _P, _N)
_detect = _call("detect", _P, _N, _P, _N, _P, _P)
_rx = _call("rx", _P, _N, _P, _N, _P, _P)
_soft = _call("soft", _P, _N, _P, _N, _P, _P)
_lrx = _call("lrx", _P, _N, _P, _N, _P, _P)
_certify = _call("certify", _P, _N, _P, _N, _P, _P)
_check_file = _call("check", _P, _N, _P, _N, _P, _P)
_pass = _call("pass", _U64, _U16, _P, _N, _P, _N, _P, _P)
_certify_job = _call("certify_job", _U8, _U8, _P, _P, _P, _P, _N, _P)
_check_job = _call("check_job", _U8, _U8, _P, _P, _P, _P, _N, _P)
_split = _call("split", _U8, _U8, _P, _N, _P, _N, _P, _N)
_join = _call("join", _U8, _U8, _P, _N, _P, _N, _P, _N)
_legacy_decode_frame = _call("legacy_decode_frame", _U8, _P, _N, _P, _N, _P)
_many = _call("many", _P, _N, _P, _N, _P, _P)
_tx = _call("tx", _P, _N, _P, _N, _P, _P)
_upgrade = _call("upgrade", _P, _N, _P, _N, _P, _P)
_legacy_pass = _call("legacy_pass", _U64, _U16, _P, _N, _P, _N, _P, _P)
_detect_size = _call("detect_size", _P, _N)
_rx_size = _call("rx_size", _P, _N)
_soft_size = _call("soft_size", _P, _N)
_lrx_size = _call("lrx_size", _P, _N)
_many_size = _call("many_size", _P, _N)
_check_size = _call("check_size", _P, _N)


class _Found(ctypes.Structure):
    """What ``dladdr`` says of an address: where the file is that it is in, and more."""

    _fields_ = [("path", ctypes.c_char_p), ("base", _P), ("name", ctypes.c_char_p), ("at", _P)]


def path() -> Path:
    """The library's file."""
    found, tell = _Found(), getattr(ctypes.CDLL(None), "dladdr", None)
    known = tell and tell(ctypes.cast(_version, _P), ctypes.byref(found))
    return Path(os.fsdecode(found.path) if known else _library._name)


def _compare() -> None:
    """Refuses a header that comes with the library and isn't that of these calls."""
    header = header_of(path())
    if header is None:
        return
    faults = {re.sub(r"\B([A-Z])", r"_\1", fault.__name__).upper(): number for number, fault in enumerate(FAULTS) if fault}
    differs = read_declarations(header.read_text(encoding="utf-8")).difference(Declarations(VERSION, _calls, {"DONE": 0, **faults}))
    if differs:
        raise ImportError(f"the header {header} isn't that of this module and of the library {path()}: {differs}")


_compare()

_PERIODS = (1, 2, 3, 5)
_BOOL, _INT8, _UINT8, _UINT16, _INT32 = map(np.dtype, (np.bool_, np.int8, np.uint8, np.uint16, np.int32))
_EMPTY = 16
#: Of an array's flags, by numpy's C interface: that it is C-contiguous and aligned, and writeable too.
_READABLE, _WRITEABLE = 0x101, 0x501
#: What stands for outputs that are left out.
_NO_HITS, _NO_LABELS, _NO_SUMS = (np.empty(0, dtype) for dtype in (HIT, _UINT8, DISTANCE))


def _check(fault: int) -> None:
    if fault:
        raise FAULTS[fault](FAULTS[fault].__doc__.splitlines()[0].rstrip("."))


def _ranged(name: str, value: int, top: int) -> int:
    """The number, which ctypes would cut to its type's width."""
    if not 0 <= int(value) <= top:
        raise InputError(f"{name} is {value}, and only 0 to {top} cross to the library")
    return int(value)


class _Head(ctypes.Structure):
    """How an array of CPython begins: numpy's C interface has the address of its elements behind the head of the object."""

    _fields_ = [("object", ctypes.c_byte * object.__basicsize__), ("data", ctypes.c_void_p)]


def _head_at(array: np.ndarray) -> int:
    """Where an array that has elements lies: five times as quick as ``array.ctypes.data``."""
    return _head(id(array)).data


def _asked(array: np.ndarray) -> int:
    return array.ctypes.data


_head = _Head.from_address


def _is_quick() -> bool:
    """Whether heads are as they should be, by arrays of each kind: of structs and of numbers, with axes and without, parts and fixed ones."""
    if sys.implementation.name != "cpython":
        return False
    fixed = np.frombuffer(b"octets", _UINT8)
    made = (np.empty(3, HIT), np.empty((), DISTANCE), np.empty((2, 3), _INT32), np.empty(5, _UINT8)[2:], np.empty((2, 1), CHANNEL)[1:], fixed)
    return all(_head_at(array) == _asked(array) for array in made)


_place = _head_at if _is_quick() else _asked


def _at(array: np.ndarray) -> int:
    """Where the array lies, and that of MIZGAURE_EMPTY if it has no elements."""
    return _place(array) if array.size else _EMPTY


def _is(found: np.dtype, dtype: np.dtype) -> bool:
    """Whether the types are the same, alignment too: one that compares equal may ask for less, as one without ``align=True`` does."""
    return found is dtype or (found == dtype and found.alignment == dtype.alignment)


def _fits(array, dtype: np.dtype) -> bool:
    return type(array) is np.ndarray and _is(array.dtype, dtype) and array.flags.num & _READABLE == _READABLE


def _given(array, dtype: np.dtype) -> np.ndarray:
    """The array itself where it fits, and else one that does."""
    if _fits(array, dtype):
        return array
    made = np.asarray(array)
    if made.dtype != dtype and made.dtype.names is None and dtype.names is None:
        if made.size and made.dtype.kind not in "biu":
            raise InputError(f"an array of {made.dtype} is no array of {dtype}")
        fit = made.astype(dtype)
        if not np.array_equal(fit, made):
            raise InputError(f"a number of the array doesn't fit into {dtype}")
        made = fit
    elif made.dtype != dtype:
        raise InputError(f"an array of {made.dtype} is no array of {dtype}")
    return np.require(made, dtype, ("C", "A"))


def _samples(received) -> tuple[np.ndarray, tuple[int, ...]]:
    """Received samples, RECEIVED or int32 of shape (.., 4, 2): an array of them, and their shape without these axes."""
    if _fits(received, RECEIVED):
        return received, received.shape
    received = np.asarray(received)
    shape = received.shape
    if received.dtype == RECEIVED:
        return _given(received, RECEIVED), shape
    if shape[-2:] != (4, 2):
        raise InputError(f"received samples have the shape (.., 4, 2), and not {shape}")
    return _given(received, _INT32), shape[:-2]


def _octets(given: Octets) -> np.ndarray:
    """The octets as they lie in memory."""
    if isinstance(given, np.ndarray):
        return _given(given, _UINT8).reshape(-1)
    return np.frombuffer(given, _UINT8) if len(given) else np.zeros(0, _UINT8)


def _out(out: Optional[np.ndarray], shape: tuple[int, ...], dtype: np.dtype) -> np.ndarray:
    if out is None:
        return np.empty(shape, dtype)
    if not isinstance(out, np.ndarray) or not (out.dtype is dtype or out.dtype == dtype) or out.shape != shape:
        raise InputError(f"out is no array of {dtype} of the shape {shape}")
    if out.flags.num & _WRITEABLE != _WRITEABLE or (out.dtype is not dtype and _at(out) % dtype.alignment):
        raise InputError("out isn't C-contiguous, aligned and writeable")
    return out


def _apart(written: list[tuple[np.ndarray, int]], *read: tuple[np.ndarray, int]) -> None:
    """Refuses arrays that are written to, each with where it lies, of which one shares an octet with another or with those that are read."""
    taken = []
    for array, at in written:
        end = at + array.nbytes
        for first, last in taken:
            if first < end and at < last:
                raise InputError("out shares memory with another argument")
        taken.append((at, end))
    for array, at in read:
        end = at + array.nbytes
        for first, last in taken:
            if first < end and at < last:
                raise InputError("out shares memory with another argument")


def _wanted(wanted: Wanted, shape: tuple[int, ...], none: np.ndarray, given: list[tuple[np.ndarray, int]]) -> tuple[np.ndarray, int]:
    """The array of an output and where it lies: a new one, the caller's, which joins those that are given, or `none`, which has its type,
    where it is left out."""
    if wanted is False:
        return none, _EMPTY
    if wanted is True:
        made = np.empty(shape, none.dtype)
        return made, _at(made)
    if wanted is None:
        raise InputError("an output is True, False or the array that it is put into")
    made = _out(wanted, shape, none.dtype), _at(wanted)
    given.append(made)
    return made


def _into(out: Optional[np.ndarray], shape: tuple[int, ...], dtype: np.dtype, *read: tuple[np.ndarray, int]) -> tuple[np.ndarray, int]:
    """The array of a call's only output, a new one or the caller's, and where it lies, apart from those that are read."""
    made = _out(out, shape, dtype)
    at = _at(made)
    if out is not None:
        _apart([(made, at)], *read)
    return made, at


def _rate(rate: Rate) -> tuple[int, int]:
    return int(rate.bandwidth == 40), rate.mcs


def _erased(erased: int) -> tuple[int, int]:
    if not 0 <= erased < 1 << 128:
        raise InputError("the erased subcarriers are no number of 128 bits")
    return erased & (1 << 64) - 1, erased >> 64


def version() -> int:
    """The version of the library's calls."""
    return _version()


def _job(channel: np.ndarray, received: np.ndarray) -> tuple[np.ndarray, np.ndarray]:
    """The channel of a job and what was received on it."""
    channel, received = _given(channel, CHANNEL), _samples(received)[0]
    if channel.size != 1 or received.nbytes != RECEIVED.itemsize:
        raise BadLength("a job has one channel and what was received on it")
    return channel, received


def nearest(rate: Rate, channel: np.ndarray, received: np.ndarray) -> np.void:
    """The first nearest vector of one data subcarrier, as a scalar of HIT.

    Parameters
    ----------
    rate : Rate
    channel : CHANNEL, one element
    received : RECEIVED, one element, or int32 of shape (4, 2): the rows, each with real and imaginary part

    Both are whole numbers in one unit, the squared distance of the hit in its square; the points are odd numbers (clause 20.3.11.9).
    """
    channel, received, found = *_job(channel, received), np.empty(1, HIT)
    _check(_nearest(*_rate(rate), _at(channel), _at(received), _at(found)))
    return found[0]


class Detected(NamedTuple):
    """What ``detect_symbols`` found for the data subcarriers of symbols. What was left out is an array of no elements.

    Attributes
    ----------
    hits : HIT, shape (.., subcarriers)
        The nearest points and their squared distance.
    labels : uint8, shape (.., subcarriers, streams)
        The labels of these points, of ``rate.bits_per_point`` bits, in the order of ``decode_frame``.
    sums : DISTANCE, shape (..)
        For each symbol the sum of the squared distances of its subcarriers; ``distances(sums)`` has them as whole numbers.
    """

    hits: np.ndarray
    labels: np.ndarray
    sums: np.ndarray


def detect_symbols(rate: Rate, channels: np.ndarray, received: np.ndarray, *,
                   hits: Wanted = True, labels: Wanted = True, sums: Wanted = True) -> Detected:
    """The first nearest vector of each data subcarrier of any number of symbols: its points, their labels, and sums of distances.

    Parameters
    ----------
    rate : Rate
    channels : CHANNEL, shape (subcarriers,)
    received : RECEIVED, shape (.., subcarriers), or int32 of shape (.., subcarriers, 4, 2)
        In the unit of a channel's entries times points, which are odd numbers.
    hits, labels, sums : bool or ndarray, optional
        Whether that output is wanted, or the array that it is put into, of the type and the shape that ``Detected`` has.

    Returns
    -------
    Detected
    """
    channels, (received, shape) = _given(channels, CHANNEL), _samples(received)
    of, samples = _at(channels), _at(received)
    given: list[tuple[np.ndarray, int]] = []
    hits, hits_at = _wanted(hits, shape, _NO_HITS, given)
    labels, labels_at = _wanted(labels, (*shape, rate.streams), _NO_LABELS, given)
    sums, sums_at = _wanted(sums, shape[:-1], _NO_SUMS, given)
    if given:
        _apart(given, (channels, of), (received, samples))
    _check(_detect_symbols(
        *_rate(rate), of, channels.size, samples, received.nbytes // RECEIVED.itemsize, hits_at, hits.size, labels_at, labels.size,
        sums_at, sums.size,
    ))
    return Detected(hits, labels, sums)


def distances(found: np.ndarray) -> list[int]:
    """The squared distances of hits, or of DISTANCE, as Python's whole numbers, which hold all of their bits."""
    found = np.asarray(found).reshape(-1)
    return [low + (high << 64) for low, high in zip(found["low"].tolist(), found["high"].tolist())]


def weigh_symbols(rate: Rate, channels: np.ndarray, received: np.ndarray, out: Optional[np.ndarray] = None) -> np.ndarray:
    """The weights of the label bits of any number of symbols: int32, shape (.., subcarriers, streams, bits).

    A weight is positive where a 1 is likelier: the least distance where the bit is 0 less the least one where it is 1, cut to -65535
    to 65535. The parameters are those of ``detect_symbols``.
    """
    channels, (received, shape) = _given(channels, CHANNEL), _samples(received)
    of, samples = _at(channels), _at(received)
    weights, into = _into(out, (*shape, rate.streams, rate.bits_per_point), _INT32, (channels, of), (received, samples))
    _check(_weigh_symbols(*_rate(rate), of, channels.size, samples, received.nbytes // RECEIVED.itemsize, into, weights.size))
    return weights


def scramble(seed: int, bits: np.ndarray, out: Optional[np.ndarray] = None) -> np.ndarray:
    """The bits with the scrambling sequence of a seed added: bool, shape (n,) (clause 18.3.5.5). ``out`` may be ``bits`` itself."""
    bits = _given(bits, _BOOL)
    made, into = _into(out, bits.shape, _BOOL, *([] if out is bits else [(bits, _at(bits))]))
    seed = _ranged("the seed", seed, 255)
    if not 1 <= seed <= 127:
        _check(FAULTS.index(NoSeed))
    if made is not bits:
        made[...] = bits
    _check(_scramble(seed, into, made.size))
    return made


def recover(bits: np.ndarray) -> int:
    """The seed whose sequence begins with these seven bits (clause 18.3.5.5)."""
    bits, seed = _given(bits, _BOOL), ctypes.c_uint8()
    _check(_recover(_at(bits), bits.size, ctypes.addressof(seed)))
    return seed.value


def sent(pattern: int, steps: int) -> int:
    """How many coded bits are kept of so many steps at a puncturing pattern, 0 to 3 (clause 20.3.11.6)."""
    if not 0 <= pattern <= 3:
        _check(FAULTS.index(NoPattern))
    return steps + -(-steps // _PERIODS[pattern])


def encode(pattern: int, bits: np.ndarray, out: Optional[np.ndarray] = None) -> np.ndarray:
    """The punctured codeword of input bits, tail included: bool, shape (sent(pattern, n),) (clauses 18.3.5.6 and 20.3.11.6)."""
    bits = _given(bits, _BOOL)
    of = _at(bits)
    coded, into = _into(out, (sent(pattern, bits.size),), _BOOL, (bits, of))
    _check(_encode(pattern, of, bits.size, into, coded.size))
    return coded


def decode(pattern: int, received: np.ndarray, steps: int, out: Optional[np.ndarray] = None) -> tuple[np.ndarray, int]:
    """The first nearest terminated input of ``steps`` bits, tail included, and at how many places it differs.

    Parameters
    ----------
    pattern : int
        0 to 3, for the coding rates 1/2, 2/3, 3/4 and 5/6.
    received : uint8, shape (sent(pattern, steps),)
        0, 1, or any other number where a place is erased.
    steps : int
        6 to 524302.
    out : bool, shape (steps,), optional
        Where the bits are put.
    """
    received, distance = _given(received, _UINT8), ctypes.c_uint32()
    of = _at(received)
    bits, into = _into(out, (_ranged("the number of steps", steps, 524302),), _BOOL, (received, of))
    _check(_decode(_ranged("the pattern", pattern, 255), of, received.size, into, bits.size, ctypes.addressof(distance)))
    return bits, distance.value


def soft_decode(pattern: int, weights: np.ndarray, steps: int, out: Optional[np.ndarray] = None) -> tuple[np.ndarray, int]:
    """The first terminated input that costs least at weights (int32, positive where a 1 is likelier), and its cost. See ``decode``."""
    weights, cost = _given(weights, _INT32), ctypes.c_uint64()
    of = _at(weights)
    bits, into = _into(out, (_ranged("the number of steps", steps, 524302),), _BOOL, (weights, of))
    _check(_soft_decode(_ranged("the pattern", pattern, 255), of, weights.size, into, bits.size, ctypes.addressof(cost)))
    return bits, cost.value


def lay(rate: Rate, first: np.ndarray, second: np.ndarray = ()) -> np.ndarray:
    """A symbol's coded bits of each encoder laid on the streams: bool, shape (streams, N_CBPSS) (clause 20.3.11.8.2).

    ``first`` and ``second`` have N_CBPS / N_ES bits each; ``second`` is empty where the rate has one encoder.
    """
    first, second = _given(first, _BOOL), _given(np.zeros(0, _BOOL) if len(second) == 0 else second, _BOOL)
    bits = np.empty((rate.streams, rate.coded_bits_per_stream), _BOOL)
    _check(_lay(*_rate(rate), _at(first), first.size, _at(second), second.size, _at(bits), bits.size))
    return bits


def gather(rate: Rate, bits: np.ndarray) -> tuple[np.ndarray, np.ndarray]:
    """The bits of each encoder of a symbol's, which undoes ``lay``: bool, two arrays."""
    bits, share = _given(bits, _BOOL), rate.coded_bits // rate.encoders
    first, second = np.empty(share, _BOOL), np.empty((rate.encoders - 1) * share, _BOOL)
    _check(_gather(*_rate(rate), _at(bits), bits.size, _at(first), first.size, _at(second), second.size))
    return first, second


def places(rate: Rate, stream: int) -> np.ndarray:
    """The place behind the interleaver of each bit of a stream's symbol: uint16, shape (N_CBPSS,) (clause 20.3.11.8.3).

    As in the library, the streams count from 1 here.
    """
    made = np.empty(rate.coded_bits_per_stream, _UINT16)
    _check(_places(*_rate(rate), _ranged("the stream", stream, 255), _at(made), made.size))
    return made


def origins(rate: Rate, stream: int) -> np.ndarray:
    """The bit that stands at each place behind the interleaver: uint16, shape (N_CBPSS,). See ``places``."""
    made = np.empty(rate.coded_bits_per_stream, _UINT16)
    _check(_origins(*_rate(rate), _ranged("the stream", stream, 255), _at(made), made.size))
    return made


def points(bits: int, labels: np.ndarray) -> np.ndarray:
    """The points (I, Q) of labels of 1, 2, 4 or 6 bits: int8, shape (.., 2) (clause 20.3.11.9)."""
    labels = _given(labels, _UINT8)
    made = np.empty((*labels.shape, 2), _INT8)
    _check(_points(_ranged("the number of bits", bits, 255), _at(labels), labels.size, _at(made), labels.size))
    return made


def labels(bits: int, points: np.ndarray) -> np.ndarray:
    """The labels of 1, 2, 4 or 6 bits of points (I, Q), int8 of shape (.., 2): uint8, shape (..)."""
    points = _given(points, _INT8)
    if points.ndim < 1 or points.shape[-1] != 2:
        raise InputError(f"points have the shape (.., 2), and not {points.shape}")
    made = np.empty(points.shape[:-1], _UINT8)
    _check(_labels(_ranged("the number of bits", bits, 255), _at(points), made.size, _at(made), made.size))
    return made


def pilots(rate: Rate, symbol: int, stream: int) -> np.ndarray:
    """The values of the pilots of a symbol on a stream, which counts from 1: int8, shape (N_SP,), 1 or -1 (clause 20.3.11.10)."""
    made = np.empty(rate.pilots, _INT8)
    symbol, stream = _ranged("the symbol", symbol, (1 << 32) - 1), _ranged("the stream", stream, 255)
    _check(_pilots(*_rate(rate), symbol, stream, _at(made), made.size))
    return made


def transmit(rate: Rate, seed: int, octets: Octets) -> np.ndarray:
    """The points (I, Q) that are sent for a PSDU: int8, shape (N_SYM, N_ST, N_SS, 2) (clause 20.3.11)."""
    octets = _octets(octets)
    made = np.empty((rate.symbols(octets.size), rate.subcarriers, rate.streams, 2), _INT8)
    _check(_transmit(*_rate(rate), _ranged("the seed", seed, 255), _at(octets), octets.size, _at(made), made.size // 2))
    return made


def decode_frame(rate: Rate, labels: np.ndarray, length: int, erased: int = 0) -> tuple[bytes, int]:
    """The octets of a frame's PSDU by hard decisions, and at how many places that aren't erased its coded bits differ.

    Parameters
    ----------
    rate : Rate
    labels : uint8, N_SYM * N_SD * N_SS of them in the order symbol, data subcarrier, stream
    length : int
        The number of octets, 1 to 65535.
    erased : int
        Bit c is set where subcarrier c, pilots counted, is erased.
    """
    labels, octets, differences = _given(labels, _UINT8), np.empty(_ranged("the length", length, 65535), _UINT8), ctypes.c_uint32()
    _check(_decode_frame(*_rate(rate), *_erased(erased), _at(labels), labels.size, _at(octets), octets.size, ctypes.addressof(differences)))
    return octets.tobytes(), differences.value


def soft_frame(rate: Rate, weights: np.ndarray, length: int, erased: int = 0) -> tuple[bytes, int]:
    """The octets of a frame's PSDU by weights, and their cost. The weights are int32, N_SYM * N_CBPS of them in the order of
    ``weigh_symbols``.
    """
    weights, octets, cost = _given(weights, _INT32), np.empty(_ranged("the length", length, 65535), _UINT8), _Pair()
    _check(_soft_frame(*_rate(rate), *_erased(erased), _at(weights), weights.size, _at(octets), octets.size, ctypes.addressof(cost)))
    return octets.tobytes(), cost.low + (cost.high << 64)


#: N_BPSC and N_DBPS of the rates of clause 18, 6 to 54 Mbit/s (table 18-4).
_LEGACY = ((1, 24), (1, 36), (2, 48), (2, 72), (4, 96), (4, 144), (6, 192), (6, 216))


def _legacy_rate(rate: int) -> int:
    if not 0 <= rate <= 7:
        _check(FAULTS.index(NoRate))
    return rate


def legacy_transmit(rate: int, seed: int, octets: Octets) -> np.ndarray:
    """The points (I, Q) that are sent for a PSDU of clause 18: int8, shape (N_SYM, 52, 2). Rates are 0 to 7, for 6 to 54 Mbit/s."""
    octets = _octets(octets)
    symbols = -(-(22 + 8 * octets.size) // _LEGACY[_legacy_rate(rate)][1])
    made = np.empty((symbols, 52, 2), _INT8)
    _check(_legacy_transmit(rate, _ranged("the seed", seed, 255), _at(octets), octets.size, _at(made), made.size // 2))
    return made


def legacy_places(rate: int) -> np.ndarray:
    """The place behind the interleaver of each bit of a symbol of clause 18: uint16, shape (N_CBPS,) (clause 18.3.5.7)."""
    made = np.empty(48 * _LEGACY[_legacy_rate(rate)][0], _UINT16)
    _check(_legacy_places(rate, _at(made), made.size))
    return made


def legacy_origins(rate: int) -> np.ndarray:
    """The bit that stands at each place behind the interleaver of clause 18: uint16, shape (N_CBPS,)."""
    made = np.empty(48 * _LEGACY[_legacy_rate(rate)][0], _UINT16)
    _check(_legacy_origins(rate, _at(made), made.size))
    return made


def legacy_pilots(symbol: int) -> np.ndarray:
    """The values of the pilots of a symbol of clause 18: int8, shape (4,), 1 or -1 (clause 18.3.5.9)."""
    made = np.empty(4, _INT8)
    _check(_legacy_pilots(_ranged("the symbol", symbol, (1 << 32) - 1), _at(made), made.size))
    return made


def _sized(size, given: Octets) -> int:
    given = _octets(given)
    return size(_at(given), given.size)


def _room(size, given: np.ndarray) -> np.ndarray:
    """An array for an output. Memory that nothing is written to costs nothing, but it may be more than there is."""
    some = 4096 + 8 * given.size
    try:
        return np.empty(some if size is None else size(_at(given), given.size), _UINT8)
    except (MemoryError, OverflowError, ValueError):
        return np.empty(some, _UINT8)


def _written(call, given: Octets, *before: int, out: Optional[np.ndarray] = None, room_by=None) -> Union[bytes, memoryview]:
    given = _octets(given)
    size, refusal, of = ctypes.c_uint64(), _Refusal(), _at(given)
    room = _room(room_by, given) if out is None else _into(out, getattr(out, "shape", None), _UINT8, (given, of))[0]
    while True:
        fault = call(*before, of, given.size, _at(room), room.size, ctypes.addressof(size), ctypes.addressof(refusal))
        if fault == FAULTS.index(NoRoom) and out is None:
            room = np.empty(size.value, _UINT8)
            continue
        if fault == FAULTS.index(Refused):
            raise Refused(KINDS[refusal.kind], refusal.offset)
        _check(fault)
        return room[: size.value].tobytes() if out is None else memoryview(room)[: size.value]


def detect_size(capture: Octets) -> int:
    """A number of octets that suffices for ``out`` of ``detect``, whatever the capture holds: six times its own."""
    return _sized(_detect_size, capture)


def rx_size(capture: Octets) -> int:
    """A number of octets that suffices for ``out`` of ``rx``: half of the capture's own and 32, more at version 2."""
    return _sized(_rx_size, capture)


def soft_size(capture: Octets) -> int:
    """A number of octets that suffices for ``out`` of ``soft``: half of the capture's own and 32, more at version 2."""
    return _sized(_soft_size, capture)


def lrx_size(capture: Octets) -> int:
    """A number of octets that suffices for ``out`` of ``lrx``: half of the capture's own and 32."""
    return _sized(_lrx_size, capture)


def many_size(bundle: Octets) -> int:
    """A number of octets that suffices for ``out`` of ``many`` where each capture of the bundle is whole: 17 times its own."""
    return _sized(_many_size, bundle)


def check_size(certificates: Octets) -> int:
    """A number of octets that suffices for ``out`` of ``check``: twice the file's own and 16."""
    return _sized(_check_size, certificates)


def detect(capture: Octets, out: Optional[np.ndarray] = None) -> Union[bytes, memoryview]:
    """The text of ``radio detect`` for a capture (HTCP) in memory.

    Where ``out`` is given, an array of uint8, the text is put there, and the answer is a view of it: an array that is used again
    costs no new memory. ``NoRoom`` if it is too short, which it never is with the octets that ``detect_size`` says.
    """
    return _written(_detect, capture, out=out, room_by=_detect_size)


def rx(capture: Octets, out: Optional[np.ndarray] = None) -> Union[bytes, memoryview]:
    """The text of ``radio rx`` for a capture (HTCP) in memory. ``out`` is as in ``detect``, with ``rx_size``."""
    return _written(_rx, capture, out=out, room_by=_rx_size)


def soft(capture: Octets, out: Optional[np.ndarray] = None) -> Union[bytes, memoryview]:
    """The text of ``radio soft`` for a capture (HTCP) in memory. ``out`` is as in ``detect``, with ``soft_size``."""
    return _written(_soft, capture, out=out, room_by=_soft_size)


def lrx(capture: Octets, out: Optional[np.ndarray] = None) -> Union[bytes, memoryview]:
    """The text of ``radio lrx`` for a capture of clause 18 frames (LGCP) in memory. ``out`` is as in ``detect``, with ``lrx_size``."""
    return _written(_lrx, capture, out=out, room_by=_lrx_size)


def certify(capture: Octets) -> bytes:
    """The file of certificates (HTCT) of ``radio certify`` for a capture (HTCP) in memory."""
    return _written(_certify, capture)


def check(certificates: Octets, out: Optional[np.ndarray] = None) -> Union[bytes, memoryview]:
    """The text of ``radio check`` for a file of certificates (HTCT) in memory. ``out`` is as in ``detect``, with ``check_size``."""
    return _written(_check_file, certificates, out=out, room_by=_check_size)


def channel(symbols: Octets, seed: int = 42, noise: int = 0) -> bytes:
    """The capture (HTCP) of ``radio channel`` for a file of symbols (HTSY) in memory, with its seed and its noise."""
    return _written(_pass, symbols, _ranged("the seed", seed, (1 << 64) - 1), _ranged("the noise", noise, 65535))


def many(bundle: Octets, out: Optional[np.ndarray] = None) -> Union[bytes, memoryview]:
    """The text of ``radio many`` for a bundle of captures (HTMB) in memory. ``out`` is as in ``detect``, with ``many_size``."""
    return _written(_many, bundle, out=out, room_by=_many_size)


def tx(frames: Octets) -> bytes:
    """The file of symbols (HTSY) of ``radio tx`` for a file of frames (HTTX) in memory."""
    return _written(_tx, frames)


def upgrade(capture: Octets) -> bytes:
    """The capture of version 2 of ``radio upgrade`` for a capture (HTCP) in memory."""
    return _written(_upgrade, capture)


def legacy_channel(frames: Octets, seed: int = 42, noise: int = 0) -> bytes:
    """The capture (LGCP) of ``radio lchannel`` for a file of clause 18 frames (LGTX) in memory, with its seed and its noise."""
    return _written(_legacy_pass, frames, _ranged("the seed", seed, (1 << 64) - 1), _ranged("the noise", noise, 65535))


def split(rate: Rate, bits: np.ndarray) -> tuple[np.ndarray, np.ndarray]:
    """Scrambled bits shared out among the encoders: bool, two arrays, the second empty with one encoder (clause 20.3.11.5)."""
    bits, share = _given(bits, _BOOL), -(-np.size(bits) // rate.encoders)
    first, second = np.empty(share, _BOOL), np.empty((rate.encoders - 1) * share, _BOOL)
    _check(_split(*_rate(rate), _at(bits), bits.size, _at(first), first.size, _at(second), second.size))
    return first, second


def join(rate: Rate, first: np.ndarray, second: np.ndarray = ()) -> np.ndarray:
    """The bits of the encoders put together again, which undoes ``split``: bool, shape (n,)."""
    first, second = _given(first, _BOOL), _given(np.zeros(0, _BOOL) if len(second) == 0 else second, _BOOL)
    bits = np.empty(rate.encoders * first.size, _BOOL)
    _check(_join(*_rate(rate), _at(first), first.size, _at(second), second.size, _at(bits), bits.size))
    return bits


def legacy_decode_frame(rate: int, labels: np.ndarray, length: int) -> tuple[bytes, int]:
    """The octets of a clause 18 frame's PSDU by hard decisions, and at how many places its coded bits differ.

    Parameters
    ----------
    rate : int
        0 to 7, for 6 to 54 Mbit/s.
    labels : uint8, N_SYM * 48 of them in the order symbol, data subcarrier
    length : int
        The number of octets, 1 to 4095.
    """
    labels, octets, differences = _given(labels, _UINT8), np.empty(_ranged("the length", length, 4095), _UINT8), ctypes.c_uint32()
    _check(_legacy_decode_frame(_legacy_rate(rate), _at(labels), labels.size, _at(octets), octets.size, ctypes.addressof(differences)))
    return octets.tobytes(), differences.value


def certify_job(rate: Rate, channel: np.ndarray, received: np.ndarray) -> tuple[np.void, np.ndarray]:
    """The certificate of one data subcarrier: its hit, as ``nearest`` has it, and the marks that show it: bool, True where a level is open."""
    channel, received = _job(channel, received)
    found, marks, size = np.empty(1, HIT), np.empty(256, _BOOL), ctypes.c_uint64()
    while True:
        at = _at(channel), _at(received), _at(found), _at(marks)
        fault = _certify_job(*_rate(rate), *at, marks.size, ctypes.addressof(size))
        if fault != FAULTS.index(NoRoom):
            _check(fault)
            return found[0], marks[: size.value].copy()
        marks = np.empty(size.value, _BOOL)


def check_job(rate: Rate, channel: np.ndarray, received: np.ndarray, hit: np.ndarray, marks: np.ndarray) -> None:
    """Checks a certificate of one data subcarrier, whoever made it, and raises ``NotCertified`` where it doesn't hold.

    The job is that of ``nearest``; ``hit`` is HIT, one element, and ``marks`` bool of shape (n,), as ``certify_job`` gives them.
    """
    channel, received = _job(channel, received)
    hit, marks, flaw = _given(hit, HIT), _given(marks, _BOOL), _Flaw()
    if hit.size != 1:
        raise BadLength("a certificate has one hit")
    at = _at(channel), _at(received), _at(hit), _at(marks)
    fault = _check_job(*_rate(rate), *at, marks.size, ctypes.addressof(flaw))
    if fault == FAULTS.index(NotCertified):
        raise NotCertified(FLAWS[flaw.kind], flaw.low + (flaw.high << 64))
    _check(fault)
