"""What each stage of the chain has for a frame, forwards from its octets and backwards from a capture.

Every value is one that the proved library gave, except where its `Stage` says "tools": there it is only tested. Between its calls
bits are moved here to the places that it names and dealt to two encoders, and octets are read as bits, which no call does. So
forwards the stages are held to the points of the library's own transmitter: as no stage loses anything, equal points have equal
bits in front of them. Backwards the octets and the distance are held to those that the library decodes in one call.

Where there is no library the program `radio` gives what its commands write: the points that are sent, of clause 18 those of a
capture without noise divided by its diagonals, and backwards the nearest points and the octets. All other stages are left out, and
named: no second implementation stands in for the library.

IEEE Std 802.11-2012, clauses 18.3.5 and 20.3.11; docs/CHAIN.md of the repository has the formulas.
"""

from __future__ import annotations

from functools import lru_cache
from typing import Dict, Iterator, List, Optional, Tuple, Union

import numpy as np

from . import clause18
from .air.signal import LegacySignal
from .air.waveform import Clock, legacy_packet, packet
from .answers import FrameAnswer, Jobs, read_answers
from .clause18 import LegacyCaptured, LegacyRate, LegacySent, read_lgcp, read_lgtx
from .errors import FormatError, InputError, MizgaureError, ProgramError
from .files import fronted, repeatable
from .formats import CaptureFrame, SentFrame, SymbolsFrame, read_htcp, read_htsy, read_httx
from .inside import detected, library
from .program import Radio
from .rates import Rate
from .stage_files import BITS, ERASED_BIT, ERASED_LABEL, LABELS, LIBRARY, OCTETS, POINTS, PROGRAM, SAMPLES, TOOLS, Stage, Staged

SENT_STAGES = ("scrambled", "coded", "punctured", "parsed", "interleaved")  # that the library alone gives
RECEIVED_STAGES = ("points", "labels", "demapped", "deinterleaved", "gathered", "depunctured", "decoded", "descrambled")
SERVICE, SEED_BITS, TAIL = 16, 7, 6
PATTERNS = {2: 0, 3: 1, 4: 2, 6: 3}  # the library's number of a puncturing pattern, by the coding rate's denominator


class HtChain:
    """The chain of clause 20 at one rate, of the library's calls."""

    clauses = {"data": "20.3.11", "scrambled": "18.3.5.5", "coded": "18.3.5.6", "punctured": "20.3.11.6", "parsed": "20.3.11.8.2",
               "interleaved": "20.3.11.8.3", "points": "20.3.11.9"}
    own = ", with the pilots of this project"

    def __init__(self, rate: Rate) -> None:
        self.rate = self.constellation = rate
        self.streams, self.encoders, self.data_bits = rate.streams, rate.encoders, rate.data_bits
        self.frequencies, self.is_pilot = rate.frequencies, rate.is_pilot
        self.pattern = PATTERNS[rate.coding_rate.denominator]

    def places(self, stream: int) -> np.ndarray:
        """Where the interleaver puts each bit."""
        return library.places(self.rate, stream)

    def lay(self, parts: np.ndarray) -> np.ndarray:
        """A symbol's bits of the encoders on the streams."""
        return library.lay(self.rate, *parts)

    def gather(self, bits: np.ndarray) -> np.ndarray:
        """And back."""
        return np.stack(library.gather(self.rate, bits)[: self.encoders])

    def transmit(self, seed: int, octets: bytes) -> np.ndarray:
        """The points: shape (symbols, subcarriers, streams, 2)."""
        return library.transmit(self.rate, seed, octets)

    def samples(self, points: np.ndarray, length: int) -> Tuple[np.ndarray, str]:
        """The packet's samples, and what is to be said of them."""
        values = points[..., 0] + 1j * points[..., 1]
        over = self.rate.bandwidth // 20
        made = packet(SymbolsFrame(self.rate, length, values), Clock(over))[1]
        begin = made.shape[1] - 80 * over * len(points)
        return made, (f"at {20 * over} million a second, HT-mixed format from L-STF on, data from sample {begin} on, with the standard's pilots, "
                      "long guard interval, no window, mean power 1 over all chains")


class LegacyChain:
    """The chain of clause 18 at one rate."""

    streams, encoders = 1, 1
    clauses = {"data": "18.3.5.2 to 18.3.5.4", "scrambled": "18.3.5.5", "coded": "18.3.5.6", "punctured": "18.3.5.6", "interleaved": "18.3.5.7",
               "points": "18.3.5.8"}
    own = ", with pilots"
    frequencies, is_pilot = clause18.FREQUENCIES, clause18.IS_PILOT

    def __init__(self, rate: LegacyRate) -> None:
        self.rate, self.constellation, self.data_bits = rate, rate.constellation, rate.data_bits
        self.pattern = PATTERNS[rate.coding_rate.denominator]

    def places(self, _stream: int) -> np.ndarray:
        """Where the interleaver puts each bit."""
        return library.legacy_places(self.rate.number)

    def lay(self, parts: np.ndarray) -> np.ndarray:
        """There is one stream."""
        return parts

    gather = lay

    def transmit(self, seed: int, octets: bytes) -> np.ndarray:
        """The points: shape (symbols, 52, 1, 2)."""
        return library.legacy_transmit(self.rate.number, seed, octets)[:, :, None]

    def samples(self, points: np.ndarray, length: int) -> Tuple[np.ndarray, str]:
        """The packet's samples, and what is to be said of them."""
        values = points[:, :, 0, 0] + 1j * points[:, :, 0, 1]
        values[:, ~self.is_pilot] *= self.constellation.normalising_factor
        made = legacy_packet(values, LegacySignal(clause18.MEGABITS[self.rate.number], length), Clock(1))[1]
        return made, f"at 20 million a second, from the short training on, data from sample {made.shape[1] - 80 * len(points)} on, no window, mean power 1"


Chain = Union[HtChain, LegacyChain]
Frame = Union[SentFrame, LegacySent, CaptureFrame, LegacyCaptured]


def stages_of(source, only: Optional[int] = None, radio: Optional[Radio] = None) -> Iterator[Staged]:
    """The stages of each frame of a file: forwards of HTTX and LGTX, backwards of HTCP and LGCP. Another is refused as HTTX.

    Parameters
    ----------
    source : path, ``"-"``, bytes or binary stream
    only : int, optional
        The number of the one frame that is asked for.
    radio : Radio, optional
        The program that gives what there is; by default the library does.

    Raises
    ------
    FormatError
        At the file's first fault.
    InputError
        If there is no frame of that number, or no library and no program is given.
    ProgramError
        If the program fails.
    """
    if library is None and radio is None:
        raise InputError("there is no proved library, and no program is named")
    source = repeatable(source)
    with fronted(source, 4) as (front, _):
        reader = {b"LGTX": read_lgtx, b"HTCP": read_htcp, b"LGCP": read_lgcp}.get(front, read_httx)
    known: Iterator = iter(()) if radio is None else _of_program(radio, front, source)
    if radio is None and front == b"LGCP":
        known = _legacy_answers(source)
    found = False
    for number, frame in enumerate(reader(source)):
        given = next(known, None)
        if only is None or number == only:
            found = True
            yield _staged(number, frame, given, radio is not None)
    if only is not None and not found:
        raise InputError(f"there is no frame {only} in it")


def _staged(number: int, frame: Frame, known, by_program: bool) -> Staged:
    legacy = isinstance(frame.rate, LegacyRate)
    chain = LegacyChain(frame.rate) if legacy else HtChain(frame.rate)
    length = frame.length if hasattr(frame, "length") else len(frame.octets)
    numbers = {"rate": frame.rate.number} if legacy else {"bandwidth": frame.rate.bandwidth, "mcs": frame.rate.mcs}
    numbers["length"] = length
    text = f"{frame.rate}, {length} octet{'s' * (length != 1)}"
    if isinstance(frame, (SentFrame, LegacySent)):
        numbers["seed"], text = frame.seed, f"{text}, seed {frame.seed}"
        make = _sent_by_program if by_program else _sent
        stages, left_out = make(chain, bytes(frame.octets), *((known,) if by_program else (frame.seed,)))
    elif by_program:
        stages, left_out = _received_by_program(chain, length, frame, known)
    else:
        labels, erased = _legacy_labels(frame) if legacy else _labels(frame)
        stages, left_out = _received(chain, length, labels, erased, known)
    return Staged(number, text, numbers, stages, left_out)


# forwards

def _sent(chain: Chain, octets: bytes, seed: int) -> Tuple[List[Stage], List[str]]:
    points = chain.transmit(seed, octets)
    symbols, streams = np.arange(len(points)), np.arange(1, chain.streams + 1)
    data = _data_bits(chain, octets, symbols.size)
    end = SERVICE + 8 * len(octets)
    scrambled = library.scramble(seed, data)
    scrambled[end : end + TAIL * chain.encoders] = False
    inputs = np.ascontiguousarray(scrambled.reshape(-1, chain.encoders).T)
    coded = np.stack([library.encode(0, row) for row in inputs])
    punctured = np.stack([library.encode(chain.pattern, row) for row in inputs]).reshape(chain.encoders, symbols.size, -1).transpose(1, 0, 2)
    parsed = np.stack([chain.lay(np.ascontiguousarray(part)) for part in punctured])
    interleaved = np.empty_like(parsed)
    for stream in range(chain.streams):
        interleaved[:, stream, chain.places(stream + 1)] = parsed[:, stream]
    _hold(chain, interleaved, points)
    axes, encoders = {"symbol": symbols, "stream": streams}, {"encoder": np.arange(chain.encoders)}
    middle = [
        _bits(chain, "scrambled", "with the seed's sequence added, the tail zero again", scrambled, {}),
        _bits(chain, "coded", "A0 B0 A1 B1 .. of each encoder, before puncturing", coded, encoders),
        _bits(chain, "punctured", "what is kept of them", punctured, {"symbol": symbols, **encoders}),
        _bits(chain, "parsed", "dealt to the spatial streams", parsed, axes),
        _bits(chain, "interleaved", "in the order of labels, from the lowest data subcarrier on", interleaved, axes),
    ]
    stages, left_out = _around(chain, data, middle, points, len(octets), LIBRARY)
    return _there(chain, stages), left_out


def _sent_by_program(chain: Chain, octets: bytes, points: np.ndarray) -> Tuple[List[Stage], List[str]]:
    stages, left_out = _around(chain, _data_bits(chain, octets, len(points)), [], points, len(octets), PROGRAM)
    return stages, [_without(chain, SENT_STAGES), *left_out]


def _data_bits(chain: Chain, octets: bytes, symbols: int) -> np.ndarray:
    """SERVICE, PSDU, tail and padding."""
    data = np.zeros(symbols * chain.data_bits, np.bool_)
    data[SERVICE : SERVICE + 8 * len(octets)] = np.unpackbits(np.frombuffer(octets, np.uint8), bitorder="little")
    return data


def _around(chain: Chain, data: np.ndarray, middle: List[Stage], points: np.ndarray, length: int, source: str) -> Tuple[List[Stage], List[str]]:
    """The stages in front of some others and behind them, and why one is left out: data, points, and time samples."""
    streams, left_out = np.arange(1, chain.streams + 1), []
    stages = [
        _bits(chain, "data", "SERVICE, PSDU, tail and padding", data, {}, source=TOOLS), *middle,
        Stage("points", f"on the grid of odd numbers{chain.own}; those that are sent beside them (clause {chain.clauses['points']})", POINTS,
              {"symbol": np.arange(len(points)), "subcarrier": chain.frequencies, "stream": streams}, points, source,
              factors=np.where(chain.is_pilot, 1, chain.constellation.normalising_factor)),
    ]
    try:
        samples, text = chain.samples(points, length)
        stages.append(Stage("samples", f"time samples {text}", SAMPLES, {"chain": streams, "index": np.arange(samples.shape[1])}, samples, TOOLS))
    except InputError as error:
        left_out.append(f"samples: {error}")
    return stages, left_out


def _without(chain: Chain, names: Tuple[str, ...]) -> str:
    """That stages are left out, for want of the library."""
    there = [name for name in names if "parsed" in chain.clauses or name not in ("parsed", "gathered")]
    return f"{', '.join(there)}: the library alone gives them (docs/LIBRARY.md), and these values are the program's"


def _bits(chain: Chain, name: str, text: str, values: np.ndarray, axes: Dict[str, np.ndarray], of: str = "", source: str = LIBRARY) -> Stage:
    """A stage of bits, counted along the last axis, of the clause of the stage ``of`` or of its own."""
    clause = chain.clauses.get(of or name)
    return Stage(name, f"{text} (clause {clause})", BITS, {**axes, "index": np.arange(values.shape[-1])}, values.astype(np.uint8), source)


def _there(chain: Chain, stages: List[Stage]) -> List[Stage]:
    """Without those of the stream parser, where clause 18 has none."""
    return stages if "parsed" in chain.clauses else [stage for stage in stages if stage.name not in ("parsed", "gathered")]


def _hold(chain: Chain, interleaved: np.ndarray, points: np.ndarray) -> None:
    """Refuse stages that don't lead to the points that the library's transmitter sends."""
    bits = chain.constellation.bits_per_point
    split = interleaved.reshape(*interleaved.shape[:2], -1, bits)
    labels = (split @ (1 << np.arange(bits)[::-1])).transpose(0, 2, 1).astype(np.uint8)
    if not np.array_equal(library.points(bits, labels), points[:, ~chain.is_pilot]):
        raise MizgaureError("the stages don't lead to the points of the proved transmitter")


# backwards

def _received(chain: Chain, length: int, labels: np.ndarray, erased: np.ndarray, known) -> Tuple[List[Stage], List[str]]:
    """The stages behind labels, (symbols, data subcarriers, streams), of which some subcarriers are erased."""
    bits, count = chain.constellation.bits_per_point, len(labels)
    demapped = (labels[..., None] >> np.arange(bits)[::-1] & 1).transpose(0, 2, 1, 3).reshape(count, chain.streams, -1)
    demapped[:, :, np.repeat(erased, bits)] = ERASED_BIT
    deinterleaved = np.stack([demapped[:, stream, chain.places(stream + 1)] for stream in range(chain.streams)], axis=1)
    gathered = np.stack([_gathered(chain, part) for part in deinterleaved])
    steps = (SERVICE + 8 * length) // chain.encoders + TAIL
    received = gathered.transpose(1, 0, 2).reshape(chain.encoders, -1)[:, : library.sent(chain.pattern, steps)]
    depunctured = np.full((chain.encoders, 2 * steps), ERASED_BIT, np.uint8)
    depunctured[:, kept_places(chain.pattern, steps)] = received
    found = [library.decode(chain.pattern, np.ascontiguousarray(row), steps) for row in received]
    decoded = np.stack([row for row, _ in found])
    scrambled = np.ascontiguousarray(decoded.T).reshape(-1)[: SERVICE + 8 * length]
    symbols, streams, encoders = np.arange(count), np.arange(1, chain.streams + 1), np.arange(chain.encoders)
    data, axes = chain.frequencies[~chain.is_pilot], {"symbol": symbols, "stream": streams}
    points = library.points(bits, labels)
    points[:, erased] = 0
    differ = sum(distance for _, distance in found)
    stages = [
        _nearest(chain, points, LIBRARY),
        Stage("labels", f"of these points (clause {chain.clauses['points']})", LABELS, {"symbol": symbols, "subcarrier": data, "stream": streams},
              np.where(erased[:, None], np.uint8(ERASED_LABEL), labels)),
        _bits(chain, "demapped", "the bits of the labels", demapped, axes, "points"),
        _bits(chain, "deinterleaved", "each stream as it was before the interleaver", deinterleaved, axes, "interleaved"),
        _bits(chain, "gathered", "each encoder's bits from the streams", gathered, {"symbol": symbols, "encoder": encoders}, "parsed"),
        _bits(chain, "depunctured", "A0 B0 A1 B1 .. of each codeword, erased where nothing is sent", depunctured, {"encoder": encoders}, "punctured"),
        _bits(chain, "decoded", f"each encoder's first nearest input with its tail, at {differ} differences in all", decoded, {"encoder": encoders}, "coded"),
    ]
    octets = None
    try:
        seed = library.recover(scrambled[:SEED_BITS])
    except library.NoSeed:
        left_out = ["descrambled and octets: the first seven bits are those of no seed"]
    else:
        left_out = []
        descrambled = library.scramble(seed, scrambled)
        octets = np.packbits(descrambled[SERVICE:], bitorder="little")
        stages.append(_bits(chain, "descrambled", f"SERVICE and PSDU, seed {seed}", descrambled, {}, "scrambled"))
        stages.append(Stage("octets", f"of the PSDU (clause {chain.clauses['data']})", OCTETS, {"index": np.arange(length)}, octets))
    whole = known or _decoded(chain, length, labels, erased)
    if whole != ((None, whole[1]) if octets is None else (octets.tobytes(), differ)):
        raise MizgaureError("the stages don't lead to the octets that the library decodes in one call")
    return _there(chain, stages), left_out


def _received_by_program(chain: Chain, length: int, frame: Frame, known: Tuple[Optional[Jobs], FrameAnswer]) -> Tuple[List[Stage], List[str]]:
    jobs, answer = known
    stages, names = [], RECEIVED_STAGES
    if jobs is not None:
        names = names[1:]
        points = np.zeros((*frame.samples.shape, 2), np.int8)
        points[jobs.symbol, jobs.carrier, :, 0], points[jobs.symbol, jobs.carrier, :, 1] = jobs.points.real, jobs.points.imag
        stages.append(_nearest(chain, points[:, ~chain.is_pilot], PROGRAM))
    left_out = [_without(chain, names)]
    if answer.octets is None:
        left_out.append("octets: the first seven bits are those of no seed")
    else:
        text = f"of the PSDU, at {answer.code} differences in all (clause {chain.clauses['data']})"
        stages.append(Stage("octets", text, OCTETS, {"index": np.arange(length)}, np.frombuffer(answer.octets, np.uint8), PROGRAM))
    return stages, left_out


def _nearest(chain: Chain, points: np.ndarray, source: str) -> Stage:
    """The stage of the nearest points of data subcarriers."""
    data = chain.frequencies[~chain.is_pilot]
    return Stage("points", f"the first nearest ones of the data subcarriers, (0, 0) where erased (clause {chain.clauses['points']})", POINTS,
                 {"symbol": np.arange(len(points)), "subcarrier": data, "stream": np.arange(1, chain.streams + 1)}, points, source,
                 factors=np.full(data.size, chain.constellation.normalising_factor))


def _of_program(radio: Radio, front: bytes, source) -> Iterator:
    """What the program says of each frame: the points that are sent, or the nearest ones and the octets."""
    with fronted(source, 0) as (_, stream):
        octets = stream.read()
    if front == b"HTCP":
        return zip(radio.detect(octets), radio.rx(octets))
    if front == b"LGCP":
        return ((None, answer) for answer in radio.lrx(octets))
    if front == b"LGTX":
        return (_divided(frame) for frame in read_lgcp(radio.made("lchannel", octets)))
    return (np.stack((frame.points.real, frame.points.imag), axis=-1).astype(np.int8) for frame in read_htsy(radio.tx(octets)))


def _divided(frame: LegacyCaptured) -> np.ndarray:
    """The points of a capture without noise, which its samples are by the diagonals: shape (symbols, 52, 1, 2)."""
    diagonal = frame.diagonal.astype(np.int32)[:, None]
    points = frame.samples // diagonal
    if not np.array_equal(points * diagonal, frame.samples):
        raise ProgramError("the program's capture without noise has no whole points")
    return points[:, :, None].astype(np.int8)


def _gathered(chain: Chain, bits: np.ndarray) -> np.ndarray:
    """A symbol's bits of the streams by encoder: erasures take the way of the bits."""
    values = chain.gather(np.ascontiguousarray(bits == 1)).astype(np.uint8)
    values[chain.gather(np.ascontiguousarray(bits == ERASED_BIT))] = ERASED_BIT
    return values


@lru_cache(maxsize=8)
def kept_places(pattern: int, steps: int) -> np.ndarray:
    """Which of A0 B0 A1 B1 .. are sent: int64, ascending, read off the proved encoder.

    Where one of a step's two bits is sent, an input of a single 1 a step earlier says which: it makes them differ.
    """
    kept = []
    for step in range(steps if steps < 30 else 30):  # 30 is a multiple of every pattern's period
        if library.sent(pattern, step + 1) - library.sent(pattern, step) == 2:
            kept += [2 * step, 2 * step + 1]
        else:
            bits = np.arange(step + 1) == step - 1
            pair = library.encode(0, bits)[-2:].tolist()
            kept.append(2 * step + pair.index(bool(library.encode(pattern, bits)[-1])))
    rounds = 60 * np.arange(-(-steps // 30))[:, None] + np.array(kept)
    places = rounds.reshape(-1)[: library.sent(pattern, steps)]
    places.setflags(write=False)
    return places


def _decoded(chain: HtChain, length: int, labels: np.ndarray, erased: np.ndarray) -> Tuple[Optional[bytes], int]:
    """The octets of an HT frame in one call of the library, and at how many places they differ."""
    mask = sum(1 << int(place) for place in np.flatnonzero(~chain.is_pilot)[erased])
    try:
        return library.decode_frame(chain.rate, labels, length, mask)
    except library.NoSeed:
        return None, 0


def _legacy_answers(source) -> Iterator[Tuple[Optional[bytes], int]]:
    """The octets of each frame of a capture of clause 18 in one call of the library, and at how many places they differ."""
    with fronted(source, 0) as (_, stream):
        try:
            answers = read_answers(library.lrx(stream.read()))
        except library.Refused as refused:
            raise FormatError(refused.kind, refused.offset) from refused
        return ((answer.octets, answer.code) for answer in answers)


def _detected(rate: Rate, triangles: np.ndarray, samples: np.ndarray) -> np.ndarray:
    """The labels of data subcarriers, (symbols, subcarriers, streams), from channels and samples."""
    return detected(rate, triangles, samples).labels


def _labels(frame: CaptureFrame) -> Tuple[np.ndarray, np.ndarray]:
    """The labels of an HT frame's data subcarriers, 0 where erased, and which are erased."""
    data = ~frame.rate.is_pilot
    erased = np.asarray(frame.erased)[data]
    labels = np.zeros((len(frame.samples), erased.size, frame.rate.streams), np.uint8)
    if not erased.all():
        labels[:, ~erased] = _detected(frame.rate, frame.triangles[data][~erased], frame.samples[:, data][:, ~erased])
    return labels, erased


def _legacy_labels(frame: LegacyCaptured) -> Tuple[np.ndarray, np.ndarray]:
    data = ~clause18.IS_PILOT
    channels = frame.diagonal[data].astype(complex)[:, None, None]
    samples = frame.samples[:, data, 0] + 1j * frame.samples[:, data, 1]
    return _detected(frame.rate.constellation, channels, samples[:, :, None]), np.zeros(channels.size, bool)
