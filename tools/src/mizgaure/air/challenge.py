"""The standard's receiver tests as recordings for a device, and what it answers held beside the limit (clause 20.3.21).

A recording has packets at the clause's level in noise of -101 dBm and a noise figure of 10 dB in 20 MHz; levels are those at an
antenna whose samples of mean power 1 are full scale. The frames that were sent stand beside it.
"""

from __future__ import annotations

import io
import json
import os
from collections import Counter
from dataclasses import asdict, dataclass
from typing import Any, Callable, Dict, Iterable, Iterator, List, Optional, Sequence, cast

import numpy as np

from ..errors import InputError
from ..files import naming, reading, writing
from ..formats import SentFrame, SymbolsFrame, read_htsy, read_httx, write_httx
from ..measures import Proportion
from ..packets import read_pcap, with_fcs
from ..program import Radio
from ..rates import Rate
from .limits import ADJACENT, NONADJACENT, REJECTION, REJECTION_FAR, SENSITIVITY, SENSITIVITY_LEVELS, Limit
from .recording import Layout, Writer, write_recording
from .simulate import LEVEL, Scene, least_oversampling, record_packets

NOISE = -101 + 10  # dBm in 20 MHz, with the noise figure of the clause
ABOVE = 3.0  # dB above the sensitivity at which a neighbour is tried
MOST_WRONG = 0.1  # of packets
PLAN = "challenge.jsonl"
TESTS = {"sensitivity": SENSITIVITY, "adjacent": ADJACENT, "nonadjacent": NONADJACENT}
REJECTIONS = {"adjacent": REJECTION, "nonadjacent": REJECTION_FAR}
ANSWERS = (".pcap", ".pcapng", ".lines")
HEADER = bytes.fromhex("8801 0000 020000000001 020000000002 020000000003 0000 0000".replace(" ", ""))  # of QoS Data


@dataclass(frozen=True)
class Challenge:
    """One recording of a test.

    Parameters
    ----------
    test : str
        A key of `TESTS`.
    bandwidth, mcs : int
    packets, length : int
        How many there are, and their octets.
    full_scale : float
        In dBm.
    """

    test: str
    bandwidth: int
    mcs: int
    packets: int
    length: int
    full_scale: float

    @property
    def name(self) -> str:
        """Of its files, without the ending."""
        return f"{self.test}-{self.bandwidth}-mcs{self.mcs:02}"

    @property
    def limit(self) -> Limit:
        """The test of the standard."""
        return TESTS[self.test]

    @property
    def level(self) -> float:
        """Of the packets, in dBm."""
        lowest = SENSITIVITY_LEVELS[self.bandwidth][self.mcs % 8]
        return lowest + (ABOVE if self.test in REJECTIONS else 0.0)

    @property
    def neighbour(self) -> Optional[float]:
        """How many dB the neighbour is above the packets; None where there is none."""
        return float(REJECTIONS[self.test][self.mcs % 8]) if self.test in REJECTIONS else None

    @property
    def oversampling(self) -> int:
        """The recording's rate in units of 20 million samples a second: the least one that has the packets, and the neighbour where there is one."""
        return self.bandwidth // 20 if self.neighbour is None else least_oversampling(self.bandwidth, self.test == "nonadjacent")

    def write(self, folder: str, radio: Radio, seed: int, force: bool, done: Callable[[int], None] = lambda count: None) -> None:
        """Write the recording and the frames that were sent; ``done`` is told of each packet.

        Raises
        ------
        InputError
            If the files are there already or can't be written.
        """
        frames = self.frames(seed)
        base = os.path.join(folder, self.name)
        over = self.oversampling
        scene = Scene(snr=self.level - NOISE - 10 * np.log10(over), seed=seed, neighbour=self.neighbour, nonadjacent=self.test == "nonadjacent")
        layout = Layout("cf32_le", 20e6 * over, frames[0].rate.streams)
        made = io.BytesIO()
        write_httx(made, frames)
        octets = made.getvalue()
        symbols = radio.tx(octets)
        factor = 10 ** ((self.level - self.full_scale) / 20) / LEVEL

        def fill(writer: Writer) -> None:
            record_packets(_told(read_htsy(symbols), done), scene, layout.channels, over, cast(Writer, _Scaled(writer, factor)))

        write_recording(base, layout, fill, frequency=scene.frequency, force=force,
                        description=f"{self.limit.test}, clause {self.limit.clause}: {self.level:g} dBm, full scale {self.full_scale:g} dBm")
        with writing(f"{base}.httx", force) as stream:
            stream.write(octets)

    def frames(self, seed: int) -> List[SentFrame]:
        """The frames that are sent: MPDUs of random octets with their FCS, each another."""
        random = np.random.default_rng((seed, self.bandwidth, self.mcs))
        rate = Rate(self.bandwidth, self.mcs)
        made = []
        for number in range(self.packets):
            body = HEADER[:22] + (number % 4096 << 4).to_bytes(2, "little") + HEADER[24:] + random.bytes(max(0, self.length - len(HEADER) - 4))
            made.append(SentFrame(rate, with_fcs(body[: self.length - 4]), number % 127 + 1))
        return made


def _told(frames: Iterable[SymbolsFrame], done: Callable[[int], None]) -> Iterator[SymbolsFrame]:
    """Frames as they are taken, each told of when the next one is asked for."""
    for frame in frames:
        yield frame
        done(1)


class _Scaled:
    """A writer whose samples are multiplied first."""

    def __init__(self, writer: Writer, factor: float) -> None:
        self._writer, self._factor = writer, factor

    @property
    def length(self) -> int:
        return self._writer.length

    @property
    def annotations(self) -> List[dict]:
        return self._writer.annotations

    def write(self, samples: np.ndarray) -> None:
        self._writer.write(samples * self._factor)


def write_plan(folder: str, challenges: Sequence[Challenge], force: bool) -> None:
    """Write which recordings a folder has."""
    with writing(os.path.join(folder, PLAN), force) as stream:
        stream.write("".join(json.dumps(asdict(each)) + "\n" for each in challenges).encode())


def read_plan(folder: str) -> List[Challenge]:
    """The recordings of a folder.

    Raises
    ------
    InputError
    """
    path = os.path.join(folder, PLAN)
    with naming(path), reading(path) as stream:
        try:
            made = [Challenge(**json.loads(line)) for line in stream.read().decode().splitlines()]
            assert made and all(each.test in TESTS for each in made)
        except (ValueError, TypeError, AssertionError):
            raise InputError("it isn't what mizgaure challenge writes") from None
    return made


@dataclass(frozen=True)
class Outcome:
    """What a device answered to a recording.

    Parameters
    ----------
    challenge : Challenge
    right : int or None
        How many of the packets came whole; None where there are no answers.
    other : int
        How many of its answers are none of the packets.
    """

    challenge: Challenge
    right: Optional[int]
    other: int = 0

    @property
    def error_rate(self) -> Proportion:
        """Of packets that didn't come, or not whole."""
        return Proportion(self.challenge.packets - (self.right or 0), self.challenge.packets)

    @property
    def verdict(self) -> Optional[str]:
        """``pass`` where the interval is within the limit, ``fail`` where it is outside, and None otherwise."""
        if self.right is None:
            return None
        low, high = self.error_rate.interval
        return "fail" if low > MOST_WRONG else "pass" if high <= MOST_WRONG else None

    def __str__(self) -> str:
        front = f"{self.challenge.name}, clause {self.challenge.limit.clause}, {self.challenge.level:g} dBm: "
        if self.right is None:
            return f"{front}no verdict: there are no answers"
        other = f"; {self.other} answers are none of the packets" if self.other else ""
        verdict = self.verdict or "no verdict: the interval has the limit in it"
        return f"{front}packet error rate {self.error_rate}, limit {MOST_WRONG:g}{other}: {verdict}"

    def record(self) -> Dict[str, Any]:
        """The same as a record."""
        low, high = self.error_rate.interval
        known = self.right is not None
        return {**asdict(self.challenge), "name": self.challenge.name, "clause": self.challenge.limit.clause, "level": self.challenge.level,
                "right": self.right, "other": self.other, "per": self.error_rate.value if known else None,
                "per_low": low if known else None, "per_high": high if known else None,
                "limit": MOST_WRONG, "verdict": self.verdict}


def judge_answers(folder: str, challenge: Challenge) -> Outcome:
    """Count what a device answers to a recording: NAME.pcap or NAME.pcapng with MPDUs, or NAME.lines with octets in hexadecimal digits.

    Raises
    ------
    InputError
        If the answers or the frames that were sent can't be read.
    """
    base = os.path.join(folder, challenge.name)
    paths = [base + ending for ending in ANSWERS if os.path.isfile(base + ending)]
    if not paths:
        return Outcome(challenge, None)
    if len(paths) > 1:
        raise InputError(f"{' and '.join(paths)} are both answers to one recording")
    with naming(f"{base}.httx"):
        sent = Counter(frame.octets for frame in read_httx(f"{base}.httx"))
    with naming(paths[0]):
        answered = Counter(_answers(paths[0]))
    right = sum((sent & answered).values())
    return Outcome(challenge, right, sum((answered - sent).values()))


def _answers(path: str) -> Iterator[bytes]:
    if not path.endswith(".lines"):
        for packet in read_pcap(path):
            yield packet.octets if packet.radiotap.has_fcs else with_fcs(packet.octets)
        return
    with reading(path) as stream:
        for number, line in enumerate(stream, 1):
            words = line.split()
            if not words or words[0] == b"end" or words[-2:] == [b"seed", b"zero"]:
                continue
            try:
                yield bytes.fromhex(words[-1].decode("ascii"))
            except ValueError:
                raise InputError(f"line {number} doesn't end with octets in hexadecimal digits") from None
