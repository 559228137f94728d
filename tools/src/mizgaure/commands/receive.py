"""``mizgaure receive``: the packets of a recording, received to their octets, and a file of them for Wireshark."""

from __future__ import annotations

import argparse
import io
from collections import Counter
from dataclasses import dataclass, replace
from typing import Any, Dict, Iterator, List, Optional, Tuple

import numpy as np

from ..air.legacy import LegacySpool
from ..air.part import WHOLE, Part
from ..air.record import COLUMNS, Line, Spool, line_of, packets_in
from ..air.recording import ENDLESS, Recording
from ..air.tally import Tally
from ..answers import FrameAnswer, SoftAnswer
from ..errors import InputError, ProgramError
from ..files import naming, refuse_overwriting
from ..formats import read_httx
from ..measures import decibels, evm
from ..packets import Packet, Psdu, Radiotap, packets_of, take_apart, write_pcap
from ..program import Radio
from ..quantise import FOR_SOFT, capture
from ..tables import Records
from .base import Command, add_tables, level, positive_whole, refuse_tables, write_tables
from .record import Heard, add_part, add_recording, opened, part_of, status_of, summary, text_of

BATCH, OCTETS = 100, 1 << 23  # packets and octets of a capture that the program is given at once
TRAINING_LASTS = 8e-6  # seconds of a packet by which its level is told
NO_SEED = "no octets, since the scrambler's seed is zero"
RECEIVED = tuple(name for name in COLUMNS if name not in ("frame", "legacy_frame")) + ("evm", "cost", "octets", "mpdus", "good", "verdict")


@dataclass(frozen=True)
class Received:
    """A packet with its octets, where it has some.

    Parameters
    ----------
    line : Line
    evm : float, optional
        Its error vector magnitude by the standard; None where the packet was left out.
    octets : bytes, optional
        None where the packet was left out, or its scrambler's seed is zero.
    psdu : Psdu, optional
        The same taken apart.
    verdict : str, optional
        Whether it is as it was sent, where that is asked for.
    cost : int, optional
        What its codewords cost by soft decisions; None by hard ones.
    """

    line: Line
    evm: Optional[float] = None
    octets: Optional[bytes] = None
    psdu: Optional[Psdu] = None
    verdict: Optional[str] = None
    cost: Optional[int] = None

    @property
    def is_good(self) -> bool:
        """Whether all of its MPDUs have a good FCS."""
        return self.psdu is not None and self.psdu.good == len(self.psdu.mpdus) > 0 and not self.psdu.lost

    def __str__(self) -> str:
        if self.evm is None:
            return str(self.line)
        cost = "" if self.cost is None else f"; cost {self.cost}"
        verdict = "" if self.verdict is None else f"; {self.verdict}"
        return (f"{self.line.heard}; EVM {100 * self.evm:.2f} % ({decibels(self.evm):.1f} dB){cost}; "
                f"{NO_SEED if self.psdu is None else self.psdu}{verdict}")

    def record(self) -> Dict[str, Any]:
        """The same as a record for a table, by the names of `RECEIVED`."""
        said = {name: value for name, value in self.line.record().items() if name in RECEIVED}
        counts = {} if self.psdu is None else {"mpdus": len(self.psdu.mpdus), "good": self.psdu.good}
        return {**said, "evm": self.evm, "cost": self.cost, "octets": None if self.octets is None else self.octets.hex(), **counts,
                "verdict": self.verdict}


def words(command: argparse.ArgumentParser) -> None:
    add_recording(command)
    add_part(command)
    command.add_argument("-o", "--output", metavar="FILE",
                         help="write the MPDUs with radiotap headers (pcap, or pcapng where it ends in .pcapng), as Wireshark reads them")
    command.add_argument("--soft", action="store_true", help="decode HT packets by soft decisions, and say what they cost")
    command.add_argument("--full-scale", metavar="DBM", type=level, help="the power at an antenna whose samples have mean power 1; levels are in dBm then")
    sent = command.add_mutually_exclusive_group()
    sent.add_argument("--sent", metavar="N", type=positive_whole, help="count right, wrong and lost packets of so many that were sent")
    sent.add_argument("--truth", metavar="FILE", help="count them against these frames (HTTX), which were sent")
    add_tables(command)


def run(given: argparse.Namespace) -> int:
    if given.output:
        refuse_overwriting(given.output, given.force)
    refuse_tables(given)
    text = text_of(given.output, given.csv, given.json)
    tally = _tally(given)
    radio = Radio(given.radio, progress=False)
    for command in ("soft" if given.soft else "rx", "lrx"):
        radio.need(command)
    fates: Counter = Counter()
    mpdus: Counter = Counter()
    if given.full_scale is not None and not given.output:
        raise InputError("--full-scale is said of the levels in --output")
    rows = Records()

    def told(heard: Heard) -> Iterator[Packet]:
        """The records of a pcap file, while lines are printed."""
        for packet in heard.lines(lambda recording: received(recording, radio, given.processes or 1, given.soft, heard.part), lambda packet: packet.line):
            if tally is not None:
                packet = replace(packet, verdict=_counted(tally, packet))
            print(packet, file=text, flush=True)
            fates[packet.line.left_out] += 1
            if packet.psdu is not None:
                mpdus.update(mpdu.good for mpdu in packet.psdu.mpdus)
            if given.csv or given.json:
                rows.append(packet.record())
            yield from records(packet, heard.recording, given.full_scale)

    with opened(given, given.recording) as recording:
        heard = Heard(given, recording, part_of(given))
        if given.output:
            write_pcap(given.output, told(heard), given.force)
        else:
            for _ in told(heard):
                pass
        said = summary(fates, f"received, {mpdus[True]} of {sum(mpdus.values())} MPDUs with a good FCS") if fates else heard.nothing()
        heard.remark()
    write_tables(given, rows, RECEIVED)
    print(said, file=text)
    if tally is not None:
        print(tally, file=text)
    return status_of(fates)


def _tally(given: argparse.Namespace) -> Optional[Tally]:
    """What packets are counted against."""
    if given.truth:
        with naming(given.truth):
            return Tally(list(read_httx(given.truth)))
    return None if given.sent is None else Tally(given.sent)


def _counted(tally: Tally, packet: Received) -> Optional[str]:
    """Count a packet, if it is an HT one."""
    header = packet.line.header
    if "mcs" not in header:
        return None
    return tally.add((header["bandwidth"], header["mcs"], header["length"]), packet.octets, packet.is_good)


def received(recording: Recording, radio: Radio, processes: int = 1, soft: bool = False, part: Part = WHOLE) -> Iterator[Received]:
    """The packets of a recording with their octets, by hard or soft decisions, in their order; of a pipe each as soon as it is there."""
    batch = 1 if recording.length == ENDLESS else BATCH
    waiting = _Batch(radio, soft)
    try:
        for number, packet in enumerate(packets_in(recording, processes=processes, part=part)):
            waiting.add(packet, line_of(packet, number, recording, None, packet.left_out))
            if len(waiting.lines) >= batch or waiting.octets > OCTETS:
                yield from waiting.answered()
                waiting.close()
                waiting = _Batch(radio, soft)
        yield from waiting.answered()
    finally:
        waiting.close()


class _Batch:
    """Packets that the program receives at once: HT ones and those of clause 18."""

    def __init__(self, radio: Radio, soft: bool = False) -> None:
        self.radio, self.soft = radio, soft
        self.spool, self.legacy = Spool(gain=FOR_SOFT if soft else None), LegacySpool()
        self.command = "soft" if soft else "rx"
        self.lines: List[Tuple[Line, Optional[float], Optional[str]]] = []  # with the magnitude and the command that receives it

    @property
    def octets(self) -> int:
        """Of both captures."""
        return self.spool.octets + self.legacy.size

    def add(self, packet, line: Line) -> None:
        """Take a packet."""
        if packet.left_out is None:
            self.lines.append((line, self._taken(packet), self.command))
        elif packet.clause_18 is not None:
            self.legacy.add(packet.clause_18)
            self.lines.append((replace(line, left_out=None), packet.clause_18.evm, "lrx"))
        else:
            self.lines.append((line, None, None))

    def _taken(self, packet) -> Optional[float]:
        """Take a packet's frame; its error vector magnitude, at the largest gain, where rounding shows least."""
        largest = capture([packet.frame]).frames[0] if self.soft else None
        frame = self.spool.add(packet)
        shown = frame if largest is None else largest
        return None if shown is None else evm(shown, tracked=False).frame

    def answered(self) -> Iterator[Received]:
        """The packets with the program's answers to their frames."""
        answers = {self.command: self._answers(self.command, self.spool), "lrx": self._answers("lrx", self.legacy)}
        for line, magnitude, command in self.lines:
            if command is None:
                yield Received(line)
                continue
            answer = next(answers[command], None)
            if not isinstance(answer, (FrameAnswer, SoftAnswer)):
                raise ProgramError(f"{self.radio.path} {command} didn't answer to packet {line.number}")
            psdu = None if answer.octets is None else take_apart(answer.octets, line.header.get("aggregated", False))
            yield Received(line, magnitude, answer.octets, psdu, cost=answer.cost if isinstance(answer, SoftAnswer) else None)

    def _answers(self, command: str, spool) -> Iterator[object]:
        if not spool.frames:
            return iter(())
        made = io.BytesIO()
        spool.write(made)
        ask = {"rx": self.radio.rx, "soft": self.radio.soft, "lrx": self.radio.lrx}[command]
        return iter(ask(made.getvalue()))

    def close(self) -> None:
        """Give the files back."""
        self.spool.close()
        self.legacy.close()


def records(packet: Received, recording: Recording, full_scale: Optional[float] = None) -> Iterator[Packet]:
    """The records of a packet in a pcap file.

    Parameters
    ----------
    packet : Received
    recording : Recording
    full_scale : float, optional
        The power in dBm at an antenna whose samples have mean power 1.
    """
    if packet.psdu is None:
        return
    frequency = recording.frequency_at(packet.line.begin)
    megahertz = 0 if frequency is None else round(frequency / 1e6)
    header = packet.line.header
    radiotap = Radiotap(frequency=megahertz if 0 < megahertz < 1 << 16 else None)
    if "mcs" in header:
        radiotap = replace(radiotap, bandwidth=header["bandwidth"], mcs=header["mcs"], short_guard=header["guard"] == 400,
                           greenfield=header["greenfield"], ldpc=False, stbc=header["stbc"], extension=0)
    else:
        radiotap = replace(radiotap, rate=header["legacy_rate"])
    time = recording.time_of(packet.line.begin)
    told = replace(radiotap, time=max(0, time) // 1000, **levels(packet.line, recording, full_scale))
    yield from packets_of(packet.psdu, told, time, packet.line.number)


def levels(line: Line, recording: Recording, full_scale: Optional[float]) -> Dict[str, int]:
    """The levels of a packet's signal and noise at the antenna that hears most, as fields of `Radiotap`."""
    heard = recording.read(line.begin, round(TRAINING_LASTS * recording.layout.rate))
    powers = np.mean(np.abs(heard.astype(complex)) ** 2, axis=1) if heard.size else np.zeros(1)
    if not powers.max() > 0:
        return {}
    signal = 10 * np.log10(powers.max())
    noise = signal + line.noise
    if full_scale is None:
        return {"signal_level": int(np.clip(round(signal + 128), 0, 255)), "noise_level": int(np.clip(round(noise + 128), 0, 255))}
    return {"signal": int(np.clip(round(signal + full_scale), -128, 127)), "noise": int(np.clip(round(noise + full_scale), -128, 127))}


COMMAND = Command("receive", "receive the packets of a recording to their octets", words, run, radio=True, writes=True)
