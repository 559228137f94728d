"""``mizgaure packets``: what the frames of a capture carry."""

from __future__ import annotations

import argparse
from contextlib import contextmanager
from typing import Any, Dict, Iterator, List, Optional, Tuple

from ..answers import Answers, FrameAnswer, Refused, read_answers
from ..errors import FormatError, InputError
from ..files import Source, naming, reading, refuse_overwriting
from ..formats import MAGIC
from ..packets import Mpdu, Packet, Psdu, Radiotap, packets_of, take_apart, write_pcap
from ..program import Radio
from ..rates import Rate
from ..shards import rates_of
from .base import Command, add_tables, held, refuse_idle, refuse_tables, write_tables

ROLES = ("RA", "TA", "DA", "SA", "BSSID")
COLUMNS = ("frame", "bandwidth", "mcs", "aggregated", "mpdu", "offset", "octets", "fcs", "type", "sequence", *ROLES)
STEP = 1000  # nanoseconds from one frame to the next, since a capture has no clock


def words(command: argparse.ArgumentParser) -> None:
    command.add_argument("capture", metavar="CAPTURE", help="a capture (HTCP), or the lines of radio rx")
    command.add_argument("--answers", metavar="LINES", help="kept lines of radio rx, in place of running it")
    command.add_argument("--aggregated", choices=("yes", "no", "guess"), default="guess",
                         help="whether the frames are A-MPDUs (default: guess, by FCS and delimiters)")
    command.add_argument("-o", "--output", metavar="FILE",
                         help="write the MPDUs with radiotap headers (pcap, or pcapng where it ends in .pcapng), as Wireshark reads them")
    add_tables(command)


def run(given: argparse.Namespace) -> None:
    if given.output:
        refuse_overwriting(given.output, given.force)
    refuse_tables(given)
    aggregated = {"yes": True, "no": False, "guess": None}[given.aggregated]
    records: List[Dict[str, Any]] = []
    packets: List[Packet] = []
    seen = good = empty = 0
    with naming(given.capture), _decoded(given) as (answers, rates):
        for answer in answers:
            if not isinstance(answer, FrameAnswer):
                raise InputError("these are lines of radio detect, and those of radio rx are asked for")
            rate = rates[answer.frame] if answer.frame < len(rates) else None
            if answer.octets is None:
                print(f"frame {answer.frame}: no octets, since the scrambler's seed is zero")
                records.append(_record(answer.frame, rate))
                empty += 1
                continue
            psdu = take_apart(answer.octets, aggregated)
            _say(answer.frame, psdu)
            records += [_record(answer.frame, rate, psdu, number) for number in range(len(psdu.mpdus))] or [_record(answer.frame, rate, psdu)]
            radiotap = Radiotap() if rate is None else Radiotap(rate.bandwidth, rate.mcs, ldpc=False, stbc=0, extension=0)
            packets += packets_of(psdu, radiotap, answer.frame * STEP, answer.frame)
            seen, good = seen + len(psdu.mpdus), good + psdu.good
        if isinstance(answers.last, Refused):
            raise FormatError(answers.last.kind, answers.last.offset)
        if answers.last is None:
            raise InputError("the lines of radio rx have no end")
        if given.answers and answers.last.frames != len(rates):
            raise InputError(f"frames in the capture {len(rates)}, and in these answers {answers.last.frames}")
    frames = "1 frame" if answers.last.frames == 1 else f"{answers.last.frames} frames"
    print(f"{frames}, {seen} MPDU{'' if seen == 1 else 's'}: {good} with a good FCS" + (f"; {empty} without octets" if empty else ""))
    if given.output:
        write_pcap(given.output, packets, given.force)
    write_tables(given, records, COLUMNS)


def _say(frame: int, psdu: Psdu) -> None:
    print(f"frame {frame}: {psdu}")
    for number, mpdu in enumerate(psdu.mpdus if psdu.aggregated else ()):
        print(f"frame {frame} MPDU {number}: {mpdu}")


def _record(frame: int, rate: Optional[Rate], psdu: Optional[Psdu] = None, number: Optional[int] = None) -> Dict[str, Any]:
    """An MPDU, a frame without one, or a frame without octets as a record."""
    record: Dict[str, Any] = {"frame": frame, "bandwidth": rate and rate.bandwidth, "mcs": rate and rate.mcs, "aggregated": psdu and psdu.aggregated,
                              "mpdu": number}
    mpdu: Optional[Mpdu] = None if psdu is None or number is None else psdu.mpdus[number]
    header = None if mpdu is None else mpdu.header
    record.update(offset=mpdu and mpdu.offset, octets=mpdu and len(mpdu.octets), fcs=mpdu and ("good" if mpdu.good else "bad"))
    record.update(type=header and header.name, sequence=header.sequence[0] if header and header.sequence else None)
    record.update({role: header and header.address(role) for role in ROLES})
    return record


@contextmanager
def _decoded(given: argparse.Namespace) -> Iterator[Tuple[Answers, List[Rate]]]:
    """The answers of ``radio rx``, and the rates of the frames where there is a capture."""
    source: Source = held(given.capture)
    with reading(source) as stream:
        is_capture = stream.read(4) == MAGIC["htcp"]
    if not is_capture and given.answers is None and _has_lines(source):
        refuse_idle(given, "radio", True, "these are lines of it already")
        yield read_answers(source), []
        return
    rates = list(rates_of(source))
    refuse_idle(given, "radio", given.answers, "--answers are in place of a run of it")
    if given.answers:
        with naming(given.answers):
            yield read_answers(given.answers), rates
        return
    radio = Radio(given.radio)
    radio.need("rx")
    with radio.answers("rx", source) as answers:
        yield answers, rates


def _has_lines(source: Source) -> bool:
    with reading(source) as stream:
        return stream.read(8).split(b" ")[0] in (b"frame", b"job", b"end", b"refused")


COMMAND = Command("packets", "say what MPDUs the frames of a capture carry, and write them for Wireshark", words, run, radio=True, writes=True)
