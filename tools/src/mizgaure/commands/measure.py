"""``mizgaure measure``: error vector magnitude and error rates of captures."""

from __future__ import annotations

import argparse
from contextlib import ExitStack, closing
from typing import Any, Dict, Iterator, List, Optional, Tuple, Union

import numpy as np

from ..answers import FrameAnswer, Jobs
from ..errors import InputError
from ..files import Source, naming, reading, refuse_overwriting
from ..formats import CaptureFrame, SymbolsFrame, read_any
from ..inside import Called, Inside
from ..judge import Reference
from ..measures import (ErrorRates, Magnitudes, constellation_tests, decibels, evm, octet_errors, percent, point_errors, rates_by_name,
                        residual_ratio)
from ..program import Radio
from ..rates import Rate
from ..tables import write_csv, write_json_lines
from . import base
from .base import Command

STREAMS = range(1, 5)
COLUMNS = ("file", "frame", "bandwidth", "mcs", "octets", "symbols", "evm", "evm_db", "limit_db", "within", "residual", "residual_db",
           *(f"evm_stream{n}" for n in STREAMS), *(f"residual_stream{n}" for n in STREAMS),
           "point_errors", "points", "bit_errors", "bits", "octet_bit_errors", "octet_bits", "frame_wrong")


def words(command: argparse.ArgumentParser) -> None:
    command.add_argument("captures", metavar="CAPTURE", nargs="+")
    command.add_argument("--answers", metavar="LINES", action="append",
                         help="kept lines of radio detect and radio rx, in place of running it; once for each capture")
    command.add_argument("--sent", metavar="FILE", action="append",
                         help="what was sent: a file of frames (HTTX) or of symbols (HTSY); once for each capture")
    command.add_argument("--octets", metavar="FILE", action="append",
                         help="what was sent: the octets of all frames, one behind the other; once for each capture")
    command.add_argument("--untracked", action="store_true", help="leave the phase of each symbol where it is, where pilots have other signs")
    command.add_argument("--json", metavar="FILE", help="write the measures as JSON lines")
    command.add_argument("--csv", metavar="FILE", help="write the measures as a table, a row a frame")


def run(given: argparse.Namespace) -> None:
    for path in (given.json, given.csv):
        if path:
            refuse_overwriting(path, given.force)
    if given.captures.count("-") > 1:
        raise InputError("only one capture can be standard input")
    for name in ("answers", "sent", "octets"):
        files = getattr(given, name)
        if files and len(files) != len(given.captures):
            raise InputError(f"--{name} comes once for each capture: captures {len(given.captures)}, --{name} {len(files)}")
    records: List[Dict[str, Any]] = []
    total = ErrorRates()
    base.refuse_idle(given, "radio", given.answers, "--answers are in place of a run of it")
    radio = None if given.answers else base.receiver_of(given.radio)
    for number, capture in enumerate(given.captures):
        files = {name: getattr(given, name)[number] if getattr(given, name) else None for name in ("answers", "sent", "octets")}
        for record, rates in _measured(capture, radio, not given.untracked, **files):
            if len(given.captures) > 1 and record["frame"] == 0:
                print(f"{capture}:")
            _say(record)
            records.append(record)
            total += rates
    tests = constellation_tests((Rate(r["bandwidth"], r["mcs"]), r["symbols"], r["evm"]) for r in records)
    for test in tests:
        print(test)
    for name, rate in rates_by_name(total).items():
        print(f"{name} {rate}")
    if given.csv:
        write_csv(given.csv, [_row(record) for record in records], COLUMNS, given.force)
    if given.json:
        write_json_lines(given.json, [*map(_line, records), *_sums(tests, total)], given.force)


def _measured(capture: str, radio: Optional[Union[Inside, Radio]], tracked: bool, answers: Optional[str], sent: Optional[str],
              octets: Optional[str]) -> Iterator[Tuple[Dict[str, Any], ErrorRates]]:
    """For each frame of a capture its measures, and its errors where it is known what was sent."""
    source = base.held(capture)
    sent_octets, sent_points = _sent(source, capture, sent, octets)
    with ExitStack() as stack:
        known: Reference = (stack.enter_context(closing(Called(radio, source, "measure"))) if isinstance(radio, Inside)
                            else _Read(stack, radio, source, answers, sent_octets is not None))
        for number, frame in enumerate(base.frames_of(source, capture)):
            jobs = known.jobs(number, frame)
            if jobs is None or jobs.frame != number:
                raise InputError(f"there are no answers to frame {number} of {capture}")
            rates = ErrorRates()
            if sent_points is not None:
                rates += point_errors(_of(sent_points, number, capture), jobs)
            if sent_octets is not None:
                answer = known.frame(number, frame)
                if answer is not None:
                    rates += octet_errors(_of(sent_octets, number, capture), answer.octets)
            record = {"file": capture, "frame": number, "rate": frame.rate, "bandwidth": frame.rate.bandwidth, "mcs": frame.rate.mcs,
                      "octets": frame.length, "symbols": frame.samples.shape[0], "unheard": base.unheard(frame)}
            yield {**record, **_magnitudes(frame, evm(frame, tracked), residual_ratio(frame, jobs)), "errors": rates}, rates


class _Read:
    """By the program's lines, as it writes them or kept ones."""

    def __init__(self, stack: ExitStack, radio: Optional[Radio], source: Source, answers: Optional[str], decoding: bool) -> None:
        self._detected: Iterator = iter(())
        self._decoded: Iterator = iter(())
        self._waiting: Dict[int, FrameAnswer] = {}
        if answers:
            kept_jobs, kept_frames = base.kept_answers(answers)
            self._detected, self._decoded = iter(kept_jobs), iter(kept_frames)
        elif radio is not None:
            if decoding:
                self._decoded = stack.enter_context(radio.answers("rx", source))
            self._detected = stack.enter_context(radio.answers("detect", source))

    def jobs(self, _: int, __: CaptureFrame) -> Optional[Jobs]:
        return next((record for record in self._detected if isinstance(record, Jobs)), None)

    def frame(self, number: int, _: CaptureFrame) -> Optional[FrameAnswer]:
        return self._waiting.pop(number, None) or next((record for record in self._decoded if _is_of(record, number, self._waiting)), None)


def _is_of(record: Any, number: int, waiting: Dict[int, FrameAnswer]) -> bool:
    if not isinstance(record, FrameAnswer):
        return False
    if record.frame != number:
        waiting[record.frame] = record
    return record.frame == number


def _of(sent: List, number: int, capture: str):
    if number >= len(sent):
        raise InputError(f"{len(sent)} frame{' was' if len(sent) == 1 else 's were'} sent, and {capture} has more")
    return sent[number]


def _magnitudes(frame: CaptureFrame, standard: Magnitudes, detector: Magnitudes) -> Dict[str, Any]:
    limit = frame.rate.error_limit
    found: Dict[str, Any] = {"limit_db": limit, "within": bool(decibels(standard.frame) <= limit)}
    for name, part in (("evm", standard), ("residual", detector)):
        found.update({name: part.frame, f"{name}_db": decibels(part.frame), f"{name}_streams": part.streams,
                      f"{name}_subcarriers": part.subcarriers, f"{name}_cells": part.cells})
    return found


def _sent(source: Source, capture: str, sent: Optional[str], octets_file: Optional[str]) -> Tuple[Optional[List[bytes]], Optional[List[SymbolsFrame]]]:
    """The octets and the points that were sent, where they are known."""
    octets: Optional[List[bytes]] = None
    points: Optional[List[SymbolsFrame]] = None
    if sent:
        with naming(sent):
            name, frames = read_any(sent)
            if name == "htcp":
                raise InputError("a capture doesn't say what was sent; a file of frames or of symbols does")
            if name == "httx":
                octets = [frame.octets for frame in frames]
            else:
                points = list(frames)
    if octets_file:
        if octets is not None:
            raise InputError("the octets that were sent are given twice, by --sent and by --octets")
        lengths = [frame.length for frame in base.frames_of(source, capture)]
        with reading(octets_file) as stream:
            whole = stream.read()
        if len(whole) != sum(lengths):
            raise InputError(f"{octets_file} has {len(whole)} octets, and the frames of {capture} have {sum(lengths)}")
        ends = np.cumsum(lengths)
        octets = [whole[end - length : end] for end, length in zip(ends, lengths)]
    return octets, points


def _say(record: Dict[str, Any]) -> None:
    def streams(name: str) -> str:
        return ", ".join(f"stream {n} {100 * value:.2f} %" for n, value in enumerate(record[f"{name}_streams"], 1))

    verdict = "within" if record["within"] else "above"
    print(f"frame {record['frame']}: {record['rate']}, {base.octets(record['octets'])}: "
          f"EVM {percent(record['evm'])}, {verdict} {record['limit_db']} dB; {streams('evm')}; "
          f"residual {percent(record['residual'])}; {streams('residual')}{record['unheard']}")


def _row(record: Dict[str, Any]) -> Dict[str, Any]:
    row = {name: record[name] for name in COLUMNS if name in record}
    for name in ("evm", "residual"):
        row.update({f"{name}_stream{n}": value for n, value in enumerate(record[f"{name}_streams"], 1)})
    rates: ErrorRates = record["errors"]
    for events, trials, rate in (("point_errors", "points", rates.symbols), ("bit_errors", "bits", rates.bits),
                                 ("octet_bit_errors", "octet_bits", rates.octet_bits)):
        if rate.trials:
            row.update({events: rate.events, trials: rate.trials})
    if rates.frames.trials:
        row["frame_wrong"] = bool(rates.frames.events)
    return row


def _line(record: Dict[str, Any]) -> Dict[str, Any]:
    return {name: value for name, value in record.items() if name not in ("rate", "errors", "unheard")}


def _sums(tests, total: ErrorRates) -> Iterator[Dict[str, Any]]:
    for test in tests:
        yield {"test": str(test.rate), "frames": test.frames, "evm": test.mean, "evm_db": decibels(test.mean),
               "limit_db": test.rate.error_limit, "within": test.is_within, "full": test.is_full}
    for name, rate in rates_by_name(total).items():
        yield {"rate": name, "events": rate.events, "trials": rate.trials, "low": rate.interval[0], "high": rate.interval[1]}


COMMAND = Command("measure", "measure error vector magnitude and error rates", words, run, radio=True, writes=True)
