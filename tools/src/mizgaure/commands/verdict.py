"""``mizgaure verdict``: the standard's transmitter tests on a recording."""

from __future__ import annotations

import argparse
from collections import Counter
from typing import Iterator, List, Optional

from ..air.limits import EDITION
from ..air.record import packets_in
from ..air.recording import ENDLESS, Recording
from ..air.transmitter import FAIL, Finding, Measured, findings, measure, source_of
from ..errors import InputError
from ..program import Progress
from .base import Command, add_tables, not_negative, positive, refuse_tables, write_tables
from .record import Heard, add_recording, opened
from .record import status_of as status_of_mistakes

COLUMNS = ("test", "clause", "edition", "subject", "limit_low", "limit_high", "unit", "value", "low", "high", "where", "frames", "frames_asked",
           "frames_named", "verdict", "outcome")
FAILED_STATUS = 1
STBC = "with STBC, whose points are known over two chains together alone"


def words(command: argparse.ArgumentParser) -> None:
    add_recording(command)
    command.add_argument("--frequency", metavar="HZ", type=positive, help="of the middle of the recorded band (default: as the recording says)")
    command.add_argument("--reference-ppm", metavar="PPM", type=not_negative,
                         help="by how much the recorder's own clock may be wrong; without it there is no verdict on frequencies")
    command.add_argument("--complete", action="store_true", help="end with status 1 also where a test has no verdict")
    add_tables(command)


def run(given: argparse.Namespace) -> int:
    refuse_tables(given)
    with opened(given, given.recording) as recording:
        heard = Heard(given, recording)
        left_out: Counter = Counter()
        packets = list(measured(heard.recording, processes=given.processes or 1, left_out=left_out))
        heard.remark()
        if not packets:
            raise InputError(f"{recording.name}: {unmeasured(left_out) or heard.nothing()}")
        frequency = given.frequency or recording.frequency
        found = findings(packets, frequency, given.reference_ppm, recording.layout.rate)
    print(f"transmitter tests of {EDITION}: {len(packets)} packets"
          + ("" if frequency is None else f" at {frequency / 1e6:g} MHz") + f", {recording.layout.rate / 1e6:g} million samples a second")
    if left_out:
        print(unmeasured(left_out))
    for finding in found:
        print(finding)
    counts = {"counts": {"packets": len(packets), "unmeasured": dict(sorted(left_out.items()))}}
    write_tables(given, [finding.record() for finding in found], COLUMNS, [counts])
    return status_of_mistakes(left_out) or status_of(found, given.complete)


def unmeasured(left_out: Counter) -> str:
    """How many packets aren't measured, and why; nothing where all are."""
    count = sum(left_out.values())
    reasons = ", ".join(f"{number} {reason}" for reason, number in sorted(left_out.items()))
    return f"{'1 packet isn' if count == 1 else f'{count} packets aren'}'t measured: {reasons}" if count else ""


def status_of(found: List[Finding], complete: bool) -> int:
    """1 where a test fails, and where completeness is asked for also where one that has a limit of its own has no verdict."""
    asked = [finding for finding in found if not finding.is_for_show]
    failed = any(finding.verdict == FAIL for finding in asked)
    return FAILED_STATUS if failed or complete and any(finding.verdict is None for finding in asked) else 0


def measured(recording: Recording, shown: Optional[bool] = None, processes: int = 1, left_out: Optional[Counter] = None) -> Iterator[Measured]:
    """What each packet gives that can be received and has no STBC, with a bar that shows how far it was read.

    Parameters
    ----------
    recording : Recording
    shown : bool, optional
        Whether there is a bar; where None, on a terminal.
    processes : int
    left_out : Counter, optional
        It counts the other packets by why they aren't measured.

    Raises
    ------
    InputError
        If it comes through a pipe.
    """
    if recording.length == ENDLESS:
        raise InputError(f"{source_of(recording).name}: packets are measured at more than one place of a recording, and so not from a pipe")
    bar = Progress(recording.length, "packets", shown, unit=" samples")
    behind = 0
    try:
        for packet in packets_in(recording, keep=True, processes=processes):
            if packet.left_out is None and packet.untracked is not None:
                yield measure(recording, packet, behind)
            elif left_out is not None:
                left_out[packet.left_out or STBC] += 1
            bar.add(max(0, packet.end - bar.done))
            behind = max(behind, packet.end)
        bar.add(max(0, recording.length - bar.done))
    finally:
        bar.close()


COMMAND = Command("verdict", "hold the packets of a recording beside the standard's limits for transmitters", words, run, writes=True)
