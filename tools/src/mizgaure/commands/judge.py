"""``mizgaure judge``: another receiver's answers beside the reference."""

from __future__ import annotations

import argparse
import json
from contextlib import ExitStack
from typing import Dict, Iterator, List, Sequence, Union

from ..errors import InputError
from ..files import refuse_overwriting, writing
from ..judge import SAME, Counts, FrameVerdict, judged, write_verdict
from ..soft import SoftCounts, SoftVerdict, judged_soft
from .base import Command, receiver_of, refuse_idle, whole

WORSE_STATUS = 1


def words(command: argparse.ArgumentParser) -> None:
    command.add_argument("capture", metavar="CAPTURE", help="a capture (HTCP)")
    command.add_argument("answers", metavar="ANSWERS",
                         help="lines 'job FRAME SYMBOL CARRIER I Q ..' and 'frame N octets HEX', or certificates (HTCT); - is standard input")
    command.add_argument("--reference", metavar="LINES", help="kept lines of radio detect and radio rx, or with --soft of radio soft, in place of running it")
    command.add_argument("--soft", action="store_true", help="the answers are a soft decoder's: compare its octets with those of radio soft")
    command.add_argument("--json", metavar="FILE", help="write all verdicts as JSON lines")
    command.add_argument("--list", metavar="N", type=whole, default=10, help="print at most N of each kind of mistakes (default 10)")
    command.add_argument("--complete", action="store_true", help="end with status 1 also where a job or a frame has no answer")
    command.add_argument("--without", choices=("jobs", "frames"), help="the receiver answers no jobs, or no frames: none of them is missing")
    command.add_argument("--stated", action="store_true", help="end with status 1 also where a distance, a sum or a number of frames is misstated")


def run(given: argparse.Namespace) -> int:
    if given.capture == "-" and given.answers == "-":
        raise InputError("the capture and the answers can't both be standard input")
    if given.soft and given.without:
        raise InputError("--without is said of answers to jobs and frames, and with --soft there are frames alone")
    refuse_idle(given, "radio", given.reference, "--reference is in place of a run of it")
    if given.json:
        refuse_overwriting(given.json, given.force)
    radio = None if given.reference else receiver_of(given.radio)
    counts: Union[Counts, SoftCounts] = SoftCounts(given.list) if given.soft else Counts(given.list)
    lines: List[str] = []
    with ExitStack() as stack:
        stream = stack.enter_context(writing(given.json, given.force)) if given.json else None
        verdicts = judged_soft if isinstance(counts, SoftCounts) else judged
        for verdict in verdicts(given.capture, given.answers, counts, reference=given.reference, radio=radio):
            if stream is not None:
                write_verdict(stream, verdict)
            if isinstance(verdict, (FrameVerdict, SoftVerdict)) and verdict.verdict != SAME and len(lines) < given.list:
                lines.append(_of_frame(verdict))
        if stream is not None:
            stream.write(json.dumps(counts.record()).encode() + b"\n")
    missing = _missing(given, counts)
    for line in [*_mistakes(counts), *lines, *_told(counts, missing.get("frames", [])), *_sums(counts, missing)]:
        print(line)
    clean = counts.is_clean and not (given.stated and counts.misstated) and not (given.complete and any(missing.values()))
    return 0 if clean else WORSE_STATUS


def _of_frame(verdict: Union[FrameVerdict, SoftVerdict]) -> str:
    if isinstance(verdict, SoftVerdict):
        return f"{verdict.verdict}: frame {verdict.frame} has other octets, and those of radio soft cost {verdict.cost}"
    code = "" if verdict.code is None else f", at Hamming distance {verdict.code}, and {verdict.least} is the least"
    return f"{verdict.verdict}: frame {verdict.frame} has other octets{code}"


def _missing(given: argparse.Namespace, counts: Union[Counts, SoftCounts]) -> Dict[str, Union[int, List[int]]]:
    """What has no answer, of the kinds that are asked for."""
    missing: Dict[str, Union[int, List[int]]] = {"frames": counts.missing}
    if isinstance(counts, Counts):
        answered = {"jobs": sum(counts.job_counts.values()), "frames": sum(counts.frame_counts.values())}
        missing["jobs"] = counts.unanswered
        if given.without and answered[given.without]:
            raise InputError(f"--without {given.without} says that there are no such answers, and there are {answered[given.without]}")
        if given.without:
            del missing[given.without]
    return missing


def _mistakes(counts: Union[Counts, SoftCounts]) -> Iterator[str]:
    """The worst jobs."""
    for record in counts.worst if isinstance(counts, Counts) else ():
        frame, symbol, carrier = record["job"]
        what = ("outside its grid" if record["verdict"] == "outside"
                else f"{record['distance'] - record['least']} farther: {record['distance']}, and {record['least']} is the least")
        yield f"{record['verdict']}: job {frame} {symbol} {carrier} is {what}"


def _told(counts: Union[Counts, SoftCounts], missing: Sequence[int]) -> Iterator[str]:
    """What else is to be said of single lines, frames and jobs, and what explains it."""
    yield from map(str, counts.faults)
    for sentence in counts.misstatements:
        yield f"misstated: {sentence}"
    if missing and (isinstance(counts, SoftCounts) or any(counts.frame_counts.values())):
        yield f"missing: {'frame' if len(missing) == 1 else 'frames'} {spans(missing, counts.listed)}"
    for cause in counts.causes:
        yield f"cause: {cause}"


def spans(numbers: Sequence[int], most: int) -> str:
    """Ascending numbers in words, those in a row as one span, and at most so many spans."""
    found: List[List[int]] = []
    for number in numbers:
        if found and number == found[-1][-1] + 1:
            found[-1][1:] = [number]
        else:
            found.append([number])
    text = ", ".join(" to ".join(map(str, span)) for span in found[:most])
    return text + (", .." if text else "..") * (len(found) > most)


def _sums(counts: Union[Counts, SoftCounts], missing: Dict[str, Union[int, List[int]]]) -> Iterator[str]:
    """The counts, in a line for jobs and one for frames, and one for lines where some are no answers."""
    if isinstance(counts, SoftCounts):
        kinds = {"frames": {"same": counts.same, "other": counts.other}}
    else:
        kinds = {"jobs": counts.job_counts, "frames": counts.frame_counts}
    for kind, found in kinds.items():
        without = missing.get(kind)
        if without is None:
            continue
        number = without if isinstance(without, int) else len(without)
        total = sum(found.values())
        if not total and not number:
            continue
        verdicts = "; ".join([_listed(found)] * bool(total) + [f"{number} without an answer"])
        yield f"{kind} {total}: {verdicts}"
    if any(counts.fault_counts.values()):
        yield f"lines that are passed over {sum(counts.fault_counts.values())}: {_listed(counts.fault_counts)}"
    if counts.misstated:
        yield f"misstated {counts.misstated}"


def _listed(counts: Dict[str, int]) -> str:
    return ", ".join(f"{count} {verdict}" for verdict, count in counts.items())


COMMAND = Command("judge", "judge another receiver's answers to a capture", words, run, radio=True, writes=True)
