"""Another soft decoder's octets beside those of ``radio soft``.

The other decoder writes one line for each frame that it decodes, in any order, and it need not decode all:

    frame N octets HEX
    frame N seed zero

The lines of ``radio soft`` and of ``radio rx`` are accepted as well, and so is the end line. Octets are the same or other.
Other octets are no fault by themselves: a decoder that rounds its weights, cuts them elsewhere or has another rule for ties
decides by other costs. A cost that is stated with the same octets is compared with the program's.
"""

from __future__ import annotations

import re
from contextlib import contextmanager
from dataclasses import dataclass
from typing import Dict, Iterator, List, Optional, Tuple, Union

from .answers import NUMBER, PLACE, Refused, SoftAnswer, blocks, read_answers, shortened
from .causes import Looks
from .errors import FormatError, InputError
from .files import Source, naming
from .inside import Inside, SoftTexts, receiver
from .program import Radio
from .theirs import REPEATED, THEIR_END, UNREADABLE, LineCounts, LineFault, misplaced

SAME, OTHER = "same", "other"
THEIRS = re.compile(rb"(?:frame (?P<frame>%b)(?: data %b pilot %b code %b)?|soft (?P<soft>%b) cost (?P<cost>%b)) "
                    rb"(?:octets (?P<octets>(?:[0-9a-fA-F]{2})+)|seed zero)" % (PLACE, NUMBER, NUMBER, NUMBER, PLACE, NUMBER))


@dataclass(frozen=True)
class SoftVerdict:
    """The verdict on one frame of another soft decoder.

    Parameters
    ----------
    frame : int
    verdict : str
        ``same``: the program's octets, or a seed of zero as it has. ``other``: all else.
    cost : int
        What the program's codewords cost.
    misstated : bool
        Whether the same octets came with another cost.
    """

    frame: int
    verdict: str
    cost: int
    misstated: bool = False

    def record(self) -> dict:
        """The verdict as it stands in a file of verdicts."""
        record: Dict[str, object] = {"frame": self.frame, "verdict": self.verdict, "cost": self.cost}
        if self.misstated:
            record["misstated"] = True
        return record


@dataclass
class SoftCounts(LineCounts):
    """What the verdicts add up to."""

    same: int = 0
    other: int = 0

    def add(self, verdict: Union[SoftVerdict, LineFault]) -> None:
        """One more verdict on a frame, or a line that is no answer."""
        if isinstance(verdict, LineFault):
            self.add_fault(verdict)
            return
        self.same += verdict.verdict == SAME
        self.other += verdict.verdict == OTHER
        if verdict.misstated:
            self.misstate(f"frame {verdict.frame} states another cost than {verdict.cost}")

    @property
    def is_clean(self) -> bool:
        """Whether all octets are the same, and each line is an answer to be judged."""
        return not (self.other or any(self.fault_counts.values()))

    def record(self) -> dict:
        """The counts as they stand behind the verdicts in a file."""
        return {"counts": {"frames": {SAME: self.same, OTHER: self.other}, "unanswered": len(self.missing), **self.line_record()}}


def judged_soft(capture: Source, answers: Source, counts: SoftCounts, *, reference: Optional[Source] = None,
                radio: Optional[Union[Inside, Radio]] = None) -> Iterator[Union[SoftVerdict, LineFault]]:
    """Judge another soft decoder's octets, in the order of frames.

    Parameters
    ----------
    capture : path, ``"-"``, bytes or binary stream
    answers : path, ``"-"``, bytes or binary stream
        The other decoder's lines, which are read whole.
    counts : SoftCounts
        Each verdict is added to it, and so is each frame without one, and the causes.
    reference : path, bytes or binary stream, optional
        Lines of ``radio soft`` on the capture, where they are kept; otherwise the library is called, or the program is run.
    radio : Inside or Radio, optional
        The library or the program, where it isn't to be looked for.

    Raises
    ------
    FormatError
        If the capture is none.
    InputError
        If there is no answer at all.
    ProgramError
        If the program isn't there, fails or has no command ``soft``.
    """
    faults: List[LineFault] = []
    ends: List[Tuple[int, int]] = []
    with naming(answers):
        theirs = _theirs(answers, faults, ends)
    answered, frames, looks = set(theirs), 0, Looks()
    for fault in faults:
        counts.add(fault)
        yield fault
    with _lines(capture, reference, radio) as lines:
        for answer in lines:
            if not isinstance(answer, SoftAnswer):
                raise InputError("the reference has a line that isn't one of radio soft")
            frames = answer.frame + 1
            if answer.frame not in theirs:
                counts.missing.append(answer.frame)
                continue
            _, octets, cost = theirs.pop(answer.frame)
            same = octets == answer.octets
            if not same:
                looks.at_octets(octets, answer.octets)
            verdict = SoftVerdict(answer.frame, SAME if same else OTHER, answer.cost, same and cost is not None and cost != answer.cost)
            counts.add(verdict)
            yield verdict
    if isinstance(lines.last, Refused):
        with naming(capture):
            raise FormatError(lines.last.kind, lines.last.offset)
    for frame, (line, _, _) in sorted(theirs.items()):
        fault = misplaced(line, frame, frames)
        counts.add(fault)
        yield fault
    counts.compare_ends(ends, frames)
    counts.causes += looks.found(frames, answered, theirs)


@contextmanager
def _lines(capture: Source, reference: Optional[Source], radio: Optional[Union[Inside, Radio]]):
    if reference is None:
        known = radio or receiver()
        with naming(capture):
            if isinstance(known, Inside):
                yield SoftTexts(known, capture)
                return
            with known.answers("soft", capture) as answers:
                yield answers
    else:
        with naming(reference):
            yield read_answers(reference)


Theirs = Dict[int, Tuple[int, Optional[bytes], Optional[int]]]


def _theirs(answers: Source, faults: List[LineFault], ends: List[Tuple[int, int]]) -> Theirs:
    """Of each frame that is answered its line, the octets, None standing for a seed of zero, and the cost where one is stated."""
    found: Theirs = {}
    number = 0
    for block in blocks(answers):
        for line in block.replace(b"\r\n", b"\n").split(b"\n")[:-1]:
            number += 1
            if match := THEIRS.fullmatch(line):
                frame = int(match["frame"] or match["soft"])
                if frame in found:
                    faults.append(LineFault(REPEATED, number, f"answers frame {frame} a second time"))
                    continue
                octets = None if match["octets"] is None else bytes.fromhex(match["octets"].decode())
                found[frame] = number, octets, None if match["cost"] is None else int(match["cost"])
            elif match := THEIR_END.fullmatch(line):
                ends.append((number, int(match.group(1))))
            elif line:
                faults.append(LineFault(UNREADABLE, number, f"is no answer to a frame: {shortened(line)}"))
    if not found:
        raise InputError("there is no answer to a frame" + (f": line {faults[0].line} {faults[0].reason}" if faults else ""))
    return found
