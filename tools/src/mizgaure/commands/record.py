"""``mizgaure record``: a capture of the packets of a recording."""

from __future__ import annotations

import argparse
import math
import sys
from collections import Counter
from contextlib import ExitStack
from typing import Any, Callable, Dict, Iterator, List, Optional, TextIO, Union

from ..air.legacy import LegacySpool
from ..air.part import WHOLE, Part
from ..air.placing import Look
from ..air.record import COLUMNS, Line, Spool, annotation_of, spooled
from ..air.receive import MISTAKE
from ..air.recording import ENDLESS, TYPES, USUAL_RATE, Layout, Recording, base_name, open_recording
from ..air.resampled import Resampled, channel_frequency, fitted
from ..air.sigmf import META, annotate
from ..errors import InputError
from ..files import refuse_overwriting
from ..program import Progress
from ..quantise import FOR_SOFT
from ..tables import Records
from .base import Command, add_tables, gain, not_negative, octets, positive, positive_whole, refuse_tables, whole, write_tables

GENERATOR = "mizgaure record"


def hertz(word: str) -> float:
    """A frequency, below 0 or above."""
    try:
        return float(word)
    except ValueError:
        raise argparse.ArgumentTypeError(f"{word} is no number") from None


def add_recording(command: argparse.ArgumentParser) -> None:
    """The words that say what a recording is."""
    command.add_argument("recording", metavar="RECORDING", nargs="+",
                         help="a SigMF recording, archive or collection, a .npy or .mat, or with --datatype a file of samples, - being "
                              "standard input; several are the antennas of one receiver")
    add_layout(command)
    command.add_argument("--shift", metavar="HZ", type=hertz, help="where the packets' middle is, from the recording's middle")
    command.add_argument("--channel", metavar="N", type=whole, help="receive this channel, by the frequency that the recording says")
    command.add_argument("--processes", metavar="N", type=positive_whole, default=1, help="how many look for packets (default 1)")


def add_part(command: argparse.ArgumentParser) -> None:
    """The options that say which packets of a recording are received."""
    command.add_argument("--from", metavar="SECONDS", dest="begin", type=not_negative, default=0.0, help="packets from this time on, as lines say it")
    command.add_argument("--to", metavar="SECONDS", dest="end", type=not_negative, default=math.inf, help="packets before this time")
    command.add_argument("--packets", metavar="N", type=positive_whole, help="no more than so many packets")


def part_of(given: argparse.Namespace) -> Part:
    """The part that the words say."""
    return Part(given.begin, given.end, given.packets)


def add_layout(command: argparse.ArgumentParser) -> None:
    """The options that say what a file of samples holds."""
    command.add_argument("--datatype", choices=sorted(TYPES), help="the file has samples of this type alone, and isn't SigMF")
    command.add_argument("--sample-rate", metavar="RATE", type=positive, help="samples a second of a file of samples, .npy or .mat (default 20e6)")
    command.add_argument("--channels", type=whole, help="antennas of a file of samples (default 1)")
    command.add_argument("--variable", metavar="NAME", help="the array of a .mat that has several")


def opened(given: argparse.Namespace, path: Union[str, List[str]]) -> Recording:
    """A recording that is what the words say, as it was recorded."""
    paths = [path] if isinstance(path, str) else path
    arrays = all(name.lower().endswith((".npy", ".mat")) for name in paths)
    raw: Optional[Layout] = None
    if given.datatype is not None:
        if arrays:
            raise InputError(f"{paths[0]} says of what type its samples are, and so --datatype doesn't")
        raw = Layout(given.datatype, given.sample_rate or USUAL_RATE, 1 if given.channels is None else given.channels)
    elif given.channels is not None or given.sample_rate is not None and not arrays:
        raise InputError("--sample-rate and --channels are said of a file of samples, whose --datatype is said, too")
    if given.variable is not None and not paths[0].lower().endswith(".mat"):
        raise InputError("--variable is said of a .mat")
    return open_recording(paths, raw, rate=given.sample_rate or USUAL_RATE, variable=given.variable)


def placed(given: argparse.Namespace, recording: Recording) -> Recording:
    """A recording at a rate of the front end, with the middle that the words say."""
    shift = given.shift or 0.0
    if given.channel is not None:
        if given.shift is not None:
            raise InputError("--shift and --channel both say where the middle is")
        carriers = {segment.frequency for segment in recording.segments}
        if carriers == {None}:
            raise InputError(f"{recording.name} doesn't say its carrier's frequency (core:frequency), which --channel asks for")
        if len(carriers) > 1:
            raise InputError(f"{recording.name} has captures of several frequencies, and --channel asks for one")
        (carrier,) = carriers
        shift = channel_frequency(given.channel, carrier) - carrier
    return fitted(recording, shift)


class Heard:
    """What a recording gives, its band looked for where no packet is in the middle.

    Parameters
    ----------
    given : Namespace
    recording : Recording
        As it was recorded.
    part : Part
        Of it, that is received.
    """

    def __init__(self, given: argparse.Namespace, recording: Recording, part: Part = WHOLE) -> None:
        part.check(recording)
        self.source, self.recording, self.part = recording, placed(given, recording), part
        self._may_look = given.shift is None and given.channel is None and recording.length != ENDLESS
        self._look: Optional[Look] = None

    def lines(self, received: Callable[[Recording], Iterator[Any]], line_of: Callable[[Any], Line]) -> Iterator[Any]:
        """What is received, with the middle as it is said, or where packets are; a bar shows how far the recording was read.

        Packets without a header are kept back until there is one with a header, since they may be parts of others beside the middle.
        """
        low, high = self.part.instants(self.source)
        bar = Progress(None if high == ENDLESS else high - low, "packets", unit=" samples")
        self.source.watch = lambda behind: bar.add(max(0, min(behind, high) - low - bar.done))
        try:
            for each in self._lines(received, line_of):
                with bar.hidden():
                    yield each
        finally:
            self.source.watch = None
            bar.close()

    def _lines(self, received: Callable[[Recording], Iterator[Any]], line_of: Callable[[Any], Line]) -> Iterator[Any]:
        found = not self._may_look
        kept: List[Any] = []
        for each in received(self.recording):
            found = found or line_of(each).has_header
            kept.append(each)
            if found:
                yield from kept
                kept = []
        if not found:
            self._look = Look(self.source, self.part)
        shift = None if self._look is None else self._look.shift()
        if shift is None:
            yield from kept
            return
        self.source.remarks.append(f"{self.source.name}: the band is {abs(shift) / 1e6:g} MHz {'above' if shift > 0 else 'below'} the middle, "
                                   f"as with --shift {shift:.0f}")
        self.recording = Resampled(self.source, shift)
        yield from received(self.recording)

    def remark(self) -> None:
        """Say what isn't right in the recording, now that it was read."""
        for remark in remarks_of(self.source):
            print(f"mizgaure: {remark}", file=sys.stderr)

    def nothing(self) -> str:
        """That there was no packet, and why."""
        recording, look = self.source, self._look or Look(self.source, self.part)
        low, high = self.part.instants(recording)
        return f"no packet was found in {high - low} samples, {recording.seconds(high - low):.6f} s: {look.cause()}"


def remarks_of(recording: Recording) -> List[str]:
    """What isn't right in a recording that was read."""
    made = list(recording.remarks)
    if recording.rest:
        made.append(f"{recording.name}: {octets(recording.rest)} at its end are no whole sample, and were left out")
    if recording.ever_not_finite:
        made.append(f"{recording.name}: parts of samples aren't finite or are above 1e15, and were taken as 0")
    return made


def text_of(*paths: Optional[str]) -> TextIO:
    """Where text goes: to standard error where data go to standard output.

    Raises
    ------
    InputError
        If more than one of them goes there.
    """
    standard = [path for path in paths if path == "-"]
    if len(standard) > 1:
        raise InputError("only one file can go to standard output")
    return sys.stderr if standard else sys.stdout


def status_of(fates: Counter) -> int:
    """The status of a command, once packets were lost by a mistake of ours or weren't; the former is said."""
    count = fates[MISTAKE]
    if count:
        print(f"mizgaure: {'1 packet was' if count == 1 else f'{count} packets were'} lost by {MISTAKE}, please report it", file=sys.stderr)
    return 2 if count else 0


def summary(fates: Counter, what: str) -> str:
    """How many packets there were, and why some were left out."""
    total = sum(fates.values())
    reasons = ", ".join(f"{count} {reason}" for reason, count in sorted(fates.items(), key=str) if reason is not None)
    return f"{'1 packet' if total == 1 else f'{total} packets'}: {fates[None]} {what}" + (f"; left out: {reasons}" if reasons else "")


def words(command: argparse.ArgumentParser) -> None:
    add_recording(command)
    add_part(command)
    command.add_argument("-o", "--output", metavar="FILE", required=True, help="the capture (HTCP) to write; - is standard output")
    command.add_argument("--gain", type=gain, default=FOR_SOFT,
                         help="what to multiply with before rounding, where the noise at an antenna has mean power 1: a number, soft, which fits "
                              "soft decisions (default), or largest, which is the largest that fits")
    command.add_argument("--legacy", metavar="FILE", help="write the packets of clause 18 as a capture (LGCP)")
    command.add_argument("--annotate", action="store_true", help="write the packets into the metadata of a SigMF recording, as annotations")
    add_tables(command)


def run(given: argparse.Namespace) -> int:
    refuse_overwriting(given.output, given.force)
    if given.legacy:
        refuse_overwriting(given.legacy, given.force)
    refuse_tables(given)
    text = text_of(given.output, given.legacy, given.csv, given.json)
    base = _annotated(given) if given.annotate else None
    fates: Counter = Counter()
    records = Records()
    notes: List[Dict[str, Any]] = []
    with ExitStack() as stack:
        source = stack.enter_context(opened(given, given.recording))
        spool = stack.enter_context(Spool(gain=given.gain))
        legacy = stack.enter_context(LegacySpool()) if given.legacy else None
        heard = Heard(given, source, part_of(given))
        for line in heard.lines(lambda recording: spooled(recording, spool, legacy, given.processes or 1, heard.part), lambda line: line):
            print(line, file=text, flush=True)
            fates[line.left_out] += 1
            if given.csv or given.json:
                records.append(line.record())
            if base is not None:
                notes.append(annotation_of(line, heard.recording))
        said = summary(fates, "in the captures" if legacy else "in the capture") if fates else heard.nothing()
        heard.remark()
        spool.write(given.output, given.force)
        if legacy is not None:
            legacy.write(given.legacy, given.force)
    if base is not None:
        annotate(base, notes, GENERATOR)
    write_tables(given, records, COLUMNS)
    print(said, file=text)
    return status_of(fates)


def _annotated(given: argparse.Namespace) -> str:
    """The name of the recording that gets annotations, without its ending."""
    (path, *more) = given.recording
    base = base_name(path)
    if more or given.datatype is not None or path.endswith((".sigmf", ".sigmf-collection", ".npy", ".mat")):
        raise InputError(f"--annotate writes into a {META} beside one recording, and {path} has none")
    return base


COMMAND = Command("record", "make a capture of the packets of a recording", words, run, writes=True)
