"""``mizgaure frames``: a file of frames for ``radio tx`` from MPDUs."""

from __future__ import annotations

import argparse
from typing import Iterator, List, Optional, Tuple

from ..errors import InputError
from ..files import Source, naming, reading
from ..formats import MOST_FRAMES, SentFrame, write_httx
from ..packets import LONGEST_IN_AMPDU, MICROSECONDS, NANOSECONDS, PCAPNG, Radiotap, aggregate, has_good_fcs, read_pcap, with_fcs
from ..rates import LONGEST, Rate
from .base import Command, held, positive_whole, whole

MAGICS = {number.to_bytes(4, order) for number in (MICROSECONDS, NANOSECONDS, PCAPNG) for order in ("little", "big")}
Mpdus = List[Tuple[bytes, Radiotap]]  # each with its FCS, and what its file says of it


def words(command: argparse.ArgumentParser) -> None:
    command.add_argument("mpdus", metavar="FILE", help="MPDUs: a pcap or pcapng file, or a line of hexadecimal digits for each; - is standard input")
    command.add_argument("-o", "--output", metavar="FILE", required=True, help="the file of frames (HTTX) to write; - is standard output")
    command.add_argument("--bandwidth", type=int, choices=(20, 40), help="in MHz (default: as a pcap says, and 20)")
    command.add_argument("--mcs", type=whole, help="0 to 31 (default: as a pcap says, and 0)")
    command.add_argument("--seed", type=whole, help="of the scrambler, 1 to 127 (default: 1, 2 .. 127, 1 ..)")
    command.add_argument("--aggregate", metavar="N", type=positive_whole,
                         help="put N MPDUs in a row into an A-MPDU (default: as a pcap says, and each alone)")
    command.add_argument("--fcs", choices=("add", "there", "keep"),
                         help="of hexadecimal lines: add it, see that it is there and right, or keep what is there (default add)")


def run(given: argparse.Namespace) -> None:
    if given.seed is not None and not 1 <= given.seed <= 127:
        raise InputError(f"the seed is {given.seed}, and only 1 to 127 are known")
    with naming(given.mpdus):
        groups = list(_grouped(list(_read(given)), given.aggregate))
        if not groups:
            raise InputError("there is no MPDU in it")
        if len(groups) > MOST_FRAMES:
            raise InputError(f"it has {len(groups)} frames, and a file of frames has at most {MOST_FRAMES}")
        frames = [_frame(given, number, group, whole_psdu) for number, (group, whole_psdu) in enumerate(groups)]
    write_httx(given.output, frames, force=given.force)


def _read(given: argparse.Namespace) -> Iterator[Tuple[bytes, Radiotap]]:
    source = held(given.mpdus)
    with reading(source) as stream:
        is_pcap = stream.read(4) in MAGICS
    if not is_pcap:
        yield from _of_lines(source, given.fcs or "add")
        return
    if given.fcs is not None:
        raise InputError("--fcs is said of hexadecimal lines, and a pcap file says itself whether there is an FCS")
    for packet in read_pcap(source):
        if not packet.octets:
            raise InputError("it has a record without octets")
        yield packet.octets if packet.radiotap.has_fcs else with_fcs(packet.octets), packet.radiotap


def _of_lines(source: Source, fcs: str) -> Iterator[Tuple[bytes, Radiotap]]:
    with reading(source) as stream:
        for number, line in enumerate(stream, 1):
            try:
                text = line.decode("ascii").partition("#")[0]
                octets = bytes.fromhex(text.replace(":", " "))
            except ValueError:
                raise InputError(f"line {number} isn't hexadecimal digits, two for each octet") from None
            if not octets:
                continue
            if fcs == "there" and not has_good_fcs(octets):
                raise InputError(f"line {number} doesn't end with its FCS")
            yield with_fcs(octets) if fcs == "add" else octets, Radiotap()


def _grouped(mpdus: Mpdus, count: Optional[int]) -> Iterator[Tuple[Mpdus, bool]]:
    """The MPDUs of each frame, and whether they are an A-MPDU."""
    if count is not None:
        for first in range(0, len(mpdus), count):
            yield mpdus[first : first + count], True
        return
    at = 0
    while at < len(mpdus):
        reference, end = mpdus[at][1].aggregate, at + 1
        while reference is not None and end < len(mpdus) and mpdus[end][1].aggregate == reference:
            end += 1
        yield mpdus[at:end], reference is not None
        at = end


def _frame(given: argparse.Namespace, number: int, group: Mpdus, aggregated: bool) -> SentFrame:
    octets, told = group[0]
    if aggregated:
        longest = max(len(each) for each, _ in group)
        if longest > LONGEST_IN_AMPDU:
            raise InputError(f"an MPDU has {longest} octets, and in an A-MPDU it has at most {LONGEST_IN_AMPDU}")
        octets = aggregate([each for each, _ in group])
    if len(octets) > LONGEST:
        raise InputError(f"frame {number} would have {len(octets)} octets, and a frame has at most {LONGEST}")
    bandwidth = given.bandwidth or told.bandwidth or 20
    mcs = given.mcs if given.mcs is not None else told.mcs or 0
    return SentFrame(Rate(bandwidth, mcs), octets, given.seed or number % 127 + 1)


COMMAND = Command("frames", "make a file of frames (HTTX) from MPDUs, as hexadecimal lines or a pcap file", words, run, writes=True)
