"""What a PSDU carries: MPDUs with their FCS, A-MPDUs taken apart, MAC headers, and pcap files for Wireshark.

Clauses are those of IEEE Std 802.11-2012.

**FCS** (clause 8.2.4.8): the last four octets of an MPDU are the CRC-32 of those before.

**A-MPDU** (clause 8.6.1): subframes, each a delimiter of four octets and an MPDU, filled up to a multiple of four octets but
for the last one. A delimiter has four reserved bits, the MPDU's length in 12 bits, a CRC-8 over both, and the signature
``4e``. A length of 0 stands for no MPDU. Behind what is no delimiter the next one is looked for four octets further
(clause 9.12.2).

**pcap** and **pcapng**: records of the link type 127, in front of each MPDU a radiotap header with what is known of it: time,
levels, MCS, bandwidth, format, code, the A-MPDU status and whether the FCS is right. Wireshark and tcpdump read them.

A capture doesn't say whether a PSDU is aggregated; HT-SIG does, for whoever has it. Where nobody says, a PSDU whose last four
octets are its FCS is an MPDU; otherwise it is an A-MPDU if it begins with a good delimiter, or if behind any good delimiter
there is an MPDU with a right FCS; and otherwise it is an MPDU with a wrong FCS.
"""

from __future__ import annotations

import os
import struct
import zlib
from dataclasses import dataclass, field, replace
from typing import BinaryIO, Dict, Iterable, Iterator, List, Optional, Sequence, Tuple

from . import pcapng
from .errors import FormatError, InputError
from .files import Source, Target, fronted, writing

SIGNATURE = 0x4E
DELIMITER = 4  # octets
LONGEST_IN_AMPDU = 4095

MANAGEMENT, CONTROL, DATA = 0, 1, 2
NAMES: Dict[int, Dict[int, str]] = {
    MANAGEMENT: {0: "Association Request", 1: "Association Response", 2: "Reassociation Request", 3: "Reassociation Response",
                 4: "Probe Request", 5: "Probe Response", 6: "Timing Advertisement", 8: "Beacon", 9: "ATIM", 10: "Disassociation",
                 11: "Authentication", 12: "Deauthentication", 13: "Action", 14: "Action No Ack"},
    CONTROL: {7: "Control Wrapper", 8: "BlockAckReq", 9: "BlockAck", 10: "PS-Poll", 11: "RTS", 12: "CTS", 13: "ACK", 14: "CF-End",
              15: "CF-End + CF-Ack"},
    DATA: {0: "Data", 1: "Data + CF-Ack", 2: "Data + CF-Poll", 3: "Data + CF-Ack + CF-Poll", 4: "Null", 5: "CF-Ack", 6: "CF-Poll",
           7: "CF-Ack + CF-Poll", 8: "QoS Data", 9: "QoS Data + CF-Ack", 10: "QoS Data + CF-Poll", 11: "QoS Data + CF-Ack + CF-Poll",
           12: "QoS Null", 14: "QoS CF-Poll", 15: "QoS CF-Ack + CF-Poll"},
}
KINDS = ("management", "control", "data", "of type 3")
# The names of the addresses of a control frame, by its subtype (clause 8.3.1); of another one the first is the receiver's.
CONTROL_ADDRESSES = {8: ("RA", "TA"), 9: ("RA", "TA"), 10: ("BSSID", "TA"), 11: ("RA", "TA"), 14: ("RA", "BSSID"), 15: ("RA", "BSSID")}
# And of a data frame, by its bits From DS and To DS (clause 8.3.2.1).
DATA_ADDRESSES = {0: ("DA", "SA", "BSSID"), 1: ("BSSID", "SA", "DA"), 2: ("DA", "BSSID", "SA"), 3: ("RA", "TA", "DA", "SA")}


def fcs_of(octets: bytes) -> bytes:
    """The FCS of an MPDU's octets in front of it (clause 8.2.4.8): four octets, in the order in which they are sent."""
    return zlib.crc32(octets).to_bytes(4, "little")


def with_fcs(octets: bytes) -> bytes:
    """An MPDU: these octets and their FCS."""
    return bytes(octets) + fcs_of(octets)


def has_good_fcs(octets: bytes) -> bool:
    """Whether the last four octets are the FCS of those before, of which there is one at least."""
    return len(octets) > 4 and fcs_of(octets[:-4]) == octets[-4:]


def crc8(bits: Iterable[int]) -> Tuple[int, ...]:
    """The CRC of HT-SIG and of delimiters (clause 20.3.9.4.4): bits C7 to C0, as they are sent.

    The polynomial is x^8 + x^2 + x + 1, the register begins with ones, and what is left is inverted.
    """
    register = 0xFF
    for bit in bits:
        high = register >> 7 ^ bit
        register = register << 1 & 0xFF ^ (0x07 if high else 0)
    return tuple(1 - (register >> place & 1) for place in range(7, -1, -1))


def delimiter_crc(front: bytes) -> int:
    """The CRC octet of a delimiter from the two octets in front of it (clause 8.6.1); the lowest bit of an octet is sent first."""
    sent = crc8(octet >> place & 1 for octet in front for place in range(8))
    return sum(bit << place for place, bit in enumerate(sent))


def delimiter(length: int) -> bytes:
    """The delimiter in front of an MPDU of this number of octets (clause 8.6.1): four octets.

    Raises
    ------
    InputError
        If it isn't 0 to 4095.
    """
    if not 0 <= length <= LONGEST_IN_AMPDU:
        raise InputError(f"an MPDU in an A-MPDU has at most {LONGEST_IN_AMPDU} octets, and not {length}")
    front = (length << 4).to_bytes(2, "little")
    return front + bytes([delimiter_crc(front), SIGNATURE])


def read_delimiter(octets: bytes) -> Optional[int]:
    """The length that a delimiter says; None where its signature or its CRC is wrong or an octet is missing."""
    if len(octets) < DELIMITER or octets[3] != SIGNATURE or octets[2] != delimiter_crc(octets[:2]):
        return None
    return int.from_bytes(octets[:2], "little") >> 4


def aggregate(mpdus: Sequence[bytes]) -> bytes:
    """The A-MPDU of some MPDUs, each with its FCS: a PSDU.

    Raises
    ------
    InputError
        If there is none, or one has no octet or more than 4095.
    """
    if not mpdus or not all(mpdus):
        raise InputError("an A-MPDU has an MPDU at least, and each has octets")
    subframes = [delimiter(len(mpdu)) + bytes(mpdu) for mpdu in mpdus]
    return b"".join(subframe + bytes(-len(subframe) % 4) for subframe in subframes[:-1]) + subframes[-1]


@dataclass(frozen=True)
class MacHeader:
    """The front of an MPDU that says what it is and between whom (clause 8.2.4).

    Parameters
    ----------
    version, kind, subtype : int
        The protocol version, and type and subtype of the frame control field.
    flags : int
        The second octet of the frame control field: To DS 1, From DS 2, More Fragments 4, Retry 8, Power Management 16,
        More Data 32, Protected Frame 64, Order 128.
    addresses : tuple of (str, str)
        The addresses that are there whole, in their order, each with what it is: RA, TA, DA, SA or BSSID.
    sequence : tuple of (int, int) or None
        The number of the sequence and of the fragment; None in a control frame and where it isn't there whole.
    """

    version: int
    kind: int
    subtype: int
    flags: int
    addresses: Tuple[Tuple[str, str], ...] = ()
    sequence: Optional[Tuple[int, int]] = None

    @property
    def name(self) -> str:
        """What the standard calls it (table 8-1), as ``QoS Data``."""
        known = NAMES.get(self.kind, {}).get(self.subtype)
        if self.version != 0:
            return f"protocol version {self.version}"
        return known or f"reserved, {KINDS[self.kind]} subtype {self.subtype}"

    def address(self, role: str) -> Optional[str]:
        """The address with a name, as ``TA``, where there is one."""
        return dict(self.addresses).get(role)

    def __str__(self) -> str:
        words = [self.name, *(f"{role} {address}" for role, address in self.addresses)]
        if self.sequence is not None:
            words.append(f"sequence {self.sequence[0]}" + (f" fragment {self.sequence[1]}" if self.sequence[1] else ""))
        words += [word for bit, word in ((8, "retry"), (64, "protected")) if self.flags & bit]
        return ", ".join(words)


def read_header(octets: bytes) -> Optional[MacHeader]:
    """The MAC header of an MPDU's octets without the FCS; None where there is no frame control field.

    What is behind a protocol version other than 0 isn't known, and isn't read.
    """
    if len(octets) < 2:
        return None
    control, flags = octets[0], octets[1]
    version, kind, subtype = control & 3, control >> 2 & 3, control >> 4
    header = MacHeader(version, kind, subtype, flags)
    if version != 0 or kind == 3:
        return header
    if kind == CONTROL:
        roles = CONTROL_ADDRESSES.get(subtype, ("RA",))
        return replace(header, addresses=_addresses(octets, roles, (4, 10)))
    roles = DATA_ADDRESSES[flags & 3] if kind == DATA else ("DA", "SA", "BSSID")
    sequence = None
    if len(octets) >= 24:
        number = int.from_bytes(octets[22:24], "little")
        sequence = number >> 4, number & 15
    return replace(header, addresses=_addresses(octets, roles, (4, 10, 16, 24)), sequence=sequence)


def _addresses(octets: bytes, roles: Sequence[str], places: Sequence[int]) -> Tuple[Tuple[str, str], ...]:
    return tuple((role, octets[at : at + 6].hex(":")) for role, at in zip(roles, places) if len(octets) >= at + 6)


@dataclass(frozen=True)
class Mpdu:
    """An MPDU as it stands in a PSDU.

    Parameters
    ----------
    offset : int
        Its first octet in the PSDU.
    octets : bytes
        With the FCS.
    delimiter_crc : int or None
        The CRC of the delimiter in front of it; None where it isn't in an A-MPDU.
    """

    offset: int
    octets: bytes
    delimiter_crc: Optional[int] = None

    @property
    def good(self) -> bool:
        """Whether its FCS is right."""
        return has_good_fcs(self.octets)

    @property
    def header(self) -> Optional[MacHeader]:
        """Its MAC header, which means little where the FCS is wrong."""
        return read_header(self.octets[:-4])

    def __str__(self) -> str:
        header = self.header
        what = "no MAC header" if header is None else str(header)
        return f"{_octets(len(self.octets))}, FCS {'good' if self.good else 'bad'}, {what}"


@dataclass(frozen=True)
class Psdu:
    """A PSDU taken apart.

    Parameters
    ----------
    length : int
        Its octets.
    aggregated : bool
        Whether it is an A-MPDU.
    mpdus : tuple of Mpdu
        One, or those of the A-MPDU in their order.
    lost : int
        The octets of an A-MPDU that were skipped, in steps of four, in search of a delimiter.
    """

    length: int
    aggregated: bool
    mpdus: Tuple[Mpdu, ...]
    lost: int = 0

    @property
    def good(self) -> int:
        """How many MPDUs have a right FCS."""
        return sum(mpdu.good for mpdu in self.mpdus)

    def __str__(self) -> str:
        if not self.aggregated:
            return f"MPDU of {self.mpdus[0]}"
        count = "1 MPDU" if len(self.mpdus) == 1 else f"{len(self.mpdus)} MPDUs"
        lost = f", {_octets(self.lost)} without a delimiter" if self.lost else ""
        return f"A-MPDU of {_octets(self.length)}, {count}, {self.good} with a good FCS{lost}"


def _octets(count: int) -> str:
    return "1 octet" if count == 1 else f"{count} octets"


def take_apart(octets: bytes, aggregated: Optional[bool] = None) -> Psdu:
    """What a PSDU carries.

    Parameters
    ----------
    octets : bytes
        The PSDU.
    aggregated : bool, optional
        Whether it is an A-MPDU, as HT-SIG says; by default that is found out as the head of this module says.

    Returns
    -------
    Psdu
    """
    octets = bytes(octets)
    alone = Psdu(len(octets), False, (Mpdu(0, octets),))
    if aggregated is False or aggregated is None and alone.good:
        return alone
    parts = _subframes(octets)
    begins = _fitting(octets, 0) is not None
    return parts if aggregated or begins or parts.good else alone


def _fitting(octets: bytes, at: int) -> Optional[int]:
    """The length of the MPDU behind a good delimiter here; None where there is none or the MPDU doesn't fit."""
    length = read_delimiter(octets[at : at + DELIMITER])
    return length if length is not None and at + DELIMITER + length <= len(octets) else None


def _subframes(octets: bytes) -> Psdu:
    mpdus: List[Mpdu] = []
    at = lost = 0
    while at < len(octets):
        length = _fitting(octets, at)
        first = at + DELIMITER
        if length is None:
            # What is left of the padding at the end holds no delimiter, and isn't lost.
            lost += min(DELIMITER, len(octets) - at) if len(octets) - at >= DELIMITER else 0
            at = first
            continue
        if length:
            mpdus.append(Mpdu(first, octets[first : first + length], octets[at + 2]))
        at = first + length + -length % 4
    return Psdu(len(octets), True, tuple(mpdus), lost)


# pcap and radiotap

MICROSECONDS, NANOSECONDS = 0xA1B2C3D4, 0xA1B23C4D
PCAPNG = pcapng.SECTION
RADIOTAP_LINK, BARE_LINK = 127, 105
LONGEST_RECORD = 1 << 18
# The fields of a radiotap header that are known here, by bit: size and alignment (radiotap.org).
FIELDS = {0: (8, 8), 1: (1, 1), 2: (1, 1), 3: (4, 2), 4: (2, 2), 5: (1, 1), 6: (1, 1), 7: (2, 2), 8: (2, 2), 9: (2, 2), 10: (1, 1), 11: (1, 1),
          12: (1, 1), 13: (1, 1), 14: (2, 2), 15: (2, 2), 16: (1, 1), 17: (1, 1), 18: (8, 4), 19: (3, 1), 20: (8, 4)}
TSFT, FLAGS, RATE, CHANNEL, SIGNAL, NOISE, SIGNAL_LEVEL, NOISE_LEVEL, MCS, AMPDU = 0, 1, 2, 3, 5, 6, 12, 13, 19, 20
MCS_KNOWN = (0x01, 0x02, 0x04, 0x08, 0x10, 0x20, 0x40)  # bandwidth, index, guard interval, format, code, STBC, extension streams
FLAG_FCS, FLAG_BAD_FCS = 0x10, 0x40
CHANNEL_OFDM, CHANNEL_2GHZ, CHANNEL_5GHZ = 0x0040, 0x0080, 0x0100


@dataclass(frozen=True)
class Radiotap:
    """What is said of an MPDU in front of it; None where it isn't known.

    Parameters
    ----------
    bandwidth : int, optional
        20 or 40, in MHz, of an HT frame.
    mcs : int, optional
        Of an HT frame.
    short_guard : bool, optional
        Whether an HT frame has the short guard interval.
    greenfield, ldpc : bool, optional
        Whether an HT frame is in greenfield format and not in mixed format, and has LDPC and not the convolutional code.
    stbc, extension : int, optional
        The streams of space-time block coding, and the extension spatial streams, of an HT frame, each 0 to 3.
    rate : float, optional
        Of a clause 18 frame, in Mbit/s.
    frequency : int, optional
        Of the channel's middle, in MHz.
    time : int, optional
        When its first bit came, in microseconds.
    signal, noise : int, optional
        At an antenna, in dBm.
    signal_level, noise_level : int, optional
        The same where nobody knows what full scale is: in dB above -128 dB of full scale, 0 to 255.
    has_fcs : bool
        Whether the octets end with the FCS.
    bad_fcs : bool
        Whether that FCS is wrong.
    aggregate : int, optional
        A number that the MPDUs of one A-MPDU have in common.
    last : bool
        Whether it is the last MPDU of its A-MPDU.
    delimiter_crc : int, optional
        That of the delimiter in front of it.
    """

    bandwidth: Optional[int] = None
    mcs: Optional[int] = None
    short_guard: Optional[bool] = None
    rate: Optional[float] = None
    frequency: Optional[int] = None
    signal: Optional[int] = None
    noise: Optional[int] = None
    has_fcs: bool = True
    bad_fcs: bool = False
    aggregate: Optional[int] = None
    last: bool = False
    delimiter_crc: Optional[int] = None
    greenfield: Optional[bool] = None
    ldpc: Optional[bool] = None
    stbc: Optional[int] = None
    extension: Optional[int] = None
    time: Optional[int] = None
    signal_level: Optional[int] = None
    noise_level: Optional[int] = None

    def octets(self) -> bytes:
        """The header as it stands in a file."""
        fields: List[Tuple[int, bytes]] = [] if self.time is None else [(TSFT, struct.pack("<Q", self.time))]
        fields += [(FLAGS, bytes([FLAG_FCS * self.has_fcs | FLAG_BAD_FCS * self.bad_fcs]))]
        if self.rate is not None:
            fields.append((RATE, bytes([round(2 * self.rate)])))
        if self.frequency is not None:
            band = CHANNEL_2GHZ if self.frequency < 3000 else CHANNEL_5GHZ
            fields.append((CHANNEL, struct.pack("<HH", self.frequency, CHANNEL_OFDM | band)))
        for bit, level in ((SIGNAL, self.signal), (NOISE, self.noise)):
            if level is not None:
                fields.append((bit, struct.pack("<b", level)))
        for bit, level in ((SIGNAL_LEVEL, self.signal_level), (NOISE_LEVEL, self.noise_level)):
            if level is not None:
                fields.append((bit, bytes([level])))
        if self.mcs is not None:
            known = sum(bit for bit, value in zip(MCS_KNOWN, (self.bandwidth, self.mcs, self.short_guard, self.greenfield, self.ldpc, self.stbc,
                                                             self.extension)) if value is not None)
            more = self.extension or 0
            said = ((self.bandwidth == 40) | 0x04 * bool(self.short_guard) | 0x08 * bool(self.greenfield) | 0x10 * bool(self.ldpc)
                    | (self.stbc or 0) << 5 | (more & 1) << 7)
            fields.append((MCS, bytes([known | more >> 1 << 7, said, self.mcs])))
        if self.aggregate is not None:
            flags = 0x04 | 0x08 * self.last | 0x20 * (self.delimiter_crc is not None)
            fields.append((AMPDU, struct.pack("<IHBB", self.aggregate & 0xFFFFFFFF, flags, self.delimiter_crc or 0, 0)))
        body, present = b"", 0
        for bit, octets in fields:
            present |= 1 << bit
            body += bytes(-len(body) % FIELDS[bit][1]) + octets  # the head of eight octets keeps alignments
        return struct.pack("<BBHI", 0, 0, 8 + len(body), present) + body


def read_radiotap(octets: bytes) -> Tuple[Radiotap, int]:
    """A radiotap header in front of other octets, and its length.

    Fields that `Radiotap` doesn't have are passed over, and so is all behind a field that isn't known here.

    Raises
    ------
    InputError
        If it is no whole header of version 0.
    """
    if len(octets) < 8 or octets[0] != 0:
        raise InputError("there is no radiotap header of version 0")
    length = int.from_bytes(octets[2:4], "little")
    if not 8 <= length <= len(octets):
        raise InputError(f"the radiotap header says that it has {_octets(length)}, and there are {len(octets)}")
    found: Dict[int, bytes] = {}
    at, words = 8, [int.from_bytes(octets[4:8], "little")]
    while words[-1] >> 31 and at + 4 <= length:
        words.append(int.from_bytes(octets[at : at + 4], "little"))
        at += 4
    for bit in range(31):
        if words[0] >> bit & 1:
            if bit not in FIELDS:
                break
            size, alignment = FIELDS[bit]
            at += -at % alignment
            if at + size > length:
                raise InputError("the radiotap header ends inside of a field")
            found[bit] = octets[at : at + size]
            at += size
    return _radiotap_of(found), length


def _radiotap_of(found: Dict[int, bytes]) -> Radiotap:
    flags = found.get(FLAGS, b"\0")[0]
    made = Radiotap(has_fcs=bool(flags & FLAG_FCS), bad_fcs=bool(flags & FLAG_BAD_FCS))
    if TSFT in found:
        made = replace(made, time=int.from_bytes(found[TSFT], "little"))
    if SIGNAL_LEVEL in found:
        made = replace(made, signal_level=found[SIGNAL_LEVEL][0])
    if NOISE_LEVEL in found:
        made = replace(made, noise_level=found[NOISE_LEVEL][0])
    if RATE in found:
        made = replace(made, rate=found[RATE][0] / 2)
    if CHANNEL in found:
        made = replace(made, frequency=int.from_bytes(found[CHANNEL][:2], "little"))
    if SIGNAL in found:
        made = replace(made, signal=struct.unpack("<b", found[SIGNAL])[0])
    if NOISE in found:
        made = replace(made, noise=struct.unpack("<b", found[NOISE])[0])
    if MCS in found:
        known, said, mcs = found[MCS]
        made = replace(made, bandwidth=(40 if said & 3 == 1 else 20) if known & 0x01 else None, mcs=mcs if known & 0x02 else None,
                       short_guard=bool(said & 0x04) if known & 0x04 else None, greenfield=bool(said & 0x08) if known & 0x08 else None,
                       ldpc=bool(said & 0x10) if known & 0x10 else None, stbc=said >> 5 & 3 if known & 0x20 else None,
                       extension=said >> 7 | known >> 7 << 1 if known & 0x40 else None)
    if AMPDU in found:
        reference, said, crc, _ = struct.unpack("<IHBB", found[AMPDU])
        made = replace(made, aggregate=reference, last=said & 0x0C == 0x0C, delimiter_crc=crc if said & 0x20 else None)
    return made


@dataclass(frozen=True)
class Packet:
    """A record of a pcap file.

    Parameters
    ----------
    octets : bytes
        An MPDU, with its FCS where `Radiotap.has_fcs` says so.
    radiotap : Radiotap
    time : int
        In nanoseconds.
    """

    octets: bytes
    radiotap: Radiotap = field(default_factory=Radiotap)
    time: int = 0


def packets_of(psdu: Psdu, radiotap: Radiotap, time: int = 0, reference: int = 0) -> Iterator[Packet]:
    """The records of the MPDUs of a PSDU.

    Parameters
    ----------
    psdu : Psdu
    radiotap : Radiotap
        What is known of the PSDU; what is told of each MPDU is filled in here.
    time : int
        In nanoseconds; the MPDUs of an A-MPDU share it.
    reference : int
        What the MPDUs of this A-MPDU have in common, and no other A-MPDU of the file has.
    """
    for number, mpdu in enumerate(psdu.mpdus, 1):
        told = replace(radiotap, has_fcs=True, bad_fcs=not mpdu.good)
        if psdu.aggregated:
            told = replace(told, aggregate=reference, last=number == len(psdu.mpdus), delimiter_crc=mpdu.delimiter_crc)
        yield Packet(mpdu.octets, told, time)


def write_pcap(target: Target, packets: Iterable[Packet], force: bool = False) -> None:
    """Write a pcap file of link type 127, or a pcapng file where its name ends in .pcapng; times are in nanoseconds.

    Parameters
    ----------
    target : path, ``"-"`` or binary stream
    packets : iterable of Packet
    force : bool
        Whether a file that is there already is replaced.

    Raises
    ------
    InputError
        If the file is there already or can't be written.
    """
    newer = isinstance(target, (str, os.PathLike)) and os.fspath(target).endswith(".pcapng")
    with writing(target, force) as stream:
        stream.write(pcapng.head(RADIOTAP_LINK) if newer else struct.pack("<IHHiIII", NANOSECONDS, 2, 4, 0, 0, LONGEST_RECORD, RADIOTAP_LINK))
        for packet in packets:
            record = packet.radiotap.octets() + packet.octets
            seconds, rest = divmod(packet.time, 10**9)
            stream.write(pcapng.packet(record, packet.time) if newer else struct.pack("<IIII", seconds, rest, len(record), len(record)) + record)


def read_pcap(source: Source) -> Iterator[Packet]:
    """The records of a pcap or pcapng file of link type 127 (radiotap) or 105 (MPDUs alone, without FCS), in either order of octets.

    Raises
    ------
    FormatError
        ``BadMagic`` where it is neither, ``Truncated`` where it ends in the middle of a record.
    InputError
        If it has another link type, holds records that were cut off, or a header of radiotap is at fault.
    """
    with fronted(source, 4) as (front, stream):
        newer = front == pcapng.SECTION.to_bytes(4, "little")
        for number, (link, octets, time) in enumerate(pcapng.packets(stream) if newer else _records(stream)):
            if link not in (RADIOTAP_LINK, BARE_LINK):
                raise InputError(f"its link type is {link}, and 127 (radiotap) or 105 (IEEE 802.11) is asked for")
            radiotap, first = Radiotap(has_fcs=False), 0
            if link == RADIOTAP_LINK:
                try:
                    radiotap, first = read_radiotap(octets)
                except InputError as error:
                    raise InputError(f"record {number}: {error}") from error
            yield Packet(octets[first:], radiotap, time)


def _records(stream: BinaryIO) -> Iterator[Tuple[int, bytes, int]]:
    """The records of a pcap file: link type, octets, and time in nanoseconds."""
    head, order, unit = _pcap_head(stream)
    link = struct.unpack(order + "I", head[20:24])[0] & 0x0FFFFFFF
    at, number = len(head), 0
    if link not in (RADIOTAP_LINK, BARE_LINK):
        raise InputError(f"its link type is {link}, and 127 (radiotap) or 105 (IEEE 802.11) is asked for")
    while lead := stream.read(16):
        if len(lead) < 16:
            raise FormatError("Truncated", at + len(lead))
        seconds, rest, taken, full = struct.unpack(order + "IIII", lead)
        if taken != full or taken > LONGEST_RECORD:
            raise InputError(f"record {number} has {taken} of {full} octets, and only whole records are read")
        octets = stream.read(taken)
        at += 16 + len(octets)
        if len(octets) < taken:
            raise FormatError("Truncated", at)
        yield link, octets, seconds * 10**9 + rest * unit
        number += 1


def _pcap_head(stream: BinaryIO) -> Tuple[bytes, str, int]:
    """The head of a pcap file, the order of its numbers for `struct`, and the unit of its times in nanoseconds."""
    head = stream.read(24)
    for order in "<>":
        magic = struct.unpack(order + "I", head[:4].ljust(4, b"\0"))[0]
        if magic in (MICROSECONDS, NANOSECONDS):
            if len(head) < 24:
                raise FormatError("Truncated", len(head))
            return head, order, 1000 if magic == MICROSECONDS else 1
    raise FormatError("BadMagic", 0)
