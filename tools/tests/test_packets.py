"""MPDUs, A-MPDUs, MAC headers and pcap files."""

import io
import struct

import numpy as np
import pytest

from mizgaure import FormatError, InputError
from mizgaure.packets import (LONGEST_IN_AMPDU, Packet, Radiotap, aggregate, crc8, delimiter, has_good_fcs, packets_of, read_delimiter, read_header,
                              read_pcap, read_radiotap, take_apart, with_fcs, write_pcap)

# IEEE Std 802.11-2012, annex L.1: an MPDU of 100 octets, whose last four are its FCS.
ANNEX = bytes.fromhex("0402002e006008cd37a60020d6013cf1006008ad3baf0000") + \
    b"Joy, bright spark of divinity,\nDaughter of Elysium,\nFire-insired we trea" + bytes.fromhex("673321b6")
HERE, THERE, OTHER = "02:00:00:00:00:01", "02:00:00:00:00:02", "02:00:00:00:00:03"


def data_frame(flags: int = 2, number: int = 5, body: bytes = b"hello", qos: bool = True) -> bytes:
    """A QoS Data or Data frame with its FCS."""
    addresses = b"".join(bytes.fromhex(address.replace(":", "")) for address in (HERE, THERE, OTHER))
    return with_fcs(bytes([0x88 if qos else 0x08, flags, 0, 0]) + addresses + struct.pack("<H", number << 4) + (b"\0\0" if qos else b"") + body)


def octets_of_pcap(packets) -> bytes:
    made = io.BytesIO()
    write_pcap(made, packets)
    return made.getvalue()


def test_the_fcs_of_the_standards_example():
    assert len(ANNEX) == 100 and has_good_fcs(ANNEX) and with_fcs(ANNEX[:-4]) == ANNEX
    for bit in range(800):
        spoiled = bytearray(ANNEX)
        spoiled[bit // 8] ^= 1 << bit % 8
        assert not has_good_fcs(bytes(spoiled))
    assert not has_good_fcs(b"") and not has_good_fcs(bytes(4))


def test_the_crc_of_the_standards_example():
    """Clause 20.3.9.4.4 gives these 34 bits of HT-SIG and their CRC."""
    bits = "1111000100100110000000001110000000"
    assert crc8(map(int, bits)) == (1, 0, 1, 0, 1, 0, 0, 0)


def test_delimiters():
    """A length of twelve bits above four reserved ones, the CRC, and 4e; none of its first 24 bits can be turned."""
    for length in (0, 1, 100, 0xABC, LONGEST_IN_AMPDU):
        good = delimiter(length)
        assert int.from_bytes(good[:2], "little") == length << 4 and good[3] == 0x4E and read_delimiter(good) == length
        for bit in range(32):
            assert read_delimiter((int.from_bytes(good, "little") ^ 1 << bit).to_bytes(4, "little")) is None
    assert read_delimiter(delimiter(1)[:3]) is None
    with pytest.raises(InputError, match="at most 4095 octets, and not 4096"):
        delimiter(4096)


def test_a_mpdus_are_taken_apart():
    random = np.random.default_rng(5)
    mpdus = [data_frame(number=n, body=random.bytes(int(random.integers(0, 60)))) for n in range(9)]
    whole = aggregate(mpdus)
    assert len(whole) == sum(4 + len(m) + (-len(m) % 4 if n < 8 else 0) for n, m in enumerate(mpdus))
    found = take_apart(whole)
    assert found.aggregated and [part.octets for part in found.mpdus] == mpdus and (found.good, found.lost) == (9, 0)
    assert [whole[part.offset :][: len(part.octets)] for part in found.mpdus] == mpdus
    # Delimiters without an MPDU, and octets behind the last MPDU that can't be one, count for nothing.
    spaced = delimiter(0) * 3 + whole + bytes(-len(whole) % 4) + delimiter(0) + b"\1\2\3"
    assert [part.octets for part in take_apart(spaced).mpdus] == mpdus and take_apart(spaced).lost == 0
    # A spoiled octet of an MPDU costs that one, a spoiled delimiter what stands behind it up to the next.
    third = found.mpdus[2].offset
    for at, lost in ((third + 3, 0), (third - 1, 4 + len(mpdus[2]) + -len(mpdus[2]) % 4)):
        spoiled = bytearray(whole)
        spoiled[at] ^= 0x40
        again = take_apart(bytes(spoiled))
        assert [part.octets for part in again.mpdus if part.good] == mpdus[:2] + mpdus[3:] and again.lost == lost
    # The first delimiter is spoiled: a right FCS behind a later one tells the A-MPDU.
    late = take_apart(bytes([whole[0] ^ 0x80]) + whole[1:])
    assert late.aggregated and [part.octets for part in late.mpdus] == mpdus[1:]


def test_what_is_an_a_mpdu():
    assert not take_apart(ANNEX).aggregated and take_apart(ANNEX).good == 1
    assert str(take_apart(ANNEX)) == "MPDU of 100 octets, FCS good, reserved, control subtype 0, RA 00:60:08:cd:37:a6"
    bad = take_apart(ANNEX[:-1] + b"\0")
    assert (bad.aggregated, len(bad.mpdus), bad.good) == (False, 1, 0) and ", FCS bad, " in str(bad)
    assert str(take_apart(ANNEX, aggregated=True)) == "A-MPDU of 100 octets, 0 MPDUs, 0 with a good FCS, 100 octets without a delimiter"
    assert not take_apart(aggregate([ANNEX]), aggregated=False).aggregated
    assert str(take_apart(aggregate([ANNEX]))) == "A-MPDU of 104 octets, 1 MPDU, 1 with a good FCS"
    for count in range(1, 9):
        assert str(take_apart(bytes(count))).startswith("MPDU of ")
    # A delimiter whose MPDU doesn't fit is none.
    assert not take_apart(delimiter(100) + bytes(96)).aggregated
    for mpdus in ([], [b""]):
        with pytest.raises(InputError):
            aggregate(mpdus)


@pytest.mark.parametrize("octets, said", [
    (data_frame(0), f"QoS Data, DA {HERE}, SA {THERE}, BSSID {OTHER}, sequence 5"),
    (data_frame(1), f"QoS Data, BSSID {HERE}, SA {THERE}, DA {OTHER}, sequence 5"),
    (data_frame(2 | 8 | 64), f"QoS Data, DA {HERE}, BSSID {THERE}, SA {OTHER}, sequence 5, retry, protected"),
    (data_frame(3, body=b"\4\5\6\7\x08\x09", qos=False), f"Data, RA {HERE}, TA {THERE}, DA {OTHER}, SA 04:05:06:07:08:09, sequence 5"),
    (with_fcs(bytes.fromhex("b4000000020000000001020000000002")), f"RTS, RA {HERE}, TA {THERE}"),
    (with_fcs(bytes.fromhex("d4000000020000000001")), f"ACK, RA {HERE}"),
    (with_fcs(bytes.fromhex("a4000000020000000001020000000002")), f"PS-Poll, BSSID {HERE}, TA {THERE}"),
    (with_fcs(bytes.fromhex("80000000ffffffffffff0200000000020200000000020300")),
     f"Beacon, DA ff:ff:ff:ff:ff:ff, SA {THERE}, BSSID {THERE}, sequence 0 fragment 3"),
    (with_fcs(b"\x8c\0\0\0"), "reserved, of type 3 subtype 8"),
    (with_fcs(b"\x89\0\0\0"), "protocol version 1"),
    (with_fcs(b"\x88\0\0"), "QoS Data"),
])
def test_mac_headers(octets, said):
    assert str(read_header(octets[:-4])) == said and read_header(b"\x88") is None


def radiotaps():
    yield Radiotap()
    yield Radiotap(bandwidth=40, mcs=31, short_guard=True, frequency=5190, signal=-40, noise=-95)
    yield Radiotap(bandwidth=20, mcs=0, short_guard=False, bad_fcs=True, aggregate=7, last=True, delimiter_crc=0x14)
    yield Radiotap(mcs=9, aggregate=2**32 - 1)
    yield Radiotap(rate=36.0, frequency=2412, has_fcs=False)
    yield Radiotap(rate=54.0, noise=-1, aggregate=3)
    yield Radiotap(20, 5, False, time=2**63 + 7, signal_level=108, noise_level=0, greenfield=False, ldpc=False, stbc=0, extension=0)
    yield Radiotap(40, 12, time=1, signal=-30, noise=-95, greenfield=True, ldpc=True, stbc=2, extension=3, frequency=5190)
    yield Radiotap(20, 0, stbc=1, extension=2)
    yield Radiotap(20, 0, ldpc=True, stbc=0)


@pytest.mark.parametrize("told", radiotaps())
def test_radiotap_headers(told):
    octets = told.octets()
    assert read_radiotap(octets + ANNEX) == (told, len(octets))
    assert int.from_bytes(octets[2:4], "little") == len(octets)
    with pytest.raises(InputError):
        read_radiotap(octets[:-1])


def test_a_radiotap_header_by_octets():
    """radiotap.org: flags, a hole, MCS with bandwidth and guard interval known, a hole, A-MPDU status."""
    octets = Radiotap(bandwidth=40, mcs=15, short_guard=True, aggregate=1, last=True).octets()
    assert octets.hex() == "00001400" "02001800" "10" "07050f" "01000000" "0c000000"
    octets = Radiotap(20, 9, time=0x0102030405060708, greenfield=False, ldpc=True, stbc=1, extension=1, signal_level=108).octets()
    assert octets.hex() == "00001500" "03100800" "0807060504030201" "10" "6c" "7bb009"
    # As other programs write it: two words of presence, and a time in front.
    foreign = bytes.fromhex("00001c00" "03000880" "00000000" "00000000" "1122334455667788" "10" "07050f")
    assert read_radiotap(foreign + ANNEX) == (Radiotap(bandwidth=40, mcs=15, short_guard=True, time=0x8877665544332211), 28)


def test_pcap_files_come_back():
    psdu = take_apart(aggregate([data_frame(number=n) for n in range(3)]))
    packets = [*packets_of(take_apart(ANNEX), Radiotap(rate=36.0), time=1_000_000_007), *packets_of(psdu, Radiotap(20, 9), time=5, reference=4)]
    octets = octets_of_pcap(packets)
    assert list(read_pcap(octets)) == packets and [packet.radiotap.last for packet in packets] == [False, False, False, True]
    ends, at = [24], 24  # where a file may end
    while at < len(octets):
        at += 16 + int.from_bytes(octets[at + 8 : at + 12], "little")
        ends.append(at)
    for end in range(24, len(octets)):
        if end in ends:
            assert list(read_pcap(octets[:end])) == packets[: ends.index(end)]
        else:
            with pytest.raises(FormatError, match=f"Truncated at {end}"):
                list(read_pcap(octets[:end]))
    big = struct.pack(">IHHiIII", 0xA1B2C3D4, 2, 4, 0, 0, 65535, 105) + struct.pack(">IIII", 1, 2, 96, 96) + ANNEX[:-4]
    assert list(read_pcap(big)) == [Packet(ANNEX[:-4], Radiotap(has_fcs=False), 1_000_002_000)]


def block(kind, body, order="<"):
    length = struct.pack(order + "I", 12 + len(body) + -len(body) % 4)
    return struct.pack(order + "I", kind) + length + body + bytes(-len(body) % 4) + length


SECTION = block(0x0A0D0D0A, struct.pack("<IHHq", 0x1A2B3C4D, 1, 0, -1))


def test_pcapng_files_come_back(tmp_path):
    psdu = take_apart(aggregate([data_frame(number=n) for n in range(3)]))
    packets = [*packets_of(take_apart(ANNEX), Radiotap(rate=36.0), time=1_700_000_000_000_000_007),
               *packets_of(psdu, Radiotap(20, 9, time=5), time=5, reference=4)]
    path = tmp_path / "made.pcapng"
    write_pcap(path, packets)
    octets = path.read_bytes()
    assert octets[:28] == SECTION and list(read_pcap(path)) == packets
    ends = [28]  # where a file may end: behind its section's head, its interface, and each packet
    while ends[-1] < len(octets):
        ends.append(ends[-1] + int.from_bytes(octets[ends[-1] + 4 : ends[-1] + 8], "little"))
    for end in range(4, len(octets)):
        if end in ends:
            assert list(read_pcap(octets[:end])) == packets[: max(0, ends.index(end) - 1)]
        else:
            with pytest.raises(FormatError, match=f"Truncated at {end}"):
                list(read_pcap(octets[:end]))


def test_a_pcapng_of_another_order_and_unit():
    """Two sections: one in the other order of octets, with microseconds by default and a block that isn't known; one with binary units."""
    big = (block(0x0A0D0D0A, struct.pack(">IHHq", 0x1A2B3C4D, 1, 0, -1), ">") + block(1, struct.pack(">HHI", 105, 0, 0), ">") + block(5, bytes(12), ">")
           + block(6, struct.pack(">IIIII", 0, 1, 2, 10, 10) + ANNEX[:10], ">") + block(3, struct.pack(">I", 9) + ANNEX[:9], ">"))
    options = struct.pack("<HH4s", 2, 3, b"eth0") + struct.pack("<HHB3x", 9, 1, 0x80 | 10) + struct.pack("<HH", 0, 0)
    small = SECTION + block(1, struct.pack("<HHI", 105, 0, 0) + options) + block(6, struct.pack("<IIIII", 0, 0, 1536, 4, 4) + ANNEX[:4])
    bare = Radiotap(has_fcs=False)
    assert list(read_pcap(big + small)) == [Packet(ANNEX[:10], bare, (2**32 + 2) * 1000), Packet(ANNEX[:9], bare, 0), Packet(ANNEX[:4], bare, 1_500_000_000)]


@pytest.mark.parametrize("octets, said", [
    (b"", "refused BadMagic at 0"),
    (b"HTCP", "refused BadMagic at 0"),
    (bytes.fromhex("0a0d0d0a") + bytes(40), "refused BadMagic at 8"),
    (SECTION[:11], "refused Truncated at 11"), (SECTION[:20], "refused Truncated at 20"),
    (SECTION[:-4] + bytes(4), "the block at 0 says at its end that it has another length"),
    (SECTION + struct.pack("<III", 1, 12, 12), "the block at 28 is too short for an interface"),
    (SECTION + struct.pack("<II", 6, 13), "the block at 28 says that it has 13 octets"),
    (SECTION + block(6, struct.pack("<IIIII", 0, 0, 0, 0, 0)), "the packet at 28 is of interface 0, and there are 0"),
    (SECTION + block(1, struct.pack("<HHI", 127, 0, 0)) + block(6, struct.pack("<IIIII", 0, 0, 0, 4, 9) + bytes(4)),
     "the packet at 48 has 4 of 9 octets, and only whole ones are read"),
    (SECTION + block(1, struct.pack("<HHI", 1, 0, 0)) + block(3, struct.pack("<I", 1) + bytes(4)),
     "its link type is 1, and 127 (radiotap) or 105 (IEEE 802.11) is asked for"),
    (struct.pack("<IHHiIII", 0xA1B2C3D4, 2, 4, 0, 0, 65535, 1), "its link type is 1, and 127 (radiotap) or 105 (IEEE 802.11) is asked for"),
    (struct.pack("<IHHiIII", 0xA1B2C3D4, 2, 4, 0, 0, 65535, 127) + struct.pack("<IIII", 0, 0, 4, 9) + bytes(4),
     "record 0 has 4 of 9 octets, and only whole records are read"),
    (struct.pack("<IHHiIII", 0xA1B2C3D4, 2, 4, 0, 0, 65535, 127) + struct.pack("<IIII", 0, 0, 4, 4) + bytes(4),
     "record 0: there is no radiotap header of version 0"),
])
def test_files_that_are_no_pcap(octets, said):
    with pytest.raises(InputError) as error:
        list(read_pcap(octets))
    assert str(error.value) == said


def test_wireshark_reads_them(tshark, tmp_path):
    """Wireshark's own reading of each field."""
    spoiled = data_frame(number=9)[:-1] + b"\0"
    packets = [*packets_of(take_apart(ANNEX), Radiotap(rate=36.0, frequency=2412), time=1_500_000_000),
               *packets_of(take_apart(aggregate([data_frame(number=8), spoiled])), Radiotap(40, 15, True, signal=-40), reference=6)]
    (tmp_path / "made.pcap").write_bytes(octets_of_pcap(packets))
    fields = ["frame.time_epoch", "radiotap.flags.fcs", "radiotap.flags.badfcs", "radiotap.datarate", "radiotap.channel.freq", "radiotap.mcs.index",
              "radiotap.mcs.bw", "radiotap.mcs.gi", "radiotap.ampdu.reference", "radiotap.ampdu.flags.last", "radiotap.dbm_antsignal",
              "wlan.fcs", "wlan.fcs.status", "wlan.fc.type_subtype", "wlan.seq", "wlan.sa"]
    words = [word for name in fields for word in ("-e", name)]
    told = tshark("-o", "wlan.check_checksum:TRUE", "-r", tmp_path / "made.pcap", "-T", "fields", "-E", "separator=;", *words)
    annex, first, second = (dict(zip(fields, line.split(";"))) for line in told)
    assert float(annex["frame.time_epoch"]) == 1.5 and annex["radiotap.datarate"] in ("36", "36.0") and annex["radiotap.channel.freq"] == "2412"
    assert annex["wlan.fcs"] == "0xb6213367" and annex["wlan.fcs.status"] == first["wlan.fcs.status"] == "1"
    assert (first["radiotap.mcs.index"], first["radiotap.mcs.bw"], first["radiotap.mcs.gi"], first["radiotap.dbm_antsignal"]) == ("15", "1", "1", "-40")
    assert first["radiotap.ampdu.reference"] == second["radiotap.ampdu.reference"] == "6"
    assert (first["radiotap.ampdu.flags.last"], second["radiotap.ampdu.flags.last"]) == ("0", "1")
    assert (first["radiotap.flags.badfcs"], second["radiotap.flags.badfcs"], second["wlan.fcs.status"]) == ("0", "1", "0")
    assert (first["wlan.seq"], first["wlan.sa"], first["radiotap.flags.fcs"]) == ("8", OTHER, "1")


def test_wireshark_has_nothing_to_note(here, tshark, tmp_path, radio):
    """Of a recording's packets in either kind of file: no expert note, times since 1970 by core:datetime, and levels."""
    (tmp_path / "mpdus").write_text("".join(data_frame(number=n)[:-4].hex() + "\n" for n in range(2)))
    assert here("frames", "mpdus", "--mcs", 9, "-o", "sent.httx").returncode == 0
    (tmp_path / "sent.htsy").write_bytes(radio.tx((tmp_path / "sent.httx").read_bytes()))
    assert here("waveform", "sent.htsy", "-o", "air").returncode == 0
    meta = tmp_path / "air.sigmf-meta"
    meta.write_text(meta.read_text().replace('"core:sample_start": 0,', '"core:sample_start": 0, "core:datetime": "2026-03-01T12:00:00.25Z",', 1))
    assert here("receive", "air", "-o", "air.pcapng").returncode == 0
    assert here("receive", "air", "-o", "air.pcap", "--full-scale", "-20").returncode == 0
    fields = ["frame.time_epoch", "radiotap.mactime", "radiotap.dbm_antsignal", "radiotap.dbm_antnoise", "radiotap.db_antsignal", "_ws.expert", "_ws.malformed",
              "wlan_radio.duration", "wlan.fcs.status"]
    words = [word for name in fields for word in ("-e", name)]
    for name, signal, level in (("air.pcapng", "", "108"), ("air.pcap", "-40", "")):
        told = [dict(zip(fields, line.split(";"))) for line in tshark("-o", "wlan.check_checksum:TRUE", "-r", tmp_path / name, "-T", "fields", "-E",
                                                                      "separator=;", *words)]
        assert len(told) == 2
        for packet in told:
            assert packet["_ws.expert"] == packet["_ws.malformed"] == "" and packet["wlan.fcs.status"] == "1" and int(packet["wlan_radio.duration"]) > 40
            assert (packet["radiotap.dbm_antsignal"], packet["radiotap.db_antsignal"]) == (signal, level)
            assert packet["radiotap.dbm_antnoise"] in (("-75", "-76") if signal else ("",))  # 35 dB and what is in 8 of 64 subcarriers below the signal
            assert packet["frame.time_epoch"].startswith("1772366400.2500") and packet["radiotap.mactime"].startswith("17723664002500")
    assert here("receive", "air", "--full-scale", "-20").stderr == b"mizgaure: --full-scale is said of the levels in --output\n"


def test_levels_of_signal_and_noise(here, tmp_path, radio):
    """Of a packet 20 dB below full scale: in dBm where full scale is said, and else in dB; noise is that of a subcarrier beside the signal's."""
    (tmp_path / "mpdus").write_text("".join(data_frame(number=n)[:-4].hex() + "\n" for n in range(2)))
    assert here("frames", "mpdus", "--mcs", 9, "-o", "sent.httx").returncode == 0
    (tmp_path / "sent.htsy").write_bytes(radio.tx((tmp_path / "sent.httx").read_bytes()))
    for snr, full_scale in ((20, -20), (30, -20), (30, -7.5)):
        assert here("waveform", "sent.htsy", "-o", "air", "--snr", snr, "--force").returncode == 0
        assert here("receive", "air", "-o", "air.pcap", "--full-scale", full_scale, "--force").returncode == 0
        signal, noise = np.array([(each.radiotap.signal, each.radiotap.noise) for each in read_pcap(tmp_path / "air.pcap")]).T
        assert signal == pytest.approx(full_scale - 20, abs=1) and noise == pytest.approx(full_scale - 20 - snr - 10 * np.log10(64 / 56), abs=1.2)
        assert here("receive", "air", "-o", "air.pcap", "--force").returncode == 0
        levels = [(each.radiotap.signal_level, each.radiotap.noise_level) for each in read_pcap(tmp_path / "air.pcap")]
        assert np.array(levels) == pytest.approx(np.array([[108, 107.4 - snr]] * 2), abs=1.2)
