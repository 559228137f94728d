"""STBC and HT-greenfield format, against a transmitter of the tests' own.

All that it sends is typed here out of IEEE Std 802.11-2012, and symbols are made by plain transforms: nothing comes from the
tools but the points of spatial streams and L-SIG, whose coding is held against annex L elsewhere.
"""

import air
import numpy as np
import pytest
from conftest import VECTORS
from test_air import PILOTS, POLARITY, here, sent  # noqa: F401

from mizgaure import Rate, read_htsy, read_httx
from mizgaure.air import stbc
from mizgaure.air.headers import refusal
from mizgaure.air.record import Spool, packets_in, spooled
from mizgaure.air.signal import HtSignal, LegacySignal, points_of
from mizgaure.air.waveform import Clock, packet
from mizgaure.packets import read_pcap
from mizgaure.sweep import random_symbols

# Equations 18-7 and 18-9, and the HT-LTF of equations 20-23 and 20-24; 0 stands for nothing.
SHORT = {-24: 1, -20: -1, -16: 1, -12: -1, -8: -1, -4: 1, 4: -1, 8: -1, 12: 1, 16: 1, 20: 1, 24: 1}
LEFT, RIGHT = "++--++-+-++++++--++-+-++++", "+--++-+-+-----++--+-+-++++"
TRAINING = {20: "++" + LEFT + "0" + RIGHT + "--", 40: LEFT + "+" + RIGHT + "---+000-++-" + LEFT + "+" + RIGHT}
MATRIX = ("+-++", "++-+", "+++-", "-+++")  # equation 20-27: a row for each space-time stream, a column for each HT-LTF
FIELDS = {1: 1, 2: 2, 3: 4, 4: 4}  # table 20-13
STREAM_SHIFTS = (0, -400, -200, -600)  # table 20-10, in nanoseconds
CHAIN_SHIFTS = {1: (0,), 2: (0, -200), 3: (0, -100, -200), 4: (0, -50, -100, -150)}  # table 20-9
PILOT_CARRIERS = {20: (-21, -7, 7, 21), 40: (-53, -25, -11, 11, 25, 53)}
DATA_BITS = (26, 52, 78, 104, 156, 208, 234, 260)  # N_DBPS of MCS 0 to 7 at 20 MHz, tables 20-30 to 20-33; 108 in place of 52 at 40

# Table 20-18: for spatial and space-time streams what each of the latter sends in symbols 2m and 2m + 1.
# "1'*" stands for the conjugate of stream 1 in symbol 2m + 1.
CODE = {
    (1, 2): ("1 1'", "-1'* 1*"),
    (2, 3): ("1 1'", "-1'* 1*", "2 2'"),
    (2, 4): ("1 1'", "-1'* 1*", "2 2'", "-2'* 2*"),
    (3, 4): ("1 1'", "-1'* 1*", "2 2'", "3 3'"),
}


def signs(word):
    return np.array([{"+": 1, "-": -1, "0": 0}[sign] for sign in word], complex)


def term(word, pair):
    """What a word of table 20-18 stands for, of a pair of symbols of shape (2, subcarriers, streams)."""
    points = pair[int("'" in word), :, int(word.strip("-'*")) - 1]
    return (-1 if word.startswith("-") else 1) * (points.conj() if word.endswith("*") else points)


def test_every_word_of_the_table_is_understood():
    pair = np.array([[[1 + 2j, 3 + 1j]], [[5 + 4j, 7 - 1j]]])
    said = {"1": 1 + 2j, "1'": 5 + 4j, "-1'*": -5 + 4j, "2*": 3 - 1j, "-2'*": -7 - 1j}
    assert {word: complex(term(word, pair)[0]) for word in said} == said


def ht_sig(mcs, wide, length, short, more):
    """The 48 points of each of HT-SIG's symbols, bit by bit (clauses 20.3.9.4.3, 18.3.5.6 and 18.3.5.7)."""
    bits = [mcs >> n & 1 for n in range(7)] + [int(wide)] + [length >> n & 1 for n in range(16)]
    bits += [1, 1, 1, 0, more & 1, more >> 1, 0, int(short), 0, 0]
    crc = [1] * 8
    for bit in bits:
        out = crc[7] ^ bit
        crc = [out, crc[0] ^ out, crc[1] ^ out, *crc[2:7]]
    bits += [1 - bit for bit in reversed(crc)] + [0] * 6
    taps, register, coded = (0o133, 0o171), 0, []
    for bit in bits:
        register = register >> 1 | bit << 6
        coded += [bin(register & tap).count("1") % 2 for tap in taps]
    made = np.zeros((2, 48))
    for k, bit in enumerate(coded):
        made[k // 48, 3 * (k % 48 % 16) + k % 48 // 16] = 2 * bit - 1
    return made


def transmitted(frame, short, more, greenfield):
    """A packet's samples, one at every instant of 20 or 40 MHz, all chains together of mean power 1: (chains, instants)."""
    rate, bandwidth = frame.rate, frame.rate.bandwidth
    over, length = bandwidth // 20, 64 * bandwidth // 20
    streams = rate.mcs // 8 + 1 + more
    numbers = np.arange(-28, 29) if bandwidth == 20 else np.arange(-58, 59)
    turn = np.where((bandwidth == 40) & (numbers > 0), 1j, 1)

    def symbol(values, shifts, factors, guard):
        """Values of subcarriers (chains or one, numbers), behind a guard interval of so many samples at 20 MHz."""
        spectrum = np.zeros((streams, length), complex)
        spectrum[:, numbers % length] = values * turn
        tones = np.count_nonzero(np.abs(spectrum[0]) > 1e-12)
        times = np.fft.ifft(spectrum) * length / np.sqrt(tones * streams) * np.asarray(factors)[:, None]
        times = np.stack([np.roll(row, round(shift * bandwidth / 1000)) for row, shift in zip(times, shifts)])
        return np.concatenate((times[:, length - guard * over :], times), axis=1)

    def parts(values):
        """Values of subcarriers -26 to 26, in every 20 MHz."""
        made = np.zeros(numbers.size, complex)
        for middle in ((0,) if bandwidth == 20 else (-32, 32)):
            made[np.searchsorted(numbers, middle + np.arange(-26, 27))] = values
        return made

    def signal(points, n):
        values = np.zeros(53, complex)
        values[[26 + k for k in range(-26, 27) if k not in (-21, -7, 0, 7, 21)]] = points
        values[[26 - 21, 26 - 7, 26 + 7, 26 + 21]] = np.array((1, 1, 1, -1)) * signs(POLARITY[n])
        return parts(values)

    short_training = np.zeros(53, complex)
    for number, sign in SHORT.items():
        short_training[26 + number] = sign * (1 + 1j)
    short_training = parts(short_training / np.sqrt(2))
    training = signs(TRAINING[bandwidth])
    matrix = np.stack([signs(row) for row in MATRIX])[:streams]
    later = STREAM_SHIFTS[:streams]
    said = [1j * row for row in ht_sig(rate.mcs, bandwidth == 40, frame.length, short, more)]
    bits = (1 if rate.mcs < 8 else rate.mcs // 8 + 1) * DATA_BITS[rate.mcs % 8] * (1 if bandwidth == 20 else 108 / 52)
    encoders = 2 if bandwidth == 40 and rate.mcs in (21, 22, 23, 28, 29, 30, 31) else 1
    pair = 2 if more else 1
    count = pair * -(-(8 * frame.length + 16 + 6 * encoders) // round(pair * bits))
    data = (64 + (8 if short else 16)) / 20
    if greenfield:
        shifts, factors = later, matrix[:, 0]
        long, first, signals = training, 2, said
    else:
        shifts, factors = CHAIN_SHIFTS[streams], np.ones(streams)
        lasts = 32 + 4 * FIELDS[streams] + count * data
        octets = 3 * int(np.ceil((lasts - 20) / 4 - 1e-9)) - 3
        long, first = parts(signs(LEFT + "0" + RIGHT)), 3
        signals = [points_of(LegacySignal(6, octets).bits())[0], *said]
    fields = [np.tile(symbol(short_training, shifts, factors, 0), 3)[:, : 160 * over],
              symbol(long, shifts, factors, 32), symbol(long, shifts, factors, 0)]
    fields += [symbol(signal(points, n), shifts, factors, 16) for n, points in enumerate(signals)]
    if not greenfield:
        fields.append(np.tile(symbol(short_training, later, np.ones(streams), 0), 2)[:, : 80 * over])
    fields += [symbol(training, later, matrix[:, n], 16) for n in range(greenfield, FIELDS[streams])]

    points = frame.points * {1: 1, 2: 2, 4: 10, 6: 42}[rate.bits_per_point] ** -0.5
    points = np.concatenate((points, points[-1:]))[:count]  # nothing is asked of a symbol of pads
    assert len(points) == count
    if more:
        words = CODE[rate.mcs // 8 + 1, streams]
        points = np.stack([np.stack([term(word.split()[n % 2], points[n - n % 2 : n - n % 2 + 2]) for word in words], axis=1) for n in range(count)])
    used = np.flatnonzero(training)
    rows = PILOTS[bandwidth, streams].split()
    for n in range(count):
        values = np.zeros((streams, numbers.size), complex)
        values[:, used] = points[n].T
        for k, number in enumerate(PILOT_CARRIERS[bandwidth]):
            for stream, row in enumerate(rows):
                values[stream, np.searchsorted(numbers, number)] = signs(row[(n + k) % len(row)])[0] * signs(POLARITY[(n + first) % 127])[0]
        # A conjugate is that of the point, whatever its subcarrier is turned by.
        fields.append(symbol(values, later, np.ones(streams), 8 if short else 16))
    return np.concatenate(fields, axis=1)


FORMS = [(more, greenfield) for more in (0, 1, 2) for greenfield in (False, True)]


@pytest.mark.parametrize("more, greenfield", FORMS)
def test_a_waveform_is_what_the_standard_says(more, greenfield):
    random = np.random.default_rng(5)
    cases = [(bandwidth, mcs, length, short) for bandwidth in (20, 40) for mcs, length in ((3, 60), (12, 100), (22, 300), (26, 150))
             if stbc.is_known(mcs // 8 + 1, more) for short in (False, True)]
    assert len(cases) == {0: 16, 1: 12, 2: 4}[more]
    odd = 0
    for bandwidth, mcs, length, short in cases:
        frame = random_symbols(Rate(bandwidth, mcs), length, random)
        odd += len(frame.points) % 2
        first, samples = packet(frame, Clock(bandwidth // 20), 0.0, short, more=more, greenfield=greenfield)
        expected = transmitted(frame, short, more, greenfield)
        assert first == 0 and samples.shape == expected.shape and np.abs(samples - expected).max() < 1e-9
    assert 0 < odd < len(cases)


def through_the_air(samples, antennas, offset, spread, random):
    """What antennas hear of chains over taps of equal power, with a carrier's offset in turns a sample."""
    taps = (random.standard_normal((antennas, len(samples), spread + 1, 2)) @ (1, 1j)) / np.sqrt(2 * (spread + 1))
    made = np.zeros((antennas, samples.shape[1] + spread), complex)
    for delay in range(spread + 1):
        made[:, delay : delay + samples.shape[1]] += taps[..., delay] @ samples
    return made * np.exp(2j * np.pi * offset * np.arange(made.shape[1]))


@pytest.mark.parametrize("more, greenfield", FORMS[1:])
def test_all_octets_return(radio, tmp_path, more, greenfield):
    """The vectors of rates at 30 dB, through the program; on as many antennas as spatial streams, and on one or two more."""
    random, names, lines = np.random.default_rng(9), [], []
    with Spool() as spool:
        for bandwidth, short, steps in ((20, False, (1, 6, 12, 15, 19, 25, 27)), (40, True, (0, 5, 9, 14, 21, 30)), (20, True, (8,)),
                                        (40, False, (4, 20))):
            for mcs in steps:
                if not stbc.is_known(mcs // 8 + 1, more):
                    continue
                names.append(f"bw{bandwidth // 20 - 1}-mcs{mcs:02d}")
                antennas = mcs // 8 + 1 + (mcs % 2) + (mcs >= 8)
                spread = 3 if short else 7  # samples: up to 350 ns, which with the streams' shifts are longer than the guard interval
                packets = [through_the_air(transmitted(frame, short, more, greenfield), antennas, 4e-4 * (mcs - 15), spread, random)
                           for frame in read_htsy(VECTORS / "rates" / f"{names[-1]}.htsy")]
                with air.heard(packets, 30.0, oversampling=bandwidth // 20) as recording:
                    lines += list(spooled(recording, spool))
        spool.write(tmp_path / "made.htcp")
    assert [line.left_out for line in lines] == [None] * len(lines)
    assert all((line.header["stbc"], line.header["greenfield"], "greenfield" in line.remarks) == (more, greenfield, greenfield) for line in lines)
    octets = [frame.octets for name in names for frame in read_httx(VECTORS / "rates" / f"{name}.httx")]
    assert len(octets) > 2 and [answer.octets for answer in radio.rx(tmp_path / "made.htcp")] == octets


@pytest.mark.parametrize("mcs, more, greenfield, spread", [(5, 1, False, 2), (13, 1, False, 2), (13, 2, False, 2), (21, 1, True, 2), (29, 0, True, 8)])
def test_what_is_left_is_noise(mcs, more, greenfield, spread):
    """At the sent points: the noise, whose mean power is 1, and with STBC of several streams what of the other symbol is below it.

    In the last case the channel and the streams' shifts are together longer than a guard interval.
    """
    random, rate = np.random.default_rng(2), Rate(20, mcs)
    frame = random_symbols(rate, 700, random)
    with air.heard([through_the_air(transmitted(frame, False, more, greenfield), rate.streams + 1, 2e-4, spread, random)]) as recording:
        (found,) = packets_in(recording)
    received, channel = np.asarray(found.frame.received), np.asarray(found.frame.channel)
    rows = rate.streams if more else rate.streams + 1
    assert received.shape == (len(frame.points), 56, rows) and channel.shape == (56, rows, rate.streams)
    points = frame.points * rate.normalising_factor
    points[:, rate.is_pilot] = rate.pilot_signs(len(points))  # the project's own, of as many streams as are spatial
    left = np.mean(np.abs(received - np.einsum("kas,nks->nka", channel, points)) ** 2, axis=(0, 2))
    assert np.mean(left[~rate.is_pilot]) == pytest.approx(1.2, abs=0.4) and np.mean(left[rate.is_pilot]) == pytest.approx(1.2, abs=0.5)


def test_one_stream_on_two_is_as_loud_as_both():
    """Alamouti's pair by hand: (g, h) = (1 + i, 2), points a = 1 and b = i, where y = g a - h b* and z = g b + h a*."""
    y, z = (1 + 1j) * 1 - 2 * -1j, (1 + 1j) * 1j + 2
    assert (y, z) == (1 + 3j, 1 + 1j)
    triangle, received = stbc.combined(np.array([[[1 + 1j, 2]]]), np.array([[[y]], [[z]]]), 1, np.array([False]))
    assert abs(triangle[0, 0, 0]) == pytest.approx(np.sqrt(6)) and received[:, 0, 0] / triangle[0, 0, 0] == pytest.approx([1, 1j], abs=1e-6)


def test_a_pilot_has_nothing_of_the_other_symbol():
    """Each stream keeps the power of its ways, |g|^2 + |h|^2, where the other symbol adds nothing, and less of it elsewhere."""
    channel = np.array([[[1 + 1j, 2, 1j], [1, -1j, 3]]] * 2)
    triangles, _ = stbc.combined(channel, np.zeros((2, 2, 2)), 2, np.array([True, False]))
    powers = np.sum(np.abs(triangles) ** 2, axis=1)
    assert powers[0] == pytest.approx([2 + 4 + 1 + 1, 1 + 9]) and (powers[1] < powers[0] - 1).all()


def test_what_the_other_symbol_of_a_pair_costs():
    """As docs/RECORDINGS.md says, for QPSK on two streams: a search over both symbols is no better at 3.5 dB less on two antennas, 1.5 on three."""
    random = np.random.default_rng(3)
    choices = np.array([[1 + 1j, 1 - 1j, -1 + 1j, -1 - 1j]]).T / np.sqrt(2)
    choices = np.stack([np.repeat(choices[:, 0], 4), np.tile(choices[:, 0], 4)], axis=1)  # the 16 points of both streams

    def wrong(streams, antennas, snr, jointly, count=6000):
        """The share of wrong vectors over so many pairs, each with a channel of its own of mean power 1 on an antenna."""
        channel = (random.standard_normal((count, antennas, streams, 2)) @ (1, 1j)) * np.sqrt(10 ** (snr / 10) / (2 * streams))
        said = random.integers(0, 16, (2, count))
        pair = choices[said]
        words = CODE[2, streams]
        coded = [np.stack([term(word.split()[n], pair) for word in words], axis=-1) for n in (0, 1)]
        heard = [np.einsum("kat,kt->ka", channel, row) + (random.standard_normal((count, antennas, 2)) @ (1, 1j)) / np.sqrt(2) for row in coded]
        if not jointly:
            triangle, received = stbc.combined(channel, np.stack(heard), 2, np.zeros(count, bool))
            distances = np.sum(np.abs(received[:, :, None] - np.einsum("kst,ct->kcs", triangle, choices)) ** 2, axis=3)
            return np.mean(distances.argmin(axis=2) != said)
        best, least = np.zeros((2, count), int), np.full(count, np.inf)
        for first in range(16):
            for second in range(16):
                sent_pair = choices[[first, second]][:, None]
                vectors = [np.stack([term(word.split()[n], sent_pair)[0] for word in words]) for n in (0, 1)]
                distance = sum(np.sum(np.abs(row - channel @ vector) ** 2, axis=1) for row, vector in zip(heard, vectors))
                best[:, distance < least] = np.array([[first], [second]])
                least = np.minimum(least, distance)
        return np.mean(best != said)

    for streams, antennas, snr, cost in ((3, 2, 18.0, 3.5), (4, 2, 15.0, 3.5), (3, 3, 12.6, 1.5), (4, 3, 10.2, 1.5)):
        ours = wrong(streams, antennas, snr, False)
        assert 0.006 < ours < 0.015 and ours < wrong(streams, antennas, snr - cost, True)


def test_what_is_refused():
    known = {(streams, more): refusal(HtSignal(8 * streams - 8, False, 10, stbc=more), 4, 1) for streams in (1, 2, 3, 4) for more in (0, 1, 2, 3)}
    taken = {(1, 0), (2, 0), (3, 0), (4, 0), (1, 1), (2, 1), (2, 2), (3, 1)}  # table 20-18
    assert {case: said is None for case, said in known.items()} == {case: case in taken for case in known}
    assert set(known.values()) == {None, "reserved STBC"}
    packets = [air.greenfield(HtSignal(3, False, 30, ldpc=True)), air.greenfield(HtSignal(3, False, 30)), air.greenfield(HtSignal(3, True, 30)),
               air.greenfield(HtSignal(0, False, 20000))]
    with air.heard(packets) as recording, Spool() as spool:
        assert [line.left_out for line in spooled(recording, spool)] == ["LDPC", None, "40 MHz", "longer than 5,484 µs"]


def test_from_symbols_to_packets(here, sent, tmp_path):  # noqa: F811
    for more, words in ((1, ["--stbc", 1]), (0, ["--greenfield"]), (1, ["--stbc", 1, "--greenfield", "--guard", "short"])):
        assert here("waveform", "sent.htsy", "-o", "air", "--spread", 50, "--antennas", 4, *words, "--force").returncode == 0
        done = here("receive", "air", "-o", "air.pcap", "--json", "air.jsonl", "--force")
        lines = done.stdout.decode().splitlines()
        assert done.returncode == 0 and lines[3] == "3 packets: 3 received, 3 of 3 MPDUs with a good FCS", done.stderr
        assert all(("greenfield" in line, "STBC with" in line) == ("--greenfield" in words, more > 0) for line in lines[:3])
        assert f'"stbc": {more}' in (tmp_path / "air.jsonl").read_text()
        for packet_read, octets in zip(read_pcap(tmp_path / "air.pcap"), sent):
            assert packet_read.octets == octets and (packet_read.radiotap.stbc, packet_read.radiotap.greenfield) == (more, "--greenfield" in words)
    assert here("waveform", "sent.htsy", "-o", "air", "--stbc", 2, "--force").stderr.decode() == \
        "mizgaure: STBC sends 20 MHz, MCS 2 (QPSK 3/4, 1 stream) on no 3 space-time streams\n"
    assert here("picture", "tracking", "air", "it.png", "--frame", 1).stderr.decode() == \
        "mizgaure: packet 1 of air.sigmf-data has STBC, and isn't drawn\n"
    refused = here("verdict", "air")
    assert refused.returncode == 2 and refused.stderr.decode() == \
        "mizgaure: air.sigmf-data: 3 packets aren't measured: 3 with STBC, whose points are known over two chains together alone\n"
