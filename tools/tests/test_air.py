"""Waveforms and recordings: the standard's own numbers, the way there and back, and what is wrong with a recording."""

import json
import re
import signal
import subprocess

import air
import numpy as np
import pytest
from conftest import TOP, VECTORS

from mizgaure import CaptureFrame, Rate, SentFrame, capture, cli, read_htcp, read_htsy, read_httx, write_htsy, write_httx
from mizgaure.air import headers, receive, record, standard, track
from mizgaure.air.headers import refusal
from mizgaure.air.record import FULL, Spool, packets_in, spooled
from mizgaure.air.recording import Layout, open_recording
from mizgaure.air.signal import LONGEST_LEGACY, HtSignal, LegacySignal, coded, crc, decode, points_of, read_ht, read_legacy
from mizgaure.air.simulate import Scene
from mizgaure.air.pieces import READ
from mizgaure.air.waveform import Clock, packet, pieces_of
from mizgaure.distances import residuals, zero_forcing
from mizgaure.errors import InputError
from mizgaure.packets import read_pcap, with_fcs
from mizgaure.rates import polarity
from mizgaure.sweep import random_symbols


def frames_of(bandwidth: int, mcs=range(32)):
    """The symbols of the vectors of rates."""
    names = [VECTORS / "rates" / f"bw{bandwidth // 20 - 1}-mcs{n:02d}.htsy" for n in mcs]
    return [frame for name in names for frame in read_htsy(name)]


def in_time(values: np.ndarray, count: int) -> np.ndarray:
    """The first samples of a symbol at 20 MHz, as annex L.1 scales them."""
    spectrum = np.zeros(64, complex)
    spectrum[standard.span(20) % 64] = values
    return np.tile(np.fft.ifft(spectrum), 3)[:count]


# the standard's numbers

def test_the_training_fields_are_those_of_annex_l():
    short = in_time(standard.short_training(20) * np.sqrt(2) * np.sqrt(13 / 6), 160)
    first = [0.046 + 0.046j, -0.132 + 0.002j, -0.013 - 0.079j, 0.143 - 0.013j, 0.092, 0.143 - 0.013j, -0.013 - 0.079j, -0.132 + 0.002j]
    assert np.abs(short[:8] - first).max() < 0.0008 and np.abs(short[16:] - short[:-16]).max() < 1e-12
    long = in_time(standard.long_training(20), 7)
    first = [0.156, -0.005 - 0.120j, 0.040 - 0.111j, 0.097 + 0.083j, 0.021 + 0.028j, 0.060 - 0.088j, -0.115 - 0.055j]
    assert np.abs(long - first).max() < 0.0008


def test_l_sig_is_that_of_annex_l():
    bits = LegacySignal(36, 100).bits()
    assert "".join(map(str, bits)) == "1011" "0" "001001100000" "0" "000000"
    assert "".join(map(str, coded(bits))) == "110100011010000100000010001111100111000000000000"  # table L-8
    assert read_legacy(bits) == LegacySignal(36, 100)
    for place in range(24):  # a wrong bit is refused by the parity, by the reserved bit, which it covers, or by the tail
        assert read_legacy([bit ^ (n == place) for n, bit in enumerate(bits)]) is None


def test_ht_sig_and_its_crc():
    said = [int(bit) for bit in "1111000100100110000000001110000000"]  # the example of clause 20.3.9.4.4
    assert crc(said) == (1, 0, 1, 0, 1, 0, 0, 0)
    random = np.random.default_rng(4)
    for _ in range(20):
        flags = [bool(flag) for flag in random.integers(0, 2, 6)]
        signal = HtSignal(int(random.integers(128)), flags[0], int(random.integers(65536)), *flags[1:4], int(random.integers(4)), *flags[4:],
                          int(random.integers(4)))
        bits = signal.bits()
        assert len(bits) == 48 and read_ht(bits) == signal
        for place in range(48):
            assert read_ht([bit ^ (n == place) for n, bit in enumerate(bits)]) is None
        points = points_of(bits)
        assert set(points.reshape(-1)) == {-1.0, 1.0} and (decode(points + 0.5 * random.standard_normal(points.shape)) == bits).all()


# Copied out of the standard: tables 20-19 and 20-20, a row for each stream, and the sequence of equation 18-25.
PILOTS = {
    (20, 1): "+++-", (20, 2): "++-- +--+", (20, 3): "++-- +-+- -++-", (20, 4): "+++- ++-+ +-++ -+++",
    (40, 1): "+++--+", (40, 2): "++---- +++-++", (40, 3): "++---- +++-++ +-+--+", (40, 4): "++---- +++-++ +-+--+ -+++-+",
}
POLARITY = ("++++---+----++-+--++-++-++++++-+++-++--+++-+---+-+--+--+++++--++--+-+-++---++----+--+-++++-+-+-+-----+-++-+-+++--+---+++"
            "-------")


@pytest.mark.parametrize("bandwidth, streams", list(PILOTS))
def test_pilots_are_those_of_the_tables(bandwidth, streams):
    """Pilot k of symbol n has the sign n + k of its row, counted round, and the polarity of symbol n + 3 (clause 20.3.11.10)."""
    rows = [[1 if sign == "+" else -1 for sign in row] for row in PILOTS[bandwidth, streams].split()]
    signs = [1 if sign == "+" else -1 for sign in POLARITY]
    assert len(signs) == 127 and polarity().tolist() == signs
    made = standard.pilots(Rate(bandwidth, 8 * streams - 8), 260)
    for n, symbol in enumerate(made):
        turned = [[signs[(n + 3) % 127] * row[(n + k) % len(row)] for k in range(len(row))] for row in rows]
        assert symbol.T.tolist() == turned


def test_training_has_the_standards_form():
    for bandwidth, used in ((20, 56), (40, 114)):
        training = standard.ht_long_training(bandwidth)
        assert np.count_nonzero(training) == used and (np.flatnonzero(training) == standard.ht_subcarriers(bandwidth)).all()
    assert set(standard.rotation(20)) == {1} and (standard.rotation(40) == np.where(np.arange(-58, 59) > 0, 1j, 1)).all()
    signs = standard.TRAINING_SIGNS
    assert (signs @ signs.T == 4 * np.eye(4)).all()


@pytest.mark.parametrize("short", [False, True])
@pytest.mark.parametrize("bandwidth, mcs", [(20, 4), (20, 13), (40, 22), (40, 31)])
def test_a_packet_is_the_sum_of_its_subcarriers(bandwidth, mcs, short):
    """Samples of each field by the standard's own sums, at instants of a receiver whose clock is off."""
    rate = Rate(bandwidth, mcs)
    frame = random_symbols(rate, 600, np.random.default_rng(1))
    first, samples = packet(frame, Clock(bandwidth // 20, 3e-5), 7.3, short)
    micro = (np.arange(first, first + samples.shape[1]) * (1 + 3e-5) - 7.3) / bandwidth
    numbers, turn = standard.span(bandwidth), standard.rotation(bandwidth)
    fields = 36 + 4 * (standard.TRAINING_FIELDS[rate.streams - 1] - 1)
    lasts, guard = (3.6, 0.4) if short else (4.0, 0.8)
    cases = [(3.1, 0.8, standard.short_training(bandwidth), "chains"), (13.0, 1.6, standard.long_training(bandwidth), "chains"),
             (33.9, 32.8, standard.ht_long_training(bandwidth), "streams")]
    for when, zero, values, kind in cases:
        place = int(np.argmin(np.abs(micro - when)))
        shifts = standard.chain_shifts(rate.streams) if kind == "chains" else standard.stream_shifts(rate.streams)
        zero = zero + 8 if kind == "chains" and when > 8 else zero
        for chain, shift in enumerate(shifts):
            sign = standard.TRAINING_SIGNS[chain, 0] if kind == "streams" else 1
            waves = np.exp(2j * np.pi * numbers * 0.3125 * (micro[place] - zero - shift * 1e-3))
            expected = sign * np.sum(values * turn * waves) / np.sqrt(np.sum(np.abs(values) ** 2) * rate.streams)
            assert samples[chain, place] == pytest.approx(expected, abs=1e-9)
    data = np.zeros((rate.streams, numbers.size), complex)
    points = frame.points[1] * rate.normalising_factor
    points[rate.is_pilot] = standard.pilots(rate, 2)[1]
    data[:, standard.ht_subcarriers(bandwidth)] = points.T
    place = int(np.argmin(np.abs(micro - fields - 1.4 * lasts)))
    for stream, shift in enumerate(standard.stream_shifts(rate.streams)):
        waves = np.exp(2j * np.pi * numbers * 0.3125 * (micro[place] - fields - lasts - guard - shift * 1e-3))
        expected = np.sum(data[stream] * turn * waves) / np.sqrt(rate.subcarriers * rate.streams)
        assert samples[stream, place] == pytest.approx(expected, abs=1e-9)
    assert np.mean(np.sum(np.abs(samples) ** 2, axis=0)) == pytest.approx(1, abs=0.12)


def test_a_packet_that_l_sig_cannot_announce():
    frame = random_symbols(Rate(20, 0), 5000, np.random.default_rng(1))
    with pytest.raises(InputError, match="lasts 6196 microseconds, and L-SIG can announce 5484"):
        pieces_of(frame)
    assert standard.signal_octets(5484) == LONGEST_LEGACY == standard.signal_octets(5481)


# there and back

def points_wrong(frame: CaptureFrame, sent) -> int:
    """How many vectors of a capture's frame a simple detector finds wrong."""
    jobs = zero_forcing(frame, 0)
    return int(np.count_nonzero((sent.points[jobs.symbol, jobs.carrier] != jobs.points).any(axis=1)))


@pytest.mark.parametrize("bandwidth, short, spread, offset, beyond", [
    (20, False, 400.0, 40.0, (1, 2, 3, 4)), (20, True, 400.0, -40.0, (2, 3, 4, 1)), (40, False, 400.0, -40.0, (3, 4, 1, 2)),
    (40, True, 400.0, 40.0, (4, 1, 2, 3)), (20, False, 0.0, 0.0, (0, 0, 0, 0))])
def test_all_octets_return(radio, tmp_path, bandwidth, short, spread, offset, beyond):
    """All 32 MCS at 35 dB, with so many antennas beyond the streams where there are one, two, three and four, through the program."""
    scene = Scene(spread=spread, offset=offset, short_guard=short, seed=2)
    with Spool() as spool:
        for streams, more in enumerate(beyond, 1):
            frames = frames_of(bandwidth, range(8 * streams - 8, 8 * streams))
            octets = air.recorded(frames, scene, streams + more, bandwidth // 20)
            with air.recording_of(octets, Layout("cf32_le", 1e6 * bandwidth, streams + more)) as recording:
                lines = list(spooled(recording, spool))
            assert [line.left_out for line in lines] == [None] * 8
            for line, frame in zip(lines, frames):
                assert (line.header["mcs"], line.header["length"], line.header["guard"]) == (frame.rate.mcs, frame.length, 400 if short else 800)
                assert line.offset == pytest.approx(5180 * offset, abs=600)
        spool.write(tmp_path / "made.htcp")
    sent = [frame.octets for n in range(32) for frame in read_httx(VECTORS / "rates" / f"bw{bandwidth // 20 - 1}-mcs{n:02d}.httx")]
    assert [answer.octets for answer in radio.rx(tmp_path / "made.htcp")] == sent


def test_bandwidths_side_by_side():
    """Packets of 20 MHz in the lower half of a recording of 40."""
    frames = [frame for n in (0, 7, 15, 22) for bandwidth in (20, 40) for frame in frames_of(bandwidth, [n])]
    octets = air.recorded(frames, Scene(spread=100.0, offset=-25.0), 5, 2)
    found = list(packets_in(air.recording_of(octets, Layout("cf32_le", 40e6, 5))))
    assert [packet.left_out for packet in found] == [None] * 8
    for packet_found, frame in zip(found, frames):
        assert points_wrong(capture([packet_found.frame]).frames[0], frame) == 0


@pytest.mark.parametrize("middle", [-32, 0, 32])
def test_a_packet_of_20_mhz_anywhere_in_40(middle):
    frame = random_symbols(Rate(20, 12), 100, np.random.default_rng(1))
    _, samples = packet(frame, Clock(2, 1e-5, middle))
    turned = samples * np.exp(2j * np.pi * 1e-5 * 5.18e9 / 40e6 * np.arange(samples.shape[1]))
    with air.heard([turned], oversampling=2) as recording:
        (found,) = packets_in(recording)
    assert found.left_out is None and points_wrong(capture([found.frame]).frames[0], frame) == 0
    assert found.offset == pytest.approx(51800 + middle * 3.125, abs=100)


def test_a_long_packet_is_tracked():
    """The clocks are 40 ppm apart: from beginning to end by four samples."""
    rate = Rate(20, 7)
    frame = random_symbols(rate, 44000, np.random.default_rng(1))
    for offset in (40.0, -40.0):
        octets = air.recorded([frame], Scene(offset=offset), 1)
        (found,) = packets_in(air.recording_of(octets, Layout("cf32_le", 20e6)), keep=True)
        assert points_wrong(capture([found.frame]).frames[0], frame) == 0
        inverse = 1 / (found.frame.channel[0, 0, 0] * rate.normalising_factor)
        assert np.abs(found.untracked[-1, 0, 0] * inverse - frame.points[-1, 0, 0]) > 1  # without tracking it is elsewhere


@pytest.mark.parametrize("bandwidth, mcs, snr", [(20, 0, 9.0), (20, 7, 27.0), (20, 15, 27.0), (20, 27, 17.0), (40, 4, 21.0), (40, 24, 9.0)])
def test_what_the_estimates_cost(bandwidth, mcs, snr):
    """At the ratios of the standard's least sensitivities noise at the sent points is at most 2 dB above that of a known channel."""
    rate = Rate(bandwidth, mcs)
    random = np.random.default_rng(6)
    frames = [random_symbols(rate, 300, random) for _ in range(4)]
    octets = air.recorded(frames, Scene(snr=snr, offset=13.0), rate.streams, bandwidth // 20)
    found = list(packets_in(air.recording_of(octets, Layout("cf32_le", 1e6 * bandwidth, rate.streams))))
    assert [packet.left_out for packet in found] == [None] * 4
    error = reference = 0.0
    for frame, packet_found in zip(frames, found):
        (made,) = capture([packet_found.frame]).frames
        symbols, carriers = (part.reshape(-1) for part in np.indices(frame.points.shape[:2]))
        data = ~rate.is_pilot[carriers]
        rest = residuals(made, symbols[data], carriers[data], frame.points[symbols[data], carriers[data]])
        error += float(np.sum(np.abs(rest) ** 2))
        diagonal = np.einsum("cii->ci", made.triangles[~rate.is_pilot]).real
        reference += float(np.sum(diagonal**2)) * rate.power * len(frame.points)
    on_a_subcarrier = snr + 10 * np.log10(64 * (bandwidth // 20) / rate.subcarriers)
    assert 0 < 10 * np.log10(error / reference) + on_a_subcarrier < 2


def test_pilots_keep_what_is_left_of_them():
    """Behind the channel a pilot's residual is the noise of its subcarrier, and its point the one of this project."""
    rate = Rate(20, 9)
    frame = random_symbols(rate, 400, np.random.default_rng(3))
    (found,) = packets_in(air.recording_of(air.recorded([frame], Scene(snr=30.0), 2), Layout("cf32_le", 20e6, 2)))
    received, channel = np.asarray(found.frame.received), np.asarray(found.frame.channel)
    pilots = rate.is_pilot
    rest = received[:, pilots] - np.einsum("pas,nps->npa", channel[pilots], rate.pilot_signs(len(received)))
    assert np.mean(np.abs(rest) ** 2) == pytest.approx(1, rel=0.5)  # the noise, which is scaled to 1
    same = [(bandwidth, streams) for bandwidth in (20, 40) for streams in (1, 2, 3, 4)
            if (standard.pilots(Rate(bandwidth, 8 * streams - 8), 200) == Rate(bandwidth, 8 * streams - 8).pilot_signs(200)).all()]
    assert same == [(20, 1), (20, 4)]  # as docs/RECORDINGS.md says


@pytest.mark.parametrize("guard, first, last", [(16, -3.0, 2.0), (16, -12.3, -2.3), (8, 0.4, 8.4), (8, -7.9, 0.1), (8, -2.0, -2.0)])
def test_windows_have_the_channel_in_the_middle_of_their_guard(guard, first, last):
    """Taps one sample apart: symbols in front of and behind a window begin at its edges, which lie between samples."""
    random = np.random.default_rng(1)
    numbers, early = Rate(20, 0).frequencies, -5
    delays = np.arange(first, last + 1)
    taps = random.standard_normal((20, delays.size)) + 1j * random.standard_normal((20, delays.size))
    channel = taps @ np.exp(-2j * np.pi / 64 * np.outer(delays - early, numbers))
    noise = 1e-3 * np.mean(np.abs(channel) ** 2)
    channel += np.sqrt(noise / 2) * (random.standard_normal(channel.shape) + 1j * random.standard_normal(channel.shape))
    window = track.window_of(channel, numbers, noise, guard, 1, early)
    room = first + guard - last
    assert last - guard <= window.begin < first + 1  # nothing of another symbol is in it
    assert window.begin + window.rest == pytest.approx(first - room / 2 + 0.5, abs=0.15 if room < 1 else 1)
    assert window.room == pytest.approx(room, abs=0.3 if room < 1 else 2)


@pytest.mark.parametrize("bandwidth", [20, 40])
def test_a_channel_as_long_as_the_short_guard_interval(bandwidth):
    """At 400 ns there is one place only for every window, and nothing is left of what was sent but the noise."""
    rate = Rate(bandwidth, 31)
    random = np.random.default_rng(4)
    frames = [random_symbols(rate, 700, random) for _ in range(10)]
    octets = air.recorded(frames, Scene(spread=400.0, offset=40.0, short_guard=True, seed=4), 5, bandwidth // 20)
    for found, frame in zip(packets_in(air.recording_of(octets, Layout("cf32_le", 1e6 * bandwidth, 5))), frames):
        sent = frame.points * rate.normalising_factor
        sent[:, rate.is_pilot] = rate.pilot_signs(len(sent))
        left = np.asarray(found.frame.received) - np.einsum("kas,nks->nka", found.frame.channel, sent)
        assert 0.9 < np.mean(np.abs(left) ** 2) < 2.2  # the noise is scaled to 1, and as much of it may be in the channel


# packets that aren't in a capture

def test_why_a_packet_is_left_out():
    plain = HtSignal(3, False, 30)
    packets = [air.packet_with(plain), air.packet_with(HtSignal(3, False, 30, ldpc=True)), air.packet_with(HtSignal(3, False, 30, stbc=2)),
               air.packet_with(HtSignal(3, False, 30, extension=1)), air.packet_with(HtSignal(40, False, 30)),
               air.packet_with(HtSignal(32, True, 30)), air.packet_with(HtSignal(100, False, 30)), air.packet_with(HtSignal(3, False, 0)),
               air.packet_with(HtSignal(3, True, 30)), air.packet_with(HtSignal(11, False, 30)), air.packet_with(HtSignal(3, False, 3000)),
               air.packet_with(air.SpoiledSignal(3, False, 30)), air.greenfield(HtSignal(3, False, 30, ldpc=True)),
               air.clause_18(LegacySignal(24, 40)),
               air.clause_18(LegacySignal(6, 9)), air.clause_18(LegacySignal(6, 9), vht=True), air.packet_with(plain)]
    with air.heard(packets) as recording, Spool() as spool:
        lines = list(spooled(recording, spool))
    assert [line.left_out for line in lines] == [
        None, "LDPC", "reserved STBC", "extension streams", "unequal modulation", "MCS 32", "reserved MCS", "no data", "40 MHz",
        "fewer antennas than streams", "longer than L-SIG says", "bad HT-SIG CRC", "LDPC", "clause 18", "clause 18", "VHT", None]
    assert [line.frame for line in lines if line.frame is not None] == [0, 1]
    with air.heard(packets) as recording, Spool(most=1) as spool:
        assert list(spooled(recording, spool))[-1].left_out == FULL and spool.frames == 1
    assert refusal(HtSignal(15, True, 10), 2, 2) is None


# spoiled recordings

def said_of(octets: bytes, channels: int = 1, rate: float = 20e6, datatype: str = "cf32_le"):
    """What became of the packets of a recording."""
    with air.recording_of(octets, Layout(datatype, rate, channels)) as recording, Spool() as spool:
        return [line.left_out for line in spooled(recording, spool)]


def test_a_recording_that_is_cut_anywhere():
    frame = random_symbols(Rate(20, 3), 40, np.random.default_rng(1))
    octets = air.recorded([frame] * 2, Scene(), 1)
    first = air.recording_of(octets, Layout("cf32_le", 20e6))
    begins = [packet.sample for packet in packets_in(first)]
    end = next(packets_in(first)).end
    for cut in [*range(1, end + 40, 37), end - 20, end, len(octets) // 8 - 500]:
        fates = said_of(octets[: 8 * cut - 3])
        assert len(fates) <= 2 and set(fates) <= {None, "cut off"}
        assert fates.count(None) == (0 if cut < end - 20 else 1 if cut > end else fates.count(None))
        assert len(fates) == 0 if cut < begins[0] + 100 else True


@pytest.mark.parametrize("kind", ["noise", "zeros", "level", "tone", "period", "burst", "octets", "short"])
def test_nothing_is_invented(kind):
    random = np.random.default_rng(5)
    count = np.arange(60000)
    noise = random.standard_normal(count.size) + 1j * random.standard_normal(count.size)
    burst = np.tile(random.standard_normal(16) + 1j * random.standard_normal(16), count.size // 16) * ((count > 5000) & (count < 5500))
    samples = {"noise": noise, "zeros": 0 * count, "burst": 10 * burst + 0.01 * noise,
               "level": 0.3 + 0.1j + 0 * count, "tone": np.exp(0.1j * count), "period": np.exp(2j * np.pi * count / 16),
               "short": np.ones(3)}.get(kind)
    octets = random.bytes(400000) if kind == "octets" else air.octets_in(np.asarray(samples, complex)[None])
    for datatype in ("cf32_le", "ci16_le"):
        assert said_of(octets, datatype=datatype) == [] and said_of(octets, rate=40e6, datatype=datatype) == []


def test_clipped_scaled_and_damaged_recordings():
    frame = random_symbols(Rate(20, 1), 30, np.random.default_rng(1))
    octets = air.recorded([frame], Scene(), 1)
    samples = air.samples_in(octets, 1)
    for scale in (1e-30, 1e12):
        assert said_of(air.octets_in(samples * scale)) == [None]
    assert said_of(air.octets_in(samples + 0.05)) == [None]  # a level beside the signal
    clipped = np.clip(samples.real, -0.08, 0.08) + 1j * np.clip(samples.imag, -0.08, 0.08)
    (found,) = packets_in(air.recording_of(air.octets_in(clipped), Layout("cf32_le", 20e6)))
    assert found.left_out is None and found.clipped > 0.05
    damaged = samples.copy()
    damaged[0, 1400:1410] = np.nan + 1j * np.inf
    assert said_of(air.octets_in(damaged)) == ["samples that aren't finite"]
    assert said_of(octets, rate=40e6) == [] and said_of(octets, channels=3) in ([], ["bad L-SIG"])
    with pytest.raises(InputError, match="it has 25000000 samples a second, and 20 or 40 million are asked for"):
        said_of(octets, rate=25e6)


def test_a_recording_is_read_in_pieces(monkeypatch):
    """Whatever its length, no more is read at once than a piece, or a packet."""
    frame = random_symbols(Rate(20, 1), 30, np.random.default_rng(1))
    one = air.recorded([frame], Scene(gap=10000.0), 1)
    recording = air.recording_of(one * 3, Layout("cf32_le", 20e6))
    asked = []
    whole = type(recording).read
    monkeypatch.setattr(type(recording), "read", lambda self, first, count: asked.append(count) or whole(self, first, count))
    assert [packet.left_out for packet in packets_in(recording)] == [None] * 3
    assert recording.length > 4 * READ and max(asked) <= READ


# files and commands

@pytest.fixture
def here(tmp_path, monkeypatch, capsysbinary):
    """The command mizgaure in this process, in a folder of its own: words to its status and what it wrote."""
    monkeypatch.chdir(tmp_path)
    handler = signal.getsignal(signal.SIGTERM)

    def run(*words: object) -> subprocess.CompletedProcess:
        capsysbinary.readouterr()
        try:
            status = cli.main([str(word) for word in words])
        except SystemExit as end:
            status = end.code
        return subprocess.CompletedProcess(words, status, *capsysbinary.readouterr())

    yield run
    signal.signal(signal.SIGTERM, handler)


@pytest.fixture
def sent(tmp_path, radio, monkeypatch):
    """Three frames whose octets are MPDUs, and their symbols as a file."""
    monkeypatch.setenv("MIZGAURE_RADIO", radio.path)
    random = np.random.default_rng(8)
    header = bytes.fromhex("8802" "3000" "0102030405060a0b0c0d0e0f020202020202" "1000" "0000")
    octets = [with_fcs(header + random.bytes(count)) for count in (30, 300, 5)]
    frames = [SentFrame(Rate(20, mcs), row, 33) for mcs, row in zip((2, 15, 7), octets)]
    write_httx(tmp_path / "sent.httx", frames)
    (tmp_path / "sent.htsy").write_bytes(radio.tx((tmp_path / "sent.httx").read_bytes()))
    return octets


LINE = (r"packet (\d) at sample \d+, 0\.\d{6} s: 20 MHz, MCS (2|7|15) \([^)]*\), \d+ octets, (long|short) guard interval, "
        r"offset [+-]\d+\.\d\d kHz, noise -\d\d\.\d dB")


def test_from_symbols_to_packets(here, command, sent, tmp_path):
    made = here("waveform", "sent.htsy", "-o", "air", "--guard", "short", "--spread", 50, "--antennas", 3, "--offset", -17)
    assert made.returncode == 0, made.stderr
    assert re.fullmatch(rb"3 packets, 3 channels of \d+ samples at 20 million a second, cf32_le\n", made.stderr)
    done = here("record", "air.sigmf-meta", "-o", "air.htcp", "--csv", "air.csv", "--json", "air.jsonl")
    lines = done.stdout.decode().splitlines()
    assert done.returncode == 0 and done.stderr == b"" and lines[3] == "3 packets: 3 in the capture"
    assert all(re.fullmatch(LINE + rf"; frame {n}", line) for n, line in enumerate(lines[:3]))
    assert [json.loads(line)["mcs"] for line in (tmp_path / "air.jsonl").read_text().splitlines()] == [2, 15, 7]
    assert (tmp_path / "air.csv").read_text().count("\n") == 4 and len(list(read_htcp(tmp_path / "air.htcp"))) == 3
    measured = here("measure", "air.htcp", "--sent", "sent.httx").stdout
    assert b"frame error rate 0 of 3" in measured
    done = command("receive", "air", "-o", "air.pcap")
    lines = done.stdout.decode().splitlines()
    assert done.returncode == 0 and lines[3] == "3 packets: 3 received, 3 of 3 MPDUs with a good FCS"
    assert all(re.fullmatch(LINE + r"; EVM \d\.\d\d % \(-\d\d\.\d dB\); MPDU of \d+ octets, FCS good, .*", line) for line in lines[:3])
    packets = list(read_pcap(tmp_path / "air.pcap"))
    assert [packet.octets for packet in packets] == sent and [packet.radiotap.mcs for packet in packets] == [2, 15, 7]
    assert all(packet.radiotap.short_guard and packet.radiotap.frequency == 5180 and not packet.radiotap.bad_fcs for packet in packets)
    assert here("receive", "air").stdout == done.stdout


def test_wireshark_reads_what_was_received(here, sent, tshark, tmp_path):
    assert here("waveform", "sent.htsy", "-o", "air", "--guard", "short", "--spread", 50, "--antennas", 3, "--offset", -17).returncode == 0
    assert here("receive", "air", "-o", "air.pcap").returncode == 0
    fields = [word for name in ("wlan.fc.type_subtype", "wlan.fcs.status", "radiotap.mcs.index") for word in ("-e", name)]
    rows = [row.split("\t") for row in tshark("-r", tmp_path / "air.pcap", "-o", "wlan.check_checksum:TRUE", "-T", "fields", *fields)]
    assert [row[2] for row in rows] == ["2", "15", "7"] and all(int(row[0], 0) == 0x28 for row in rows)
    assert all(row[1] in ("1", "Good") for row in rows)


def test_raw_and_whole_numbers(here, sent, tmp_path):
    for words, ending in ((["--datatype", "ci16_le"], ""), (["--datatype", "ci16_le", "--raw"], ".raw"), (["--raw"], ".cf32")):
        assert here("waveform", "sent.htsy", "-o", f"x{ending}", "--snr", "none", *words, "--force").returncode == 0
    same = [here("record", "x", "-o", "a.htcp"), here("record", "x.raw", "--datatype", "ci16_le", "--channels", 2, "-o", "b.htcp"),
            here("record", "x.cf32", "--datatype", "cf32_le", "--channels", 2, "--sample-rate", 20e6, "-o", "-")]
    assert [done.returncode for done in same] == [0, 0, 0], [done.stderr for done in same]
    assert (tmp_path / "a.htcp").read_bytes() == (tmp_path / "b.htcp").read_bytes()
    assert same[2].stdout.startswith(b"HTCP\1\0\3") and same[2].stderr.endswith(b"3 packets: 3 in the capture\n")
    with open_recording(str(tmp_path / "x.sigmf-data")) as recording:
        assert recording.layout == Layout("ci16_le", 20e6, 2) and recording.frequency == 5.18e9
    meta = json.loads((tmp_path / "x.sigmf-meta").read_text())
    assert [note["core:label"] for note in meta["annotations"]] == [f"MCS {mcs}, 20 MHz, {length} octets" for mcs, length in
                                                                     zip((2, 15, 7), map(len, sent))]


@pytest.mark.parametrize("bits, datatype", [(6, "cf32_le"), (8, "ci16_le"), (12, "ci16_le")])
def test_the_bits_of_a_converter(here, sent, tmp_path, bits, datatype):
    """Parts are whole steps of 2 / 2^N, off by at most half a step, with the power of steps that are taken at random, 1/12 of their square."""
    done = here("waveform", "sent.htsy", "-o", "few.raw", "--raw", "--datatype", datatype, "--bits", bits, "--snr", 20)
    assert done.returncode == 0 and b" of %d bits" % bits in done.stderr and b"clipped" not in done.stderr
    assert here("waveform", "sent.htsy", "-o", "all.raw", "--raw", "--snr", 20).returncode == 0
    step = 2.0 ** (1 - bits)
    few = np.fromfile(tmp_path / "few.raw", "<f4" if datatype == "cf32_le" else "<i2") / (1 if datatype == "cf32_le" else 32768)
    error = few - np.fromfile(tmp_path / "all.raw", "<f4")
    busy = np.abs(np.fromfile(tmp_path / "all.raw", "<f4")) > step
    assert (few / step == np.rint(few / step)).all() and np.abs(error).max() <= step / 2 + 1e-6
    assert np.mean(error[busy] ** 2) == pytest.approx(step**2 / 12, rel=0.1)


def test_a_converter_with_few_bits_is_received(here, command, sent, tmp_path):
    """At 8 bits and a tenth of full scale the steps are 30 dB below the packets: 12 * (128 * 0.1)^2 / 2; and what has no such bits is refused."""
    assert here("waveform", "sent.htsy", "-o", "air", "--bits", 8, "--snr", "none", "--offset", 12).returncode == 0
    lines = command("receive", "air").stdout.decode().splitlines()
    assert lines[-1] == "3 packets: 3 received, 3 of 3 MPDUs with a good FCS"
    assert [float(re.search(r"noise (-[\d.]+) dB", line)[1]) for line in lines[:3]] == pytest.approx([-30.5] * 3, abs=2.5)
    for bits in ("1", "17", "x"):
        done = here("waveform", "sent.htsy", "-o", "no", "--bits", bits)
        assert done.returncode == 2 and b"--bits" in done.stderr and not (tmp_path / "no.sigmf-meta").exists()


def bad_recordings(folder):
    """Names of recordings, what is in their two files, and what is said."""
    frame = random_symbols(Rate(20, 3), 40, np.random.default_rng(1))
    octets = air.recorded([frame], Scene(), 1)
    said = {"core:datatype": "cf32_le", "core:sample_rate": 20e6, "core:num_channels": 1, "core:version": "1.0.0"}
    yield "empty", b"", said, "{}.sigmf-data is empty"
    yield "few", b"abc", said, "{}.sigmf-data has 3 octets, and a sample takes 8"
    yield "slow", octets, {**said, "core:sample_rate": 19e6}, "{}.sigmf-data has 19000000 samples a second, and at least 20 million are asked for"
    yield "type", octets, {**said, "core:datatype": "ri8"}, "{}.sigmf-meta: the samples are ri8, and only " \
        "cf32_le, cf32_be, cf64_le, cf64_be, ci32_le, ci32_be, ci16_le, ci16_be, ci8, cu8 are known"
    yield "rate", octets, {**said, "core:sample_rate": None}, "{}.sigmf-meta doesn't say how many samples there are in a second (core:sample_rate)"
    yield "channels", octets, {**said, "core:num_channels": 0}, "{}.sigmf-meta: a recording has 1 to 16 channels, and not 0"
    yield "negative", octets, {**said, "core:sample_rate": -1}, "{}.sigmf-meta: -1 samples a second mean nothing"
    yield "text", octets, None, "{}.sigmf-meta isn't JSON"
    yield "list", octets, [], "{}.sigmf-meta has no object global, which the metadata of SigMF have"


def test_bad_recordings_get_one_sentence(here, radio, monkeypatch, tmp_path):
    monkeypatch.setenv("MIZGAURE_RADIO", radio.path)
    cases = list(bad_recordings(tmp_path))
    for name, octets, said, _ in cases:
        (tmp_path / f"{name}.sigmf-data").write_bytes(octets)
        text = "{" if said is None else json.dumps(said if said == [] else {"global": said, "captures": [], "annotations": []})
        (tmp_path / f"{name}.sigmf-meta").write_text(text)
    before = sorted(tmp_path.iterdir())
    cases += [("missing", b"", None, "{}.sigmf-meta can't be read: No such file or directory")]
    for number, (name, _, _, said) in enumerate(cases):
        done = here("record" if number % 2 else "receive", name, "-o", "out")
        assert (done.returncode, done.stderr.decode()) == (2, f"mizgaure: {said.format(name)}\n")
    done = here("record", "list.sigmf-data", "--sample-rate", "20e6", "-o", "out")
    assert done.stderr == b"mizgaure: --sample-rate and --channels are said of a file of samples, whose --datatype is said, too\n"
    assert sorted(tmp_path.iterdir()) == before


def test_bad_waveforms_get_one_sentence(here, tmp_path):
    write_htsy(tmp_path / "long.htsy", [random_symbols(Rate(20, 0), 5000, np.random.default_rng(1))])
    write_htsy(tmp_path / "good.htsy", frames_of(20, [0]))
    write_htsy(tmp_path / "none.htsy", [])
    before = sorted(tmp_path.iterdir())
    cases = [(["long.htsy"], "a packet of 20 MHz, MCS 0 (BPSK 1/2, 1 stream) with 5000 octets lasts 6196 microseconds, and L-SIG can announce 5484"),
             (["none.htsy"], "none.htsy: there is no frame in it"), (["missing"], "missing can't be read: No such file or directory"),
             (["good.htsy", "--offset", "300"], "the offset is 300 ppm, and has to be -200 to 200"),
             (["good.htsy", "--spread", "3000"], "the delay spread is 3000 ns, and has to be 0 to 2000"),
             (["good.htsy", "--antennas", "17"], "a recording has up to 16 antennas, and not 17")]
    for words, said in cases:
        done = here("waveform", *words, "-o", "out")
        assert (done.returncode, done.stderr.decode()) == (2, f"mizgaure: {said}\n")
    done = here("waveform", "good.htsy", "-o", "-")
    said = b"mizgaure: a SigMF recording is two files, and so isn't written to standard output; --raw writes the samples alone\n"
    assert (done.returncode, done.stderr) == (2, said)
    done = here("receive", "-")
    assert done.stderr == b"mizgaure: samples in standard input are raw, and --datatype says what they are\n"
    assert sorted(tmp_path.iterdir()) == before


@pytest.mark.parametrize("kind", ["spectrum", "preamble", "tracking"])
def test_pictures_of_recordings(here, tmp_path, kind):
    pytest.importorskip("matplotlib")
    write_htsy(tmp_path / "sent.htsy", frames_of(40, [3, 12]))
    assert here("waveform", "sent.htsy", "-o", "air").returncode == 0
    frame = [] if kind == "spectrum" else ["--frame", 1]
    done = here("picture", kind, "air", "it.png", *frame)
    assert done.returncode == 0 and (tmp_path / "it.png").stat().st_size > 10000, done.stderr
    assert here("waveform", "sent.htsy", "--raw", "-o", "air.raw").returncode == 0
    done = here("picture", kind, "air.raw", "raw.png", *frame, "--datatype", "cf32_le", "--sample-rate", "40e6", "--channels", 2)
    assert done.returncode == 0 and (tmp_path / "raw.png").stat().st_size > 10000, done.stderr
    if kind != "spectrum":
        assert here("picture", kind, "air", "no.png", "--frame", 2).stderr == \
            b"mizgaure: air.sigmf-data has 2 packets for a capture, and no packet 2 of them\n"


def test_the_table_of_rates():
    """Of the page: one packet in ten may be wrong at the standard's least sensitivity, and the loss is at most 2 dB."""
    row = r"^\| (20|40) MHz \| ([^|]+) \| ([\d.]+) \| (\d+) % \|((?: [\d.]+, [\d.]+ \|){4})$"
    rows = re.findall(row, (TOP / "docs" / "RECORDINGS.md").read_text(), re.MULTILINE)
    kinds = [Rate(20, scheme) for scheme in range(8)] + [Rate(40, 7)]
    assert [(int(bandwidth), kind) for bandwidth, kind, *_ in rows] == [(rate.bandwidth, f"{rate.modulation} {rate.coding_rate}") for rate in kinds]
    for *_, least, wrong, cells in rows:
        assert int(wrong) <= 10
        for recorded, loss in re.findall(r"([\d.]+), ([\d.]+)", cells):
            assert float(recorded) < float(least) and float(loss) <= 2


def test_the_page_of_recordings():
    """It has each reason for which a packet is left out, its pictures, and a loss of at most 2 dB."""
    page = (TOP / "docs" / "RECORDINGS.md").read_text()
    for module in (headers, receive, record):
        for name, reason in vars(module).items():
            if name.isupper() and isinstance(reason, str):
                assert f"`{reason}`" in page, name
    for name in re.findall(r"\]\((pictures/[a-z]+\.png)\)", page):
        assert (TOP / "docs" / name).read_bytes().startswith(b"\x89PNG")
