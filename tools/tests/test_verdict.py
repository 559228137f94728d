"""The standard's transmitter tests: a fault just beyond each limit fails, and one just within passes."""

from __future__ import annotations

import json
import re
from dataclasses import replace

import numpy as np
import pytest
from air import octets_in, recorded, recording_of
from conftest import TOP
from scipy.signal import resample_poly

from mizgaure import Rate, SymbolsFrame, write_htsy
from mizgaure.air import limits
from mizgaure.air.recording import Layout
from mizgaure.air.resampled import Resampled, fitted
from mizgaure.air.simulate import LEVEL, Scene
from mizgaure.air.transmitter import Finding, Measured, Spectrum, findings, interval_of, mask_curve, spectrum_of, summed
from mizgaure.air.waveform import Clock, joined, pieces_of
from mizgaure.commands.verdict import measured

CARRIER = 5.18e9
ENOUGH = 21


def frames_of(rate, count, length=500, seed=1):
    """Frames of random points, of 16 symbols at MCS 7."""
    random = np.random.default_rng(seed)
    made = []
    for _ in range(count):
        points = rate.points[random.integers(0, rate.points.size, (rate.symbols(length), rate.subcarriers, rate.streams))]
        points[:, rate.is_pilot] = rate.pilot_signs(len(points))
        made.append(SymbolsFrame(rate, length, points))
    return made


def faulty(rate=Rate(20, 7), count=ENOUGH, leakage=None, carrier=0.0, clock=0.0, length=500, over=None, snr=45.0):
    """A recording of packets of a transmitter with a fault, wired to as many antennas as streams, by no scene of `waveform`.

    The leakage is in dB of the overall power of each chain, the carrier's offset and the clock's in parts per million.
    """
    random, over = np.random.default_rng(7), over or rate.bandwidth // 20
    silence = np.zeros((rate.streams, 600 * over), complex)
    parts, at = [], 0
    for frame in frames_of(rate, count, length):
        parts.append(silence)
        at += silence.shape[1]
        samples = joined(pieces_of(frame), at * (1 + clock * 1e-6), Clock(over, clock * 1e-6))[1] * np.sqrt(rate.streams)
        if leakage is not None:
            part = 10 ** (leakage / 10)
            samples = samples + np.sqrt(part / (1 - part))
        parts.append(samples)
        at += samples.shape[1]
    whole = np.concatenate([*parts, silence], axis=1) * LEVEL
    whole = whole * np.exp(2j * np.pi * carrier * 1e-6 * CARRIER / (20e6 * over) * np.arange(whole.shape[1]))
    noise = random.standard_normal((2, *whole.shape)) * LEVEL * 10 ** (-snr / 20) / np.sqrt(2)
    return recording_of(octets_in(whole + noise[0] + 1j * noise[1]), Layout("cf32_le", 20e6 * over, rate.streams), CARRIER)


def found(recording, test, reference=0.05, frequency=CARRIER):
    """The first outcome of a test."""
    packets = list(measured(recording, shown=False))
    return next(each for each in findings(packets, frequency, reference, recording.layout.rate) if each.limit.test == test)


@pytest.mark.parametrize("bandwidth, number, gain, deviation, verdict", [
    (20, 10, 4.4, 4.16, "fail"), (20, 10, 4.0, 3.8, "pass"), (20, -5, -4.2, -4.11, "fail"), (20, -5, -3.9, -3.82, "pass"),
    (20, 17, 4.2, 4.2, "fail"), (20, 17, 3.8, 3.8, "pass"), (20, -28, -6.2, -6.2, "fail"), (20, -28, -5.8, -5.8, "pass"),
    (40, 42, -4.2, -4.16, "fail"), (40, 43, -5.8, -5.8, "pass"), (40, -58, -6.2, -6.2, "fail")])
def test_flatness(bandwidth, number, gain, deviation, verdict):
    """One subcarrier is stronger or weaker than the others; an inner one moves the mean of the inner ones, too."""
    gains = tuple((n, gain if n == number else 0.0) for n in (number - 1, number, number + 1) if abs(n) <= 58)
    outcome = found(of_scene(Scene(gains=gains), Rate(bandwidth, 0), bandwidth // 20, length=30), "spectral flatness")
    assert outcome.value == pytest.approx(deviation, abs=0.1) and outcome.where == f"subcarrier {number} of antenna 0"
    assert outcome.verdict == verdict and outcome.limit.clause == "20.3.20.2"


@pytest.mark.parametrize("rate", [Rate(20, 0), Rate(40, 8)])
def test_flatness_of_a_slope(rate):
    """Over all subcarriers so many dB: the upper edge is above the inner mean, which the stronger ones among the inner ones rule."""
    edge, inner = (28, 16) if rate.bandwidth == 20 else (58, 42)
    numbers = rate.frequencies[np.abs(rate.frequencies) <= inner]
    for slope, verdict in ((8.2, "pass"), (9.2, "fail")):
        mean = 10 * np.log10(np.mean(10 ** (slope * numbers / (20 * edge))))
        outcome = found(of_scene(Scene(gains=((-edge, -slope / 2), (edge, slope / 2))), rate, rate.bandwidth // 20, length=60), "spectral flatness")
        assert outcome.value == pytest.approx(slope / 2 - mean, abs=0.05) and outcome.where.startswith(f"subcarrier {edge} of") and outcome.verdict == verdict


@pytest.mark.parametrize("bandwidth, leakage, carrier, verdict", [
    (20, -14.7, 0, "fail"), (20, -15.3, 0, "pass"), (20, -14.7, 3, "fail"), (20, -15.3, -3, "pass"), (40, -19.7, 0, "fail"), (40, -20.3, 0, "pass")])
def test_leakage(bandwidth, leakage, carrier, verdict):
    outcome = found(faulty(Rate(bandwidth, 0), 6, leakage=leakage, carrier=carrier, length=30), "centre frequency leakage")
    assert outcome.value == pytest.approx(leakage, abs=0.1) and outcome.verdict == verdict


@pytest.mark.parametrize("test, fault", [("centre frequency", "carrier"), ("symbol clock", "clock")])
@pytest.mark.parametrize("frequency, limit", [(CARRIER, 20), (2.412e9, 25)])
def test_tolerances(test, fault, frequency, limit):
    for sign in (-1, 1):
        for value, verdict in ((limit + 0.3, "fail"), (limit - 0.3, "pass")):
            recording = faulty(count=8, **{fault: sign * value * (frequency / CARRIER if fault == "carrier" else 1)})
            outcome = found(recording, test, frequency=frequency)
            assert outcome.value == pytest.approx(sign * value, abs=0.1) and outcome.verdict == verdict
            assert found(recording, test, 1.0, frequency).outcome == "no verdict: the interval has the limit in it"
    assert found(recording, test, None, frequency).outcome == "no verdict: by how much the recorder's own clock may be wrong isn't said (--reference-ppm)"
    assert found(recording, test, 0.1, None).outcome == "no verdict: the carrier's frequency isn't known (--frequency)"


@pytest.mark.parametrize("mcs, limit", enumerate((-5, -10, -13, -16, -19, -22, -25, -28)))
def test_constellation_error(mcs, limit):
    """At each rate of a stream, at 20 and at 40 MHz in turn, the latter with two streams."""
    rate = Rate(40, 8 + mcs) if mcs % 2 else Rate(20, mcs)
    length = 15 * rate.data_bits // 8  # of 16 symbols
    for error, verdict in ((limit + 0.3, "fail"), (limit - 0.3, "pass")):
        outcome = found(of_scene(Scene(error=error), rate, rate.bandwidth // 20, 20, length), "constellation error")
        assert outcome.value == pytest.approx(error, abs=0.15) and outcome.verdict == verdict and outcome.limit.frames == 20
    assert found(of_scene(Scene(error=limit - 3.0), rate, rate.bandwidth // 20, 3, length), "constellation error").outcome == "no verdict: 3 of 20 frames"


def test_constellation_error_over_data_pilots_and_all():
    """By formula 20-89 all subcarriers are summed over; pilots without an error make that less."""
    recording = faulty(count=2)
    packet = next(measured(recording, shown=False))
    pilot = packet.rate.is_pilot
    packet.errors[:] = np.where(pilot, 0.01, 0.04)[:, None]
    assert packet.error("data") == pytest.approx(0.2) and packet.error("pilot") == pytest.approx(0.1)
    assert packet.error("all") == pytest.approx(np.sqrt((52 * 0.04 + 4 * 0.01) / 56))


def shaped(offsets_to_db, rate, seed=1, count=1 << 20):
    """Noise whose density over frequency is what a function says, in dB."""
    random = np.random.default_rng(seed)
    levels = 10 ** (offsets_to_db(np.fft.fftfreq(count, 1 / rate)) / 20)
    return np.fft.ifft(levels * np.exp(2j * np.pi * random.random(count)))[None]


def masked(samples, rate, bandwidth, silence=None, frequency=CARRIER):
    """The outcome of the mask alone, for a signal in the middle of its band."""
    packet = replace(blank(Rate(bandwidth, 0), len(samples)), spectrum=spectrum_of(samples, rate),
                     silence=spectrum_of(np.zeros((len(samples), 0)) if silence is None else silence, rate))
    return next(each for each in findings([packet] * 2, frequency, 0.1, rate) if each.limit.test == "spectral mask")


def blank(rate, antennas=1):
    """A packet without any fault or spectrum."""
    nothing = spectrum_of(np.zeros((antennas, 0)), 20e6)
    return Measured(rate, 16, 0.0, 0.0, 0.0, np.zeros(antennas), np.ones((antennas, rate.subcarriers)), np.zeros((16, rate.subcarriers, 1)), nothing, nothing)


@pytest.mark.parametrize("bandwidth, rate", [(20, 61.44e6), (40, 122.88e6)])
@pytest.mark.parametrize("frequency", [CARRIER, 2.412e9])
def test_the_mask(bandwidth, rate, frequency):
    """A hump beyond the mask by 1 dB fails wherever it is, and one 1 dB below it passes; at its far end the mask is that of the band."""
    scale = 1 if bandwidth == 20 else 2
    for place in (10.0, -15.0, 29.9) if bandwidth == 20 else (-20.0, 59.8):
        for more, verdict in ((1.0, "fail"), (-1.0, "pass")):
            def level(offsets, place=place, more=more):
                hump = np.abs(offsets - place * 1e6) < 3e5
                mask = limits.mask_at(offsets, bandwidth, limits.band_of(frequency))
                return np.where(np.abs(offsets) < 8.9e6 * scale, 0, np.where(hump, mask + more, mask - 6))
            outcome = masked(shaped(level, rate, count=1 << 19), rate, bandwidth, frequency=frequency)
            assert (outcome.verdict, abs(outcome.value + more) < 0.8) == (verdict, True), (place, outcome)


@pytest.mark.parametrize("bandwidth, rate", [(20, 61.44e6), (40, 122.88e6)])
def test_the_floor_of_the_mask_is_lower_at_2_4_ghz(bandwidth, rate):
    """What is 42 dB down from the place on at which the mask is level passes in the 5 GHz band alone, where that is -40 and not -45 dBr."""
    reach = 30e6 if bandwidth == 20 else 60e6
    level = lambda offsets: np.where(np.abs(offsets) < reach * 0.29, 0.0, np.where(np.abs(offsets) > reach * 0.98, -42.0, -55.0))  # noqa: E731
    samples = shaped(level, rate, count=1 << 19)
    for frequency, margin, verdict in ((CARRIER, 2, "pass"), (2.412e9, -3, "fail"), (2.484e9, -3, "fail"), (5.825e9, 2, "pass"), (None, -3, "fail")):
        outcome = masked(samples, rate, bandwidth, frequency=frequency)
        assert outcome.verdict == verdict and outcome.value == pytest.approx(margin, abs=0.8)


def of_scene(scene, rate=Rate(20, 7), over=1, count=6, length=500):
    """A recording of packets in a scene of `waveform`."""
    octets = recorded(frames_of(rate, count, length), replace(scene, snr=scene.snr and 60.0), rate.streams, over)
    return fitted(recording_of(octets, Layout("cf32_le", 20e6 * over, rate.streams), CARRIER))


def unfiltered(offsets, bandwidth, rate, weaker):
    """The density in dBr of symbols of 4 microseconds without a window, whose part beyond the channel is so much weaker.

    Each subcarrier has the spectrum of a rectangle, sampled; all have the same power and nothing to do with one another.
    """
    numbers = Rate(bandwidth, 0).frequencies * 312.5e3
    turns = np.pi * (offsets[:, None] - numbers) / rate
    length = 4e-6 * rate
    density = np.sum((np.sin(length * turns) / np.sin(turns)) ** 2, axis=1) / length**2
    corner = {20: (9e6, 11e6), 40: (19e6, 21e6)}[bandwidth]
    return 10 * np.log10(density) - np.interp(np.abs(offsets), corner, (0, weaker))


@pytest.mark.parametrize("bandwidth, over", [(20, 4), (40, 10)])
def test_filters_of_waveform(bandwidth, over):
    """Without a filter the mask is broken, by as much as the spectrum of rectangles says; with one just too weak still, with one just strong enough not."""
    rate = 20e6 * over
    offsets = np.arange(11e6 if bandwidth == 20 else 21e6, 0.49 * rate, 1e5) + 1
    short = float(np.max(unfiltered(offsets, bandwidth, rate, 0) - limits.mask_at(offsets, bandwidth, "5 GHz")))
    assert short > 1
    for filter_, margin in ((None, -short), (short - 1.5, -1.5), (short + 1.5, 1.5)):
        packets = list(measured(of_scene(Scene(filter=filter_), Rate(bandwidth, 0), over, 4, 1500), shown=False))
        outcome = next(each for each in findings(packets, CARRIER, 0.1, rate) if each.limit.test == "spectral mask")
        assert outcome.value == pytest.approx(margin, abs=1.2) and outcome.verdict == ("pass" if margin > 0 else "fail"), (filter_, outcome)


@pytest.mark.parametrize("rate, over, subject, limit", [(Rate(20, 8), 1, "20 MHz", -15), (Rate(40, 0), 2, "40 MHz", -20),
                                                        (Rate(20, 0), 2, "20 MHz in one half of 40 MHz", -17)])
def test_leakage_of_waveform(rate, over, subject, limit):
    """It stands in the middle of the band, of both chains, also beside a packet in one half, whose own middle has none."""
    for leakage, verdict in ((limit + 0.3, "fail"), (limit - 0.3, "pass")):
        packets = list(measured(of_scene(Scene(leakage=leakage, offset=3.0), rate, over, length=60), shown=False))
        outcomes = [each for each in findings(packets, CARRIER, 0.1, 20e6 * over) if each.limit.test == "centre frequency leakage"]
        assert outcomes[-1].subject == subject and outcomes[-1].value == pytest.approx(leakage, abs=0.1) and outcomes[-1].verdict == verdict
        assert len(outcomes) == 1 if subject != "20 MHz in one half of 40 MHz" else outcomes[0].value < -40 and outcomes[0].verdict == "pass"


@pytest.mark.parametrize("rate", [Rate(20, 1), Rate(20, 9), Rate(40, 9)])
def test_packets_in_greenfield_format(rate):
    """They are measured as those in mixed format are: offset, clock, leakage, flatness and error are those that were put in."""
    edge = 28 if rate.bandwidth == 20 else 58
    leakage = -20 if rate.bandwidth == 20 else -25  # less than is taken for a level of the recorder
    scene = Scene(greenfield=True, offset=9.0, clock=-7.0, leakage=leakage, gains=((-edge, -2.0), (edge, 2.0)), error=-24.0)
    outcomes = {}
    for each in findings(list(measured(of_scene(scene, rate, rate.bandwidth // 20, 5), shown=False)), CARRIER, 0.1, rate.bandwidth * 1e6):
        outcomes.setdefault(each.limit.test, each)
    assert {each.frames for each in outcomes.values()} == {5}
    said = [outcomes[test].value for test in ("centre frequency", "symbol clock", "centre frequency leakage", "constellation error")]
    assert said == pytest.approx([9, -7, leakage, -24], abs=0.25)
    assert outcomes["spectral flatness"].where.startswith(f"subcarrier {edge} of")


def test_what_is_left_out_is_counted(here):
    """By its reason, where it has STBC as where it isn't received; what is measured is judged all the same."""
    write_htsy("sent.htsy", frames_of(Rate(20, 1), 3, 300))
    parts = []
    for words in (["--stbc", "1"], ["--greenfield", "--antennas", "2"], ["--antennas", "2"]):
        assert here("waveform", "sent.htsy", "-o", "part", "--force", "--raw", *words).returncode == 0
        parts.append(open("part", "rb").read())
    whole = b"".join(parts)
    open("all", "wb").write(whole[: len(whole) - 16 * 1000])  # the last packet is cut off
    done = here("verdict", "all", "--datatype", "cf32_le", "--channels", 2, "--frequency", "5.18e9", "--json", "it.jsonl", "--csv", "it.csv")
    lines = done.stdout.decode().splitlines()
    assert done.returncode == 0 and lines[0].endswith(": 5 packets at 5180 MHz, 20 million samples a second"), done
    assert lines[1] == "4 packets aren't measured: 1 cut off, 3 with STBC, whose points are known over two chains together alone"
    counts = json.loads(open("it.jsonl").read().splitlines()[-1])
    assert counts == {"counts": {"packets": 5, "unmeasured": {"cut off": 1, "with STBC, whose points are known over two chains together alone": 3}}}
    assert len(open("it.csv").read().splitlines()) == 1 + len(lines) - 2  # tests alone


def test_short_frames_are_named():
    """Frames of fewer than 16 symbols don't count for the constellation error, though they have an interval; one frame has none."""
    short = [found(of_scene(Scene(error=-20), Rate(20, 3), 1, count, 100), "constellation error") for count in (1, 2, 22)]
    assert [each.outcome for each in short] == [f"no verdict: 0 of 20 frames; {count} more {verb} fewer than 16 symbols"
                                                for count, verb in ((1, "has"), (2, "have"), (22, "have"))]
    assert [each.interval is None for each in short] == [True, False, False] and "(one frame gives no interval)" in str(short[0])
    assert "one frame" not in str(short[1]) + str(short[2]) and short[0].record()["low"] is None and short[1].record()["low"] is not None
    both = [packet for error, count, length in ((-20, 20, 200), (-5, 9, 100))
            for packet in measured(of_scene(Scene(error=error), Rate(20, 3), 1, count, length), shown=False)]
    outcome = next(each for each in findings(both, CARRIER, 0.1, 20e6) if each.limit.test == "constellation error")
    assert outcome.frames == 20 and outcome.verdict == "pass" and outcome.value == pytest.approx(-20, abs=0.3)  # the short ones with their errors aren't in it


def test_clocks_of_waveform():
    """The symbol clock is off by itself, and the carrier by itself."""
    for clock, offset, outcome in ((20.3, 0.0, ("pass", "fail")), (-19.7, 20.3, ("fail", "pass")), (None, 19.7, ("pass", "pass")),
                                   (0.0, -20.3, ("fail", "pass"))):
        recording = of_scene(Scene(clock=clock, offset=offset))
        carrier, symbols = (found(recording, test) for test in ("centre frequency", "symbol clock"))
        assert (carrier.value, symbols.value) == pytest.approx((offset, offset if clock is None else clock), abs=0.1)
        assert (carrier.verdict, symbols.verdict) == outcome


def test_the_mask_by_hand():
    """The numbers of the page at places between and at its corners."""
    at = lambda *megahertz, **words: limits.mask_at(np.array(megahertz) * 1e6, words.get("bandwidth", 20), words.get("band", "2.4 GHz")).tolist()  # noqa: E731
    assert at(0, 9, 10, 11, 15.5, 20, 25, 30, 40) == [0, 0, -10, -20, -24, -28, -36.5, -45, -45] and at(-25, -35) == [-36.5, -45]
    assert at(20, 25, 30, 50, band="5 GHz") == [-28, -34, -40, -40]
    assert at(19, 20, 21, 30.5, 40, 50, 60, bandwidth=40) == [0, -10, -20, -24, -28, -36.5, -45]
    assert at(40, 50, 60, 70, bandwidth=40, band="5 GHz") == [-28, -34, -40, -40]


def test_the_density_that_is_0_dbr():
    """In dB of full scale per Hz: noise of mean power -40 dB in 20 MHz, whose mean is as far below its largest density as below 0 dBr."""
    random = np.random.default_rng(1)
    samples = (random.standard_normal((1, 1 << 18)) + 1j * random.standard_normal((1, 1 << 18))) * 0.01 / np.sqrt(2)
    curve = mask_curve([replace(blank(Rate(20, 0)), spectrum=spectrum_of(samples, 20e6))], CARRIER, 20e6)
    assert 10 * np.log10(np.mean(10 ** (curve.level / 10))) + curve.top == pytest.approx(-40 - 10 * np.log10(20e6), abs=0.1)


def test_the_mask_where_it_can_not_be_seen():
    """Half the rate ends it, and so does the recorder's own noise; what is seen beyond the mask fails all the same."""
    flat = lambda offsets: np.where(np.abs(offsets) < 8.9e6, 0.0, -50.0)  # noqa: E731
    seen = masked(shaped(flat, 40e6), 40e6, 20)
    assert seen.outcome == "no verdict: the rate shows nothing beyond 19.8 MHz, and the mask goes on to 30 MHz"
    high = lambda offsets: np.where(np.abs(offsets) < 8.9e6, 0.0, -15.0)  # noqa: E731
    assert masked(shaped(high, 40e6), 40e6, 20).verdict == "fail"
    noise = shaped(lambda offsets: np.full(offsets.shape, -38.0), 61.44e6, 2)
    hidden = masked(shaped(flat, 61.44e6) + noise, 61.44e6, 20, noise)
    assert re.fullmatch(r"no verdict: from 2[4-7]\.\d MHz on the recorder's own noise reaches the mask", hidden.outcome)


def test_intervals_and_outcomes():
    assert interval_of([1.0, 3.0]) == pytest.approx((2 - 12.706, 2 + 12.706), abs=1e-3) and interval_of([5.0], 0.5) is None
    made = Finding(limits.CLOCK, "20 MHz", (-20.0, 20.0), "ppm", 20.1, (19.9, 20.3), 4)
    assert made.outcome == "no verdict: the interval has the limit in it" and replace(made, interval=(20.01, 20.3)).verdict == "fail"
    assert replace(made, interval=(-np.inf, 3.0)).record()["low"] is None and "(95 %: -inf to 3.00)" in str(replace(made, interval=(-np.inf, 3.0)))
    assert replace(made, interval=(-20, 20)).verdict == "pass" and replace(made, frames=1).outcome == "no verdict: 1 of 2 frames"
    assert replace(made, interval=(-30, -20.1)).verdict == "fail" and replace(made, interval=(0, 1), unsure="why").outcome == "no verdict: why"


def test_the_command(here, tmp_path):
    """Each test in a line with its clause, limit, value, interval, frames and outcome, and the same as records; the status tells of a failure."""
    write_htsy("sent.htsy", frames_of(Rate(20, 15), 3, 1100))
    assert here("waveform", "sent.htsy", "-o", "air", "--offset", "12", "--snr", "45").returncode == 0
    done = here("verdict", "air", "--reference-ppm", "0.5", "--json", "verdict.jsonl")
    lines = done.stdout.decode().splitlines()
    assert done.returncode == 0 and lines[0] == "transmitter tests of IEEE Std 802.11-2012: 3 packets at 5180 MHz, 20 million samples a second"
    tests = [line.partition(",")[0] for line in lines[1:]]
    assert tests == ["spectral mask", "spectral flatness", "centre frequency", "symbol clock", "centre frequency leakage", *["constellation error"] * 3]
    pattern = r".*, clause 20\.3\.20[\d.]*: -?[\d.]+ (dB|ppm)( at .*)? \(95 %: .* to .*\), limit .*; 3 of (2|20) frames asked for.*: (pass|no verdict: .*)"
    assert all(re.fullmatch(pattern, line) for line in lines[1:])
    assert lines[6].endswith("; 3 of 20 frames asked for: no verdict: 3 of 20 frames") and "12.0" in lines[3]
    *records, counts = [json.loads(line) for line in (tmp_path / "verdict.jsonl").read_text().splitlines()]
    assert counts == {"counts": {"packets": 3, "unmeasured": {}}}
    assert [record["test"] for record in records] == tests and records[2]["verdict"] == "pass" and records[5]["frames_asked"] == 20
    assert here("verdict", "air", "--reference-ppm", "0.5", "--complete").returncode == 1
    assert here("verdict", "air", "--reference-ppm", "0.5", "--frequency", "2e9").returncode == 1  # 31 ppm there
    write_htsy("slow.htsy", frames_of(Rate(20, 0), 3, 1000))
    assert here("waveform", "slow.htsy", "-o", "bad", "--rate", "80", "--clock", "-21", "--leakage", "-14", "--filter", "3", "--snr", "60").returncode == 0
    done = here("verdict", "bad", "--reference-ppm", "0.5")
    failed = [line.partition(",")[0] for line in done.stdout.decode().splitlines() if line.endswith(": fail")]
    assert done.returncode == 1 and failed == ["spectral mask", "symbol clock", "centre frequency leakage"]
    write_htsy("many.htsy", frames_of(Rate(20, 7), 20, 500))
    assert here("waveform", "many.htsy", "-o", "sloped", "--gains", "-28:-4.6,28:4.6", "--error", "-27.5", "--snr", "60").returncode == 0
    failed = [line.partition(",")[0] for line in here("verdict", "sloped").stdout.decode().splitlines() if line.endswith(": fail")]
    assert failed == ["spectral flatness", "constellation error"]


def test_faults_that_waveform_refuses(here):
    write_htsy("sent.htsy", frames_of(Rate(20, 7), 1, 100))
    write_htsy("wide.htsy", frames_of(Rate(40, 7), 1, 100))
    write_htsy("both.htsy", [*frames_of(Rate(20, 7), 1, 100), *frames_of(Rate(40, 7), 1, 100)])
    gains = "gains are those of subcarriers from -58 to 58, ascending, and -40 to 40 dB"
    asks = "asks for %d million samples a second (--rate), and not %d"
    far = "a neighbour in a nonadjacent channel of %d MHz " + asks
    for words, said in ((["sent.htsy", "--clock", "201"], "the symbol clock is off by 201 ppm, and has to be by -200 to 200"),
                        (["sent.htsy", "--leakage", "0"], "the leakage is 0 dB of the overall power, and has to be below 0"),
                        (["sent.htsy", "--filter", "20"],
                         "a filter is beyond the channel, which 20 million samples a second don't show beside packets of 20 MHz"),
                        (["sent.htsy", "--gains", "3:1,2:0"], gains), (["sent.htsy", "--gains", "59:1"], gains), (["sent.htsy", "--gains", "1:nan"], gains),
                        (["sent.htsy", "--nonadjacent"], "a nonadjacent channel is that of a neighbour (--neighbour)"),
                        (["sent.htsy", "--neighbour", "0"], "a neighbour in the next channel of 20 MHz " + asks % (40, 20)),
                        (["sent.htsy", "--neighbour", "0", "--nonadjacent", "--rate", "80"], far % (20, 100, 80)),
                        (["wide.htsy", "--neighbour", "0", "--rate", "100"], "a neighbour in the next channel of 40 MHz " + asks % (120, 100)),
                        (["wide.htsy", "--neighbour", "0", "--nonadjacent", "--rate", "120"], far % (40, 200, 120)),
                        (["both.htsy", "--neighbour", "0", "--rate", "120"], "a neighbour stands beside packets of 20 MHz or of 40, and not of both")):
        done = here("waveform", *words, "-o", "air")
        assert (done.returncode, done.stderr.decode()) == (2, f"mizgaure: {said}\n")


def test_the_table_of_limits():
    """docs/TRANSMITTERS.md has each test with its clause, its limit and what it was compared with."""
    page = (TOP / "docs" / "TRANSMITTERS.md").read_text()
    for limit in limits.LIMITS:
        (row,) = (row for row in page.splitlines() if row.startswith(f"| {limit.test} | {limit.clause} |"))
        assert row.endswith(f"| {limit.checked} |")


def test_limits_agree_with_one_another():
    """What the table says that the numbers were held against."""
    for bandwidth, subcarriers, other in ((20, 56, 2.0), (40, 114, 0.0)):
        assert 10 * np.log10(10 ** (other / 10) / subcarriers) == pytest.approx(limits.LEAKAGE[bandwidth], abs=0.6)
    assert 10 * np.log10(1 / 56) == pytest.approx(limits.LEAKAGE_BETWEEN, abs=0.6)
    levels = np.array(limits.SENSITIVITY_LEVELS[20])
    assert set(levels + limits.REJECTION) == {-66} and set(np.array(limits.SENSITIVITY_LEVELS[40]) - levels) == {3}
    assert set(np.array(limits.REJECTION_FAR) - limits.REJECTION) == {16}


def test_the_phase_of_symbols_is_tracked():
    """Before tracking it turns with what is left of the carrier's offset, and after it stays."""
    (packet,) = measured(faulty(count=1, carrier=2, clock=2), shown=False)
    before, after = packet.phases
    assert before.shape == after.shape == (packet.symbols,) and np.abs(after).max() < 0.02


def test_a_packet_of_two_streams_at_40_mhz():
    recording = faulty(Rate(40, 9), 3, length=100, carrier=5)
    packets = list(measured(recording, shown=False))
    assert len(packets) == 3 and packets[0].middle == 0 and packets[0].energies.shape == (2, 114)
    assert found(recording, "centre frequency").value == pytest.approx(5, abs=0.1)


def test_packets_of_two_channels_are_two_transmitters():
    """Those of the upper half of 40 MHz, which are those of the lower one 20 MHz higher, aren't taken for a hump 28 dB above its mask.

    The far end of each, which sampling folds to the other end of the band, is some 10 dB above it.
    """
    lower = of_scene(Scene(filter=12), Rate(20, 0), 2, 4, 200)
    samples = lower.read(0, lower.length // 2 * 2)
    whole = np.concatenate((samples, samples * (-1.0) ** np.arange(samples.shape[1])), axis=1)
    packets = list(measured(recording_of(octets_in(whole), Layout("cf32_le", 40e6, 1), CARRIER), shown=False))
    found = [each for each in findings(packets, CARRIER, 0.1, 40e6) if each.limit.test != "constellation error"]
    half = " in one half of 40 MHz"
    subjects = [f"20 MHz at {middle} MHz{more}" for middle in ("-10", "+10") for more in (", distance below it", "", "", "", "", half)]
    assert [each.subject for each in found] == subjects
    assert len(packets) == 8 and [each.limit.test for each in found if each.verdict == "fail"] == ["spectral mask"] * 2
    assert all(abs(float(each.where.split()[0])) > 29 and each.value > -14 for each in found if each.limit.test == "spectral mask")


@pytest.fixture(scope="module")
def fast():
    """Four packets at 61.44 million samples a second, without an offset, and where they last."""
    plain = faulty(Rate(20, 0), 4, length=100)
    samples = resample_poly(plain.read(0, plain.length).astype(complex), 384, 125, axis=1)
    powers = np.abs(samples[0]) ** 2
    return samples, np.convolve(powers, np.ones(64) / 64, "same") > 0.05 * powers.mean()


def moved(samples, shift):
    return samples * np.exp(2j * np.pi * shift / 61.44e6 * np.arange(samples.shape[1]))


@pytest.mark.parametrize("offset", [-40, -20, 20, 40])
def test_all_of_the_mask_is_seen_wherever_the_carrier_may_be(fast, offset):
    """At 61.44 million samples a second, with the carrier off by as much as the clause allows, and by twice that, as where the recorder's is off, too.

    A hump 5 dB beyond the mask at its far end, 29.9 MHz beside the carrier, fails there.
    """
    samples, lasts = fast
    carrier = 5.825e9  # the highest channel
    density = np.mean(np.abs(samples[0, lasts]) ** 2) / (56 * 312.5e3)
    hump = shaped(lambda offsets: np.where(np.abs(np.abs(offsets) - 29.9e6) < 1e5, 0.0, -300.0), 61.44e6, count=samples.shape[1])
    hump *= np.sqrt(density * 4e5 / np.mean(np.abs(hump) ** 2) * 10 ** ((-40 + 5) / 10)) * lasts
    for added, verdict in ((0.0, "pass"), (hump, "fail")):
        recording = Resampled(recording_of(octets_in(moved(samples + added, offset * 1e-6 * carrier)), Layout("cf32_le", 61.44e6, 1), carrier))
        packets = list(measured(recording, shown=False))
        outcomes = {each.limit.test: each for each in findings(packets, carrier, 0.1, 61.44e6)}
        mask = outcomes["spectral mask"]
        assert len(packets) == 4 and mask.verdict == verdict, mask
        assert outcomes["centre frequency"].value == pytest.approx(offset, abs=0.1)
        assert 29.7 < abs(float(mask.where.split()[0])) < 30.1 if verdict == "fail" else mask.value > 3


def test_a_recording_at_another_rate(fast):
    """Packets are received at 40 million samples a second, and the mask is held against what was recorded, also beside the middle."""
    samples, _ = fast
    for shift in (0.0, 5e6):
        recording = Resampled(recording_of(octets_in(moved(samples, shift)), Layout("cf32_le", 61.44e6, 1), CARRIER), shift)
        packets = list(measured(recording, shown=False))
        assert len(packets) == 4 and packets[0].middle == shift and packets[0].spectrum.powers.shape[-1] == 1232
        outcomes = {each.limit.test: each for each in findings(packets, CARRIER, 0.1, 61.44e6)}
        mask = outcomes["spectral mask"]
        assert mask.verdict == "pass" if shift == 0 else mask.outcome == "no verdict: the rate shows nothing beyond 25.5 MHz, and the mask goes on to 30 MHz"
        assert outcomes["symbol clock"].value == pytest.approx(0, abs=0.5) and outcomes["centre frequency"].value == pytest.approx(0, abs=0.1)
        assert mask.value > 3 and 9.0 < abs(float(mask.where.split()[0])) < 13


def spectra_of(density, segments, random):
    """What so many segments of Gaussian noise of a density give, an even number: a mean of independent exponential values in each bin."""
    powers = density * random.gamma(segments // 2, 1.0, (2, 1, density.size))
    return Spectrum(powers, np.full(2, segments // 2))


@pytest.mark.parametrize("shape", ["level", "sloped", "humped"])
@pytest.mark.parametrize("segments", [20, 60, 200])
def test_the_interval_of_the_mask(shape, segments):
    """Of 300 spectra whose distance below the mask is known 90 % and more have it in their interval.

    Nowhere does a spectrum seem farther below it in the mean, as it would with 0 dBr from the largest of noisy densities; a slope,
    whose largest density is at one end, seems nearer by up to 0.8 dB.
    """
    random, trials = np.random.default_rng(segments), 300
    offsets = np.fft.fftfreq(1232, 1 / 61.44e6)
    mask = limits.mask_at(offsets, 20, "5 GHz")
    inside = np.abs(offsets) < 8.9e6
    level = np.where(inside, np.clip(offsets / 9e6, -1, 1) * (2.0 if shape == "sloped" else 0.0), mask - 6)
    level = np.where((np.abs(offsets - 15e6) < 3e5) & (shape == "humped"), mask - 1, level)
    shown = (np.abs(offsets) < 30.5e6) & (mask < 0)
    known = level[inside].max() - np.max((level - mask)[shown])
    found = []
    for _ in range(trials):
        packet = replace(blank(Rate(20, 0)), spectrum=spectra_of(10 ** (level / 10), segments, random), silence=spectrum_of(np.zeros((1, 0)), 61.44e6))
        curve = mask_curve([packet], CARRIER, 61.44e6)
        found.append((curve.margin, *curve.interval))
    margins, low, high = np.array(found).T
    assert np.mean((low <= known) & (known <= high)) >= 0.9 and np.mean(low > known) < 0.05
    assert (known - 0.8 if shape == "sloped" else known - 0.2) < np.mean(margins) < known + 0.2


def test_halves_of_spectra_are_even():
    """Segments of packets that have one each come into either half in turn, and of one segment alone there are no halves."""
    random = np.random.default_rng(1)
    spectra = [spectrum_of(random.standard_normal((1, 401)) + 0j, 20e6) for _ in range(7)]
    assert [each.segments.tolist() for each in spectra] == [[1, 0]] * 7
    whole = summed(spectra)
    assert sorted(whole.segments.tolist()) == [3, 4] and np.allclose(whole.density, np.mean([each.density for each in spectra], axis=0))
    assert not np.allclose(*whole.halves) and np.array_equal(*spectra[0].halves) and np.array_equal(spectra[0].halves[0], spectra[0].density)


def test_too_few_segments_give_no_verdict():
    for samples, outcome in ((401 + 18 * 200, "no verdict: 19 of 20 segments of 20 microseconds"), (401 + 19 * 200, "fail")):
        random = np.random.default_rng(2)
        noise = random.standard_normal((1, samples)) + 1j * random.standard_normal((1, samples))
        packet = replace(blank(Rate(20, 0)), spectrum=spectrum_of(noise, 20e6))
        made = next(each for each in findings([packet], CARRIER, 0.1, 20e6) if each.limit.test == "spectral mask")
        assert made.outcome == f"no verdict: 1 of 2 frames{'; 19 of 20 segments of 20 microseconds' if outcome != 'fail' else ''}"
        halved = [replace(packet, spectrum=spectrum_of(part, 20e6)) for part in (noise[:, :2201], noise[:, 2000:])]
        made = next(each for each in findings(halved, CARRIER, 0.1, 20e6) if each.limit.test == "spectral mask")
        assert made.outcome == outcome


def test_an_antenna_that_hears_nothing_has_no_mask():
    """One with the recorder's noise alone, 40 dB below the other, isn't held beside the mask; where all is noise there is no verdict, nor a failure."""
    flat = lambda offsets: np.where(np.abs(offsets) < 8.9e6, 0.0, -50.0)  # noqa: E731
    heard, noise = shaped(flat, 61.44e6, count=1 << 18), shaped(np.zeros_like, 61.44e6, 2, 1 << 18) * 0.01
    assert masked(np.concatenate((noise, heard)), 61.44e6, 20, np.concatenate((noise, noise * 0.001))).verdict == "pass"
    assert re.fullmatch(r"no verdict: from 9\.0 MHz on the recorder's own noise reaches the mask", masked(noise, 61.44e6, 20, noise).outcome)
