"""Error vector magnitude and error rates."""

from collections import Counter

import numpy as np
import pytest
from conftest import octets_of, random_frame, vectors

from mizgaure import (CaptureFrame, FrameProportion, InputError, Proportion, Rate, SymbolsFrame, error_rates, evm, read_answers, read_htcp,
                      read_htsy, residual_ratio)
from mizgaure.answers import Jobs
from mizgaure.channels import gaussian
from mizgaure.distances import distances, nearest_points, places, zero_forcing
from mizgaure.measures import common_phases, constellation_tests, decibels, octet_errors
from mizgaure.quantise import MeasuredFrame, capture
from mizgaure.rates import labels_of
from mizgaure.sweep import Setting, random_symbols, received_frame


@pytest.mark.parametrize("events, trials, low, high", [
    (0, 10, 0, 0.27753), (1, 10, 0.01788, 0.40415), (5, 10, 0.23659, 0.76341), (10, 10, 0.72247, 1), (81, 263, 0.25529, 0.36621),
])
def test_intervals_of_wilson(events, trials, low, high):
    """Values of tables; the last row is the example 81 of 263 that Newcombe (1998) gives as 0.2553 to 0.3662."""
    pytest.importorskip("scipy")
    assert Proportion(events, trials).interval == pytest.approx((low, high), abs=2e-5)


def frames_of(errors, trials):
    """A rate over frames with these errors, each of so many trials."""
    return FrameProportion(dict(Counter((int(count), trials) for count in errors)))


def test_rates_over_frames_add_up():
    assert sum((FrameProportion.of(count, 10) for count in (3, 0, 3)), FrameProportion()) == frames_of([3, 0, 3], 10)
    rate = frames_of([3, 0, 3], 10) + FrameProportion.of(1, 5) + FrameProportion.of(0, 0)
    assert (rate.events, rate.trials, rate.count, rate.value) == (7, 35, 4, 0.2)
    assert rate.rows() == [[0, 10, 1], [1, 5, 1], [3, 10, 2]] and FrameProportion.from_rows(rate.rows()) == rate
    for rows in ([[1, 0, 1]], [[3, 2, 1]], [[0, 1, 0]], [[0, 1]], [[0.0, 1, 1]], [[True, 1, 1]]):
        with pytest.raises(ValueError):
            FrameProportion.from_rows(rows)


def test_the_order_of_frames_makes_no_difference():
    """Not in the last digit, so that a merged sweep's table is that of one that was never divided."""
    pytest.importorskip("scipy")
    random = np.random.default_rng(3)
    for _ in range(20):
        errors = random.integers(0, 400, 30)
        assert frames_of(errors, 1040).interval == frames_of(errors[::-1], 1040).interval == frames_of(random.permutation(errors), 1040).interval


def test_an_interval_over_frames_by_hand():
    """Two frames of 100 trials with 10 and 30 errors: p = 0.2 and a standard error of 0.1, so 0.1 / 0.16 on the scale of odds."""
    stats = pytest.importorskip("scipy.stats")
    low, high = frames_of([10, 30], 100).interval
    half = stats.t.ppf(0.975, 1) * 0.1 / 0.16
    assert np.log([low / (1 - low), high / (1 - high)]) == pytest.approx(np.log(0.25) + np.array([-half, half]))
    assert FrameProportion().interval == FrameProportion.of(3, 10).interval == (0, 1)  # nothing is known of a spread
    assert str(FrameProportion.of(3, 10)) == "3 of 10 = 0.3 (one frame gives no interval)" and str(FrameProportion()) == "none"
    assert frames_of([0] * 50, 1000).interval == (0, pytest.approx(1 - 0.025 ** (1 / 50)))
    assert frames_of([1000] * 50, 1000).interval == (pytest.approx(0.025 ** (1 / 50)), 1)
    # Frames that agree more than independent trials would: the interval is that of independent trials.
    low, high = frames_of([10] * 200, 100).interval
    assert (low, high) == pytest.approx(Proportion(2000, 20000).interval, rel=0.005)


@pytest.mark.parametrize("frames, ratio", [(50, 0.0), (50, 5.0), (50, 10.0), (50, 15.0), (200, 10.0), (200, 20.0), (50, None)])
def test_intervals_hold_the_truth(frames, ratio):
    """200 sweeps of BPSK over a flat Rayleigh channel, one channel a frame: the symbol error rate is known in a closed form.

    At a ratio of None the frames share a channel that doesn't fade.
    """
    special = pytest.importorskip("scipy.special")
    random = np.random.default_rng(4)
    if ratio is None:
        truth = rates = np.full((200, frames), 0.01)
        truth = 0.01
    else:
        power = 10 ** (ratio / 10)
        truth = (1 - np.sqrt(power / (1 + power))) / 2
        rates = special.erfc(np.sqrt(power * random.exponential(1, (200, frames)))) / 2
    held = 0
    for errors in random.binomial(1040, rates):
        low, high = frames_of(errors, 1040).interval
        held += low <= truth <= high
    assert 180 <= held <= 198


def mean_over_fading(rate_at, power):
    """The mean of what a rate of errors is at a signal-to-noise ratio, where that is exponentially distributed about a mean."""
    integrate = pytest.importorskip("scipy.integrate")
    return integrate.quad(lambda ratio: rate_at(ratio) * np.exp(-ratio / power) / power, 0, 40 * power, limit=200)[0]


@pytest.mark.parametrize("mcs, frames, decibel, fading", [(3, 50, 10.0, True), (3, 50, 20.0, True), (5, 50, 18.0, True),
                                                          (3, 200, 15.0, True), (3, 50, 14.0, False)])
def test_intervals_of_bits_and_points_hold_the_truth(mcs, frames, decibel, fading):
    """200 sweeps of 16-QAM and 64-QAM over a flat channel, one a frame, decided and labelled as a sweep does it.

    The truth is that of Gray labels: with q(k) = erfc(k sqrt(3 SNR / (2 (M - 1)))) / 2 the bit error rate of 16-QAM is
    3/4 q(1) + 1/2 q(3) - 1/4 q(5), that of 64-QAM 7/12 q(1) + 1/2 q(3) - 1/12 q(5) + 1/12 q(9) - 1/12 q(13), and that of
    points 1 - (1 - 2 (1 - 1/sqrt(M)) q(1))**2.
    """
    special = pytest.importorskip("scipy.special")
    rate, random, power = Rate(20, mcs), np.random.default_rng(5), 10 ** (decibel / 10)
    size = rate.points.size
    weights = {16: {1: 3 / 4, 3: 1 / 2, 5: -1 / 4}, 64: {1: 7 / 12, 3: 1 / 2, 5: -1 / 12, 9: 1 / 12, 13: -1 / 12}}[size]

    def q(k, ratio):
        return special.erfc(k * np.sqrt(1.5 * ratio / (size - 1))) / 2

    def bits_at(ratio):
        return sum(weight * q(k, ratio) for k, weight in weights.items())

    def points_at(ratio):
        return 1 - (1 - 2 * (1 - size**-0.5) * q(1, ratio)) ** 2

    truths = [mean_over_fading(at, power) if fading else at(power) for at in (bits_at, points_at)]
    ratios = power * (random.exponential(1, (200, frames, 1)) if fading else np.ones((200, frames, 1)))
    meant = rate.points[random.integers(0, size, (200, frames, 52))]
    noise = gaussian(random, meant.shape) * np.sqrt(rate.power / ratios)
    wrong = labels_of(meant, rate) ^ labels_of(nearest_points(rate, meant + noise), rate)
    counts = np.unpackbits(wrong.astype(np.uint8)[..., None], axis=-1).sum(axis=(2, 3)), np.count_nonzero(wrong, axis=2)
    for truth, errors, trials in zip(truths, counts, (52 * rate.bits_per_point, 52)):
        intervals = [frames_of(each, trials).interval for each in errors]
        assert 180 <= sum(low <= truth <= high for low, high in intervals) <= 198


def noisy(rate, length, errors, diagonal=1000):
    """A frame over diagonal channels whose samples differ by given errors from what was sent, and its answers."""
    frame = random_frame(rate, length, seed=3, largest=2, noise=0)
    n = rate.streams
    frame.triangles[:] = diagonal * np.eye(n)
    points = np.full(frame.samples.shape, rate.points[0])
    points[:, rate.is_pilot] = rate.pilot_signs(points.shape[0])
    frame.samples[:] = diagonal * points + errors
    symbol, carrier = places(frame)
    vectors_ = points[symbol, carrier]
    return frame, Jobs(0, symbol, carrier, distances(frame, symbol, carrier, vectors_), vectors_)


def test_magnitudes_by_hand():
    """Errors of 100 and 200 beside points of mean length sqrt(10) at a diagonal of 1000."""
    frame, jobs = noisy(Rate(20, 11), 20, np.array([100, 200j]))
    each = np.array([0.1, 0.2]) / np.sqrt(10)
    for found in (evm(frame, tracked=False), residual_ratio(frame, jobs)):
        assert found.streams == pytest.approx(each)
        assert found.frame == pytest.approx(np.sqrt((each**2).mean()))
        assert found.cells[0] == pytest.approx(each) and found.cells[7] == pytest.approx([0.1, 0.2])  # 7 is a pilot
        assert found.subcarriers[0] == pytest.approx(np.sqrt((each**2).mean()))


def example(mcs=11, length=700, snr=25.0, seed=1):
    """The example of tools/README.md in floating point, before it is rounded."""
    setting = Setting(mcs=mcs, length=length)
    random = np.random.default_rng(seed)
    return received_frame(setting, snr, random_symbols(setting.rate, length, random), random)


def by_the_standard(measured, pilots_seen):
    """Clause 20.3.20.7.4 step by step in floating point, with phases and inverses of its own: the root of the mean over all."""
    rate = measured.rate
    errors = []
    for symbol, received in enumerate(measured.received):
        signs = rate.pilot_signs(1, symbol)[0]
        pilots = np.flatnonzero(rate.is_pilot)
        along = sum(np.vdot(measured.channel[carrier] @ signs[n], received[carrier]) for n, carrier in enumerate(pilots))
        received = received * np.exp(-1j * np.angle(along)) if pilots_seen else received
        for carrier in np.flatnonzero(~rate.is_pilot):
            values = np.linalg.pinv(measured.channel[carrier]) @ received[carrier]
            points = rate.points * rate.normalising_factor
            errors.extend(np.abs(points[:, None] - values).min(axis=0) ** 2)
    return np.sqrt(np.mean(errors))


@pytest.mark.parametrize("mcs", [0, 3, 11, 20, 30])
def test_the_magnitude_is_the_standards(mcs):
    """Points behind zero forcing, weighed equally: what a computation apart from the rotation and the rounding gives."""
    measured = example(mcs, 60, 30.0)
    (frame,) = capture([measured]).frames
    for tracked in (True, False):
        assert evm(frame, tracked).frame == pytest.approx(by_the_standard(measured, tracked), rel=1e-3)


def test_a_drift_of_a_fifth_of_a_degree_is_tracked():
    """At 30 dB, over a channel that doesn't fade, it turns 3.17 % into 5.27 % in 22 symbols where nothing is tracked, and it
    changes nothing of the standard's magnitude.
    """
    setting = Setting(mcs=11, length=560, channel="awgn")
    random = np.random.default_rng(7)
    measured = received_frame(setting, 30.0, random_symbols(setting.rate, setting.length, random), random)
    turned = np.exp(1j * np.radians(0.2) * np.arange(22))
    drifting = MeasuredFrame(20, 11, 560, measured.channel, measured.received * turned[:, None, None])
    (frame,), (other,) = capture([measured]).frames, capture([drifting]).frames
    assert evm(frame, tracked=False).frame == pytest.approx(0.0317, abs=5e-5)
    assert evm(other, tracked=False).frame == pytest.approx(0.0527, abs=2e-4)
    assert evm(other).frame == pytest.approx(evm(frame).frame, rel=1e-4) == pytest.approx(0.0328, abs=5e-5)


def test_a_drift_of_the_phase_is_tracked():
    """A phase that grows by 2 degrees a symbol changes nothing of the magnitude, but much where it isn't tracked."""
    measured = example()
    turned = np.exp(1j * np.pi / 90 * np.arange(measured.received.shape[0]))
    drifting = MeasuredFrame(20, 11, 700, measured.channel, measured.received * turned[:, None, None])
    (frame,), (other,) = capture([measured]).frames, capture([drifting]).frames
    assert evm(frame).frame == pytest.approx(0.1467, abs=5e-5) and evm(other).frame == pytest.approx(evm(frame).frame, rel=1e-4)
    assert evm(other, tracked=False).frame > 1.8 * evm(frame).frame
    assert np.unwrap(common_phases(other) - common_phases(frame)) == pytest.approx(np.angle(turned), abs=1e-4)


def test_the_verdict_of_the_standard():
    """The mean of the frames' magnitudes beside the limit of their constellation and coding rate."""
    limits = [Rate(20, mcs).error_limit for mcs in range(8)]
    assert limits == [-5, -10, -13, -16, -19, -22, -25, -28] and Rate(40, 29).error_limit == -22
    at_the_limit = 10 ** (-16 / 20)
    rows = [(Rate(20, 3), 16, at_the_limit * factor) for factor in [0.5, 1.4999] * 10] + [(Rate(20, 4), 15, 0.5)]
    within, above = constellation_tests(rows)
    assert within.frames == 20 and within.is_within and within.is_full and decibels(within.mean) == pytest.approx(-16, abs=0.01)
    assert not above.is_within and not above.is_full
    assert str(above) == ("EVM of 1 frame at 20 MHz, MCS 4 (16-QAM 3/4, 1 stream): 50.00 % (-6.0 dB), above the limit of -19 dB; "
                          "no verdict: 1 of 20 frames, the shortest of 15 of 16 symbols")


def test_the_frames_ratio_is_that_of_its_distances():
    path = next(p.values[0] for p in vectors(".detect") if p.values[0].stem == "bw1-mcs13")
    (frame,), (jobs,) = read_htcp(path.with_suffix(".htcp")), read_answers(path)
    data = ~frame.rate.is_pilot
    diagonal = (np.einsum("cii->ci", frame.triangles[data]).real ** 2).sum() * frame.samples.shape[0] * 42
    assert residual_ratio(frame, jobs).frame == pytest.approx(np.sqrt(jobs.distance[data[jobs.carrier]].sum() / diagonal))


def test_erased_and_unheard_are_left_out():
    frame, jobs = noisy(Rate(20, 9), 20, np.array([100, 100]))
    frame.erased[[4, 7, 21, 34, 48]] = True
    frame.triangles[5] = 0
    kept = ~frame.erased[jobs.carrier]
    part = Jobs(0, jobs.symbol[kept], jobs.carrier[kept], jobs.distance[kept], jobs.points[kept])
    assert (common_phases(frame) == 0).all()  # no pilot was received
    for found in (evm(frame), residual_ratio(frame, part)):
        left_out = np.isnan(found.subcarriers)
        assert np.flatnonzero(left_out).tolist() == [4, 5, 7, 21, 34, 48] and np.isfinite(found.frame)
    with pytest.raises(InputError, match="frame 0: subcarrier 4 is erased and has no job"):
        residual_ratio(frame, jobs)


def test_rates_against_planted_errors():
    rate = Rate(20, 12)
    frame = random_frame(rate, 60, seed=8, noise=0)
    symbol, carrier = places(frame)
    sent = zero_forcing(frame).points.reshape(frame.samples.shape)  # without noise what was sent
    points = sent.copy()
    points[0, 3, 1] = -points[0, 3, 1]  # both axes
    points[1, 4, 0] = points[1, 4, 0].conjugate()  # one axis
    points[1, 7, 0] *= -1  # a pilot doesn't count
    labels = [labels_of(array[[0, 1], [3, 4], [1, 0]], rate) for array in (sent, points)]
    wrong = sum(bin(int(a) ^ int(b)).count("1") for a, b in zip(*labels))
    jobs = Jobs(0, symbol, carrier, np.zeros(symbol.size, int), points[symbol, carrier])
    found = error_rates([SymbolsFrame(rate, 60, sent)], [jobs])
    assert found.symbols == FrameProportion.of(2, sent.shape[0] * 52 * 2) and found.bits == FrameProportion.of(wrong, sent.shape[0] * 52 * 2 * 4)
    with pytest.raises(InputError, match="answer to frame 0, and 0 frames were sent"):
        error_rates([], [jobs])
    with pytest.raises(InputError, match="aren't to a frame of 20 MHz, MCS 0"):
        error_rates([SymbolsFrame(Rate(20, 0), 1, np.zeros((2, 56, 1)))], [jobs])


def test_no_error_in_the_vectors_without_noise():
    path = next(p.values[0] for p in vectors(".htsy"))
    found = error_rates(read_htsy(path), [j for j in read_answers(path.with_suffix(".detect")) if isinstance(j, Jobs)])
    assert found.symbols.events == 0 and found.symbols.trials > 0


def test_octets():
    assert octet_errors(b"\x0f\x00", b"\x0e\x80").octet_bits == FrameProportion.of(2, 16)
    assert octet_errors(b"ab", b"ab").frames == Proportion(0, 1)
    assert octet_errors(b"abc", None).octet_bits == FrameProportion.of(12, 24) and octet_errors(b"abc", None).frames == Proportion(1, 1)
    with pytest.raises(InputError):
        octet_errors(b"ab", b"a")


def test_distances_beyond_63_bits():
    frame = CaptureFrame(Rate(20, 29), 1, np.tile(np.eye(4) * 65535, (56, 1, 1)) + 0j, np.full((1, 56, 4), -(2**31) + (2**31 - 1) * 1j))
    points = np.full((1, 4), -7 + 7j)
    assert distances(frame, np.array([0]), np.array([0]), points).tolist() == [4 * ((2**31 - 7 * 65535) ** 2 + (2**31 - 1 - 7 * 65535) ** 2)]
    assert octets_of([frame])[:4] == b"HTCP"
