"""Captures from floating point."""

import numpy as np
import pytest
from conftest import exhaustive, octets_of

from mizgaure import FitError, InputError, MeasuredFrame, Rate, capture, read_htcp
from mizgaure.quantise import rotate, rounding_bound
from mizgaure.sweep import Setting, random_symbols, rayleigh, received_frame

# A rate for each number of streams, with the signal-to-noise ratio at which about a tenth of its points are wrong.
CASES = {1: (7, 24.5), 2: (11, 17.0), 3: (19, 16.9), 4: (25, 7.2)}


def measured(mcs, snr, length=60, seed=5, **options):
    """A frame in floating point, and what was sent in it."""
    setting = Setting(mcs=mcs, length=length, **options)
    random = np.random.default_rng(seed)
    sent = random_symbols(setting.rate, length, random)
    return received_frame(setting, snr, sent, random), sent


@pytest.mark.parametrize("streams", CASES)
def test_the_program_finds_what_an_exhaustive_search_finds(streams, radio):
    """Over the quantised numbers always; over those that weren't rounded for 98 % of the vectors."""
    mcs, snr = CASES[streams]
    frames = [measured(mcs, snr, seed=seed) for seed in range(20)]
    made = capture([frame for frame, _ in frames], gain=2**11)
    wrong = points = differing = vectors = 0
    for (frame, sent), quantised, jobs in zip(frames, made.frames, radio.detect(octets_of(made.frames))):
        rate = quantised.rate
        data = ~rate.is_pilot
        found = np.zeros(sent.points.shape, complex)
        found[jobs.symbol, jobs.carrier] = jobs.points
        assert np.array_equal(found[:, data], exhaustive(quantised.triangles, quantised.samples, rate)[:, data])
        triangles, samples = rotate(rate, frame.channel, frame.received, np.zeros(rate.subcarriers, bool))
        differing += np.count_nonzero((found != exhaustive(triangles, samples, rate))[:, data].any(axis=-1))
        vectors += sent.points[:, data, 0].size
        wrong += np.count_nonzero((found != sent.points)[:, data])
        points += sent.points[:, data].size
    assert 0.07 < wrong / points < 0.14
    assert differing <= 0.02 * vectors


@pytest.mark.parametrize("mcs, antennas", [(0, 1), (1, 3), (9, 2), (13, 4), (19, 3), (31, 4), (27, 2)])
def test_the_rotation_keeps_distances(mcs, antennas):
    """R is triangular with a real diagonal of at least 0, and distances differ by what no vector can change."""
    frame, sent = measured(mcs, 20.0, antennas=antennas)
    rate = frame.rate
    triangles, samples = rotate(rate, frame.channel, frame.received, np.zeros(rate.subcarriers, bool))
    assert np.array_equal(triangles, np.triu(triangles))
    diagonal = np.einsum("cii->ci", triangles)
    assert (diagonal.imag == 0).all() and (diagonal.real >= 0).all()
    factors = np.where(rate.is_pilot, 1, rate.normalising_factor)
    gaps = []
    for points in (sent.points, -sent.points, 0 * sent.points):
        seen = np.einsum("cas,ncs->nca", frame.channel * factors[:, None, None], points)
        true = (abs(frame.received - seen) ** 2).sum(axis=-1)
        ours = (abs(samples - np.einsum("ckl,ncl->nck", triangles, points)) ** 2).sum(axis=-1)
        gaps.append(true - ours)
    assert np.allclose(gaps[0], gaps[1]) and np.allclose(gaps[0], gaps[2])
    assert (gaps[0] > -1e-9).all() and (antennas > rate.streams or np.allclose(gaps[0], 0))


@pytest.mark.parametrize("mcs", [0, 8, 9, 11, 13, 24, 31])
@pytest.mark.parametrize("gain", [3.0, 200.0, None])
def test_the_bound_on_rounding_holds(mcs, gain):
    frame, sent = measured(mcs, 15.0)
    made = capture([frame], gain)
    rate, (quantised,) = frame.rate, made.frames
    triangles, samples = rotate(rate, frame.channel, frame.received, np.zeros(rate.subcarriers, bool))
    random = np.random.default_rng(1)
    data = ~rate.is_pilot
    for points in (sent.points, rate.points[random.integers(0, rate.points.size, sent.points.shape)]):
        true = (abs(samples - np.einsum("ckl,ncl->nck", triangles, points)) ** 2).sum(axis=-1)[:, data] * made.gains[0] ** 2
        ours = (abs(quantised.samples - np.einsum("ckl,ncl->nck", quantised.triangles, points)) ** 2).sum(axis=-1)[:, data]
        assert (abs(np.sqrt(true) - np.sqrt(ours)) <= made.bounds[0] * (1 + 1e-9)).all()
        assert (abs(true - ours) <= made.distance_change(0, ours) * (1 + 1e-9)).all()


def test_bounds_by_hand():
    assert rounding_bound(Rate(20, 0)) == pytest.approx((1 + 0.25) ** 0.5)
    assert rounding_bound(Rate(20, 1)) == pytest.approx(2**0.5)
    assert rounding_bound(Rate(20, 9)) == pytest.approx((2 * (1 + 4)) ** 0.5)


def test_the_largest_gain_fills_a_field():
    for mcs in (1, 8, 31):
        frame, _ = measured(mcs, 10.0)
        made = capture([frame])
        used = max(made.frames[0].triangles.real.max() / 65535, abs(np.triu(made.frames[0].triangles, 1).real).max() / 32767.5,
                   abs(np.triu(made.frames[0].triangles, 1).imag).max() / 32767.5, abs(made.frames[0].samples).max() / 2**31)
        assert used > 0.9999
        with pytest.raises(FitError):
            capture([frame], gain=made.gains[0] * 1.001)
        (read,) = read_htcp(octets_of(made.frames))
        assert np.array_equal(read.samples, made.frames[0].samples)


def test_pilots_are_not_normalised():
    """A noiseless frame over a channel of ones has the diagonal 1 on pilots and K on data subcarriers."""
    rate = Rate(20, 7)
    random = np.random.default_rng(2)
    sent = random_symbols(rate, 30, random)
    factors = np.where(rate.is_pilot, 1, 42**-0.5)
    frame = MeasuredFrame(20, 7, 30, np.ones((56, 1, 1)), factors[None, :, None] * sent.points)
    (made,) = capture([frame], gain=1000).frames
    assert set(made.triangles[rate.is_pilot, 0, 0].real) == {1000} and set(made.triangles[~rate.is_pilot, 0, 0].real) == {154}


def test_erased_subcarriers_are_not_looked_at(radio):
    frame, _ = measured(9, 20.0)
    frame.channel[[2, 9]] = np.nan
    frame.received[:, [2, 9]] = np.inf
    frame.erased = [2, 9]
    made = capture([frame])
    octets = octets_of(made.frames)
    assert octets[4] == 2 and set(np.unique(radio.detect(octets)[0].carrier)) == set(range(56)) - {2, 9}


def with_(**changes):
    frame, _ = measured(9, 20.0)
    for name, change in changes.items():
        setattr(frame, name, change(getattr(frame, name)))
    return frame


def put(place, value):
    def change(array):
        array[place] = value
        return array

    return change


@pytest.mark.parametrize("frame, gain, said", [
    (with_(channel=lambda h: h * 0 + np.eye(2)), 70000 * 2**0.5,
     "frame 1, subcarrier 0: entry (1, 1) of the triangle is 70000 at the gain 98994.9, and the field takes 0 to 65535"),
    (with_(channel=put((7, 1, 0), np.nan)), None, "frame 1, subcarrier 7: the channel of antenna 1 and stream 1 isn't finite"),
    (with_(received=put((2, 9, 1), np.inf)), None, "frame 1, subcarrier 9, symbol 2: what antenna 1 received isn't finite"),
    (with_(received=put((2, 9), 1e8), channel=lambda h: h * 0 + np.eye(2)), 100.0,
     "frame 1, subcarrier 9, symbol 2: sample 1 is 1e+10 at the gain 100, and the field takes -2^31 to 2^31 - 1"),
    (with_(received=lambda y: y[:-1]), None, "frame 1: received has the shape (4, 56, 2), and (5, 56, 2) is asked for"),
    (with_(channel=lambda h: h[:, :, 0]), None, "frame 1: channel has the shape (56, 2), and (subcarriers, antennas, streams) is asked for"),
    (with_(erased=lambda _: [56]), None, "frame 1: subcarrier 56 is erased, and the subcarriers are 0 to 55"),
    (with_(erased=lambda _: range(56)), None, "frame 1: all subcarriers are erased, and a frame has a present one"),
    (with_(), -1.0, "frame 1: the gain is -1.0, and has to be above 0"),
    (with_(mcs=lambda _: 32), None, "frame 1: the MCS is 32, and only 0 to 31 are known"),
    (with_(bandwidth=lambda _: "20"), None, "frame 1: the bandwidth is '20', and has to be a whole number"),
    (with_(mcs=lambda _: 9.0), None, "frame 1: the MCS is 9.0, and has to be a whole number"),
    (with_(length=lambda _: 60.5), None, "frame 1: the length is 60.5, and has to be a whole number"),
    (with_(channel=lambda h: h.astype(str)), None, "frame 1: channel isn't an array of numbers, but of <U64"),
    (with_(channel=lambda h: [[1], [1, 2]]), None, "frame 1: channel isn't an array of numbers"),
    (with_(received=lambda y: None), None, "frame 1: received isn't an array of numbers, but of object"),
    (with_(erased=lambda _: "all"), None, "frame 1: erased isn't an array of numbers, but of <U3"),
    (with_(erased=lambda _: [np.nan]), None, "frame 1: subcarrier nan is erased, and the subcarriers are 0 to 55"),
    (with_(erased=lambda _: [1.5]), None, "frame 1: subcarrier 1.5 is erased, and the subcarriers are 0 to 55"),
    (with_(channel=lambda h: h * 0 + 1e-310 * np.eye(2), received=lambda y: y * 0), None,
     "frame 1: the parts of the channel and of what was received are too large or too small to be scaled"),
    (with_(channel=lambda h: 1e-306 * h, received=lambda y: 1e-306 * y), None,
     "frame 1: the parts of the channel and of what was received are too large or too small to be scaled"),
    (with_(channel=lambda h: h * 0 + 1e308), None,
     "frame 1: the parts of the channel and of what was received are too large or too small to be scaled"),
])
def test_what_does_not_fit(frame, gain, said):
    with pytest.raises(InputError) as caught:
        capture([with_(), frame], None if gain is None else [1.0, gain])
    assert str(caught.value) == said


def test_the_random_channel_has_mean_power_one():
    """Each antenna receives power 1 from all streams together, on every subcarrier."""
    random = np.random.default_rng(9)
    for rate in (Rate(20, 9), Rate(40, 25)):
        power = np.mean([(abs(rayleigh(rate, 2, 2.0, random)) ** 2).sum(axis=2) for _ in range(1500)], axis=0)
        assert np.allclose(power, 1, atol=0.12) and abs(power.mean() - 1) < 0.03
