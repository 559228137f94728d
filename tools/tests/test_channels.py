"""Channels of a sweep, and functions and commands of the user's own."""

import shlex
import sys

import numpy as np
import pytest
from conftest import TOP, octets_of, random_frame

from mizgaure import InputError, ProgramError, Rate, plugs
from mizgaure.channels import TGN, awgn, check_channel, delay_spread, draw, profile_of, tapped, tgn, tgn_profile
from mizgaure.detectors import Detector, decided
from mizgaure.distances import zero_forcing
from mizgaure.sweep import Setting, random_symbols, received_frame

PROFILE = ((0.0, 0.0), (100.0, -3.0), (250.0, -9.0))


# The models of Task Group n in the layout of their tables: the delay of each tap in ns, and what it has of each cluster in dB.
TABLES = {
    "tgn-b": """
          0    0.0
         10   -5.4
         20  -10.8   -3.2
         30  -16.2   -6.3
         40  -21.7   -9.4
         50          -12.5
         60          -15.6
         70          -18.7
         80          -21.8""",
    "tgn-d": """
          0    0.0
         10   -0.9
         20   -1.7
         30   -2.6
         40   -3.5
         50   -4.3
         60   -5.2
         70   -6.1
         80   -6.9
         90   -7.8
        110   -9.0   -6.6
        140  -11.1   -9.5
        170  -13.7  -12.1
        200  -16.3  -14.7
        240  -19.3  -17.4  -18.8
        290  -23.2  -21.9  -23.2
        340          -25.5  -25.2
        390                  -26.7""",
}
# Of each cluster: the angle of arrival and its spread, the angle of departure and its spread, in degrees.
ANGLES = {"tgn-b": [(4.3, 14.4, 225.1, 14.4), (118.4, 25.2, 106.5, 25.4)],
          "tgn-d": [(158.9, 27.7, 332.1, 27.4), (320.2, 31.4, 49.3, 32.1), (276.1, 37.4, 275.9, 36.8)]}


@pytest.mark.parametrize("name", TGN)
def test_the_taps_of_task_group_n(name):
    """Each cluster's taps and angles, against the tables as they are written here."""
    rows = [line for line in TABLES[name].splitlines() if line.strip()]
    starts, width = 11, 8  # of the columns
    assert len(rows) == len(tgn_profile(name))
    for number, (cluster, angles) in enumerate(zip(TGN[name], ANGLES[name])):
        cells = [(float(row.split()[0]), row[starts + width * number :][:width].strip()) for row in rows]
        assert cluster.taps == tuple((delay, float(cell)) for delay, cell in cells if cell)
        assert (*cluster.arrival, *cluster.departure) == angles
    assert len(TGN[name]) == len(ANGLES[name])


@pytest.mark.parametrize("name, spread, delays, firsts", [("tgn-b", 15, [*range(0, 90, 10)], [0, 20]),
                                                          ("tgn-d", 50, [*range(0, 100, 10), 110, 140, 170, 200, 240, 290, 340, 390], [0, 110, 240])])
def test_what_is_known_of_the_models_of_task_group_n(name, spread, delays, firsts):
    """What document 11-03/940r4 says of B and D apart from its tables, and what follows from how it made them.

    The delay spreads are 15 ns and 50 ns, rounded; B has 9 taps in 2 clusters and D 18 in 3, the strongest is the first one and
    has 0 dB; taps are 10 ns apart or a multiple; clusters overlap, a tap of one being a tap of the model; and the power of a
    cluster falls exponentially, so in dB it is a straight line, to a tenth, as far as its taps are 10 ns apart.
    """
    profile = tgn_profile(name)
    assert round(delay_spread(profile)) - spread in (0, 1)
    assert [delay for delay, _ in profile] == delays and profile[0] == (0.0, 0.0) and max(power for _, power in profile) == 0.0
    clusters = TGN[name]
    assert [cluster.taps[0][0] for cluster in clusters] == firsts
    for cluster, behind in zip(clusters, [*clusters[1:], None]):
        times, powers = np.array(cluster.taps).T
        first = delays.index(times[0])
        assert times.tolist() == delays[first : first + times.size] and (np.diff(powers) < 0).all()
        assert behind is None or times[0] < behind.taps[0][0] < times[-1] < behind.taps[-1][0]
        near = np.flatnonzero(np.diff(times, prepend=times[0] - 10) == 10)
        if near.size > 2:
            line = np.polyval(np.polyfit(times[near], powers[near], 1), times[near])
            assert abs(powers[near] - line).max() < 0.06


@pytest.mark.parametrize("name", ["exponential", "flat", "tapped", "tgn-b", "tgn-d", "awgn"])
@pytest.mark.parametrize("mcs, antennas", [(0, 2), (16, 3), (24, 4), (24, 2)])
def test_each_antenna_receives_power_one(name, mcs, antennas):
    rate, random = Rate(40, mcs), np.random.default_rng(3)
    power = np.mean([(abs(draw(name, rate, antennas, 2.0, PROFILE, random)) ** 2).sum(axis=2).mean(axis=0) for _ in range(300)], axis=0)
    assert power.shape == (antennas,) and power == pytest.approx(np.ones(antennas), abs=0.25 if name != "awgn" else 1e-12)


def test_taps_are_seen_on_subcarriers_by_their_delays():
    """The correlation of the subcarriers f and f + 16 is the sum of the powers turned by 2 pi 16 312.5 kHz tau."""
    rate, random = Rate(20, 0), np.random.default_rng(5)
    drawn = np.array([tapped(rate, 1, PROFILE, random)[:, 0, 0] for _ in range(4000)])
    powers = 10 ** (np.array([0.0, -3.0, -9.0]) / 10)
    turned = np.exp(2j * np.pi * 16 * 312.5e3 * np.array([0.0, 100e-9, 250e-9]))
    first = int(np.flatnonzero(rate.frequencies == 1)[0])
    assert np.mean(drawn[:, first].conj() * drawn[:, first + 16]) == pytest.approx((powers * turned.conj()).sum() / powers.sum(), abs=0.05)


@pytest.mark.parametrize("name", ["tgn-b", "tgn-d"])
def test_antennas_are_correlated_by_the_clusters_angles(name):
    """Drawn angles give the correlation of receive antennas half a wave apart: exp(i pi sin(angle)), clusters weighted with their powers."""
    rate, random = Rate(20, 24), np.random.default_rng(6)
    drawn = np.array([tgn(rate, 4, name, random)[30] for _ in range(1500)])
    wanted = total = 0.0
    for cluster in TGN[name]:
        mean, spread = np.radians(cluster.arrival)
        off = random.laplace(0, spread / np.sqrt(2), 200000)
        power = sum(10 ** (decibels / 10) for _, decibels in cluster.taps)
        wanted += power * np.mean(np.exp(1j * np.pi * np.sin(mean + off[abs(off) < np.pi])))
        total += power
    one, two = drawn[:, :3], drawn[:, 1:]
    assert np.mean(two * one.conj()) / np.mean(abs(one) ** 2) == pytest.approx(wanted / total, abs=0.05)
    assert np.allclose(awgn(rate, 4)[7], np.eye(4))


@pytest.mark.parametrize("text", ["", "0", "0:0,50", "a:b", "-1:0", "0:201", "0:nan"])
def test_texts_that_are_no_profile(text):
    with pytest.raises(InputError):
        profile_of(text)
    assert profile_of("0:0,50:-3.5") == ((0.0, 0.0), (50.0, -3.5))


def test_channels_that_are_none():
    for channel, profile in (("tgn-z", ()), ("tapped", ()), ("file.txt:f", ())):
        with pytest.raises(InputError):
            check_channel(channel, profile)


@pytest.fixture
def own(tmp_path):
    """A file with functions of the user's own, some of them bad."""
    path = tmp_path / "own.py"
    path.write_text("import numpy as np\n"
                    "def channel(rate, antennas, generator):\n"
                    "    return np.full((rate.subcarriers, antennas, rate.streams), 2j)\n"
                    "def detect(frame, noise):\n"
                    "    return np.linalg.solve(frame.triangles, frame.samples[..., None])[..., 0]\n"
                    "def short(*words): return np.zeros(3)\n"
                    "def text(*words): return 'text'\n"
                    "def infinite(frame, noise): return frame.samples + np.inf\n"
                    "def fails(*words): raise ValueError('not today')\n"
                    "number = 3\n")
    return path


def test_functions_of_the_users_own(own):
    rate, random = Rate(20, 8), np.random.default_rng(1)
    assert (draw(f"{own}:channel", rate, 2, 0.0, (), random) == 2j).all()
    for name, said in (("short", "gave an array of shape (3,), and (56, 2, 2) is asked for"), ("text", "gave no array of numbers"),
                       ("fails", ": ValueError: not today"), ("missing", "has no function missing"), ("number", "has no function number")):
        with pytest.raises(InputError, match=said.replace("(", r"\(").replace(")", r"\)")):
            draw(f"{own}:{name}", rate, 2, 0.0, (), random)
    with pytest.raises(InputError, match="can't be read: No such file"):
        plugs.load(f"{own.parent}/none.py:f")
    (own.parent / "bad.py").write_text("def f(:\n")
    with pytest.raises(InputError, match="bad.py: SyntaxError"):
        plugs.load(f"{own.parent}/bad.py:f")
    plugs.keep({"elsewhere.py:f": "def f(): return 5\n"})
    assert plugs.load("elsewhere.py:f")() == 5 and plugs.digest("elsewhere.py:f") == plugs.digest("elsewhere.py:f")


def test_detectors_decide(own, radio):
    """A function, a command and what is built in give the same where they are the same detector."""
    setting, random = Setting(mcs=11, length=60), np.random.default_rng(2)
    measured = received_frame(setting, 20.0, random_symbols(setting.rate, 60, random), random)
    from mizgaure import capture

    frames = capture([measured] * 2).frames
    octets = octets_of(frames)
    command = f"{shlex.quote(sys.executable)} -m mizgaure zero-forcing -"
    with pytest.MonkeyPatch.context() as patch:
        patch.setenv("PYTHONPATH", str(TOP / "tools" / "src"))
        decisions = [Detector.of(f"zf={words}").decide(frames, octets, [1.0, 1.0]) for words in ("zero-forcing", f"{own}:detect", command)]
    data = ~setting.rate.is_pilot
    wanted = zero_forcing(frames[0]).points.reshape(frames[0].samples.shape)
    for found in decisions:
        assert len(found) == 2 and (found[0][:, data] == wanted[:, data]).all() and (found[1] == found[0]).all()
    # What was decided is what the program finds in a capture made of it.
    again = radio.detect(octets_of([decided(frames[0], wanted)]))[0]
    assert (again.points.reshape(wanted.shape) == wanted).all() and (again.distance == 0).all()


@pytest.mark.parametrize("text, error, said", [
    ("zero-forcing", InputError, "a detector is given as NAME=FILE.py:FUNCTION or NAME=COMMAND, and not as zero-forcing"),
    ("=x", InputError, "a detector is given as"),
    ("reference=x", InputError, "reference is the name of the program's own detector"),
    ("a='x", InputError, "the command of the detector a can't be read: No closing quotation"),
    ("a=/nowhere/none", ProgramError, "the detector a: /nowhere/none can't be run: No such file or directory"),
    ("a=false", ProgramError, "the detector a ended with status 1"),
    ("a=echo job 0 0 0 1 0 1 0", InputError, "the detector a: line 1 has 2 streams, and frame 0 has 1"),
    ("a=echo job 0 9 0 1 0", InputError, "the detector a: it answers a job of frame 0 that its capture doesn't have"),
    ("a=echo job 1 0 0 1 0", InputError, "the detector a: it answers a job of a frame that its capture doesn't have"),
    ("a=echo what", InputError, "the detector a: line 1 is no answer to a job or a frame: 'what'"),
    ("a={own}:infinite", InputError, "gave numbers that aren't finite"),
])
def test_detectors_that_fail(own, text, error, said):
    frame = random_frame(Rate(20, 0), 1, seed=1)
    with pytest.raises(error) as raised:
        Detector.of(text.format(own=own)).decide([frame], octets_of([frame]), [1.0])
    assert said in str(raised.value)


def test_an_unanswered_job_counts_as_a_received_zero():
    frame = random_frame(Rate(20, 0), 1, seed=1)
    (points,) = Detector.of("a=echo job 0 0 3 1 0").decide([frame], octets_of([frame]), [1.0])
    assert points[0, 3, 0] == 1 and (np.delete(points.reshape(-1), 3) == -1).all()
