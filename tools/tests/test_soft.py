"""The judge of soft decoders, sweeps of both decoders, and soft decisions from recordings."""

import io
import json
import re

import air
import numpy as np
import pytest
from conftest import TOP, VECTORS, vectors

from mizgaure import InputError, MeasuredFrame, Rate, SentFrame, SoftAnswer, capture, read_answers, read_htcp, read_htsy, read_httx, write_httx
from mizgaure.air.record import Spool, packets_in
from mizgaure.air.recording import Layout
from mizgaure.air.simulate import Scene
from mizgaure.detectors import SOFT, Detector
from mizgaure.distances import residuals
from mizgaure.packets import with_fcs
from mizgaure.soft import OTHER, SAME, SoftCounts, SoftVerdict, judged_soft
from mizgaure.sweep import Setting, random_symbols, sweep

NO_FAULTS = {"unreadable": 0, "repeated": 0, "misplaced": 0}
SOFT_LINES = b"soft 0 cost 7 octets a5\nsoft 1 cost 0 seed zero\nsoft 2 cost 90 octets 0102\nend 3 frames\n"


def judged(answers, reference=SOFT_LINES, capture=b""):
    counts = SoftCounts()
    return list(judged_soft(capture, answers, counts, reference=reference)), counts


@pytest.fixture
def soft(radio):
    if not radio.knows("soft"):
        pytest.skip("the program has no command soft")
    return radio


@pytest.mark.parametrize("path", vectors(".soft")[::7])
def test_the_lines_are_read(path):
    answers = read_answers(path)
    found = list(answers)
    lines = [f"soft {answer.frame} cost {answer.cost} " + ("seed zero" if answer.octets is None else f"octets {answer.octets.hex()}") for answer in found]
    assert all(isinstance(answer, SoftAnswer) for answer in found) and answers.last is not None
    assert path.read_text().splitlines()[:-1] == lines


def test_same_and_other():
    found, counts = judged(b"frame 2 octets 0102\nframe 0 octets A5\n")
    assert found == [SoftVerdict(0, SAME, 7), SoftVerdict(2, SAME, 90)] and counts == SoftCounts(same=2, missing=[1])
    found, counts = judged(b"frame 0 data 1 pilot 2 code 3 octets a4\r\nsoft 1 cost 0 octets 00\nsoft 2 cost 90 seed zero\nend 3 frames\n")
    assert [verdict.verdict for verdict in found] == [OTHER] * 3 and counts == SoftCounts(other=3)
    found, counts = judged(b"soft 0 cost 8 octets a5\nsoft 1 cost 0 seed zero\n")
    assert found == [SoftVerdict(0, SAME, 7, True), SoftVerdict(1, SAME, 0)]
    assert counts.misstatements == ["frame 0 states another cost than 7"] and counts.record() == {"counts": {
        "frames": {"same": 2, "other": 0}, "unanswered": 1, "missing": [2], "misstated": 1, "lines": NO_FAULTS, "causes": []}}


@pytest.mark.parametrize("answers, said", [
    (b"what\n", "line 1 is no answer to a frame: 'what'"), (b"frame 0 octets a\n", "line 1 is no answer"), (b"job 0 0 0 1 0\n", "line 1 is no answer"),
    (b"", "there is no answer to a frame"),
])
def test_answers_that_are_none(answers, said):
    with pytest.raises(InputError, match=said):
        judged(answers)


@pytest.mark.parametrize("answers, said", [
    (b"what\nframe 0 octets a5\n", "unreadable: line 1 is no answer to a frame: 'what'"),
    (b"soft 0 cost 7 octets a5\nframe 0 seed zero\n", "repeated: line 2 answers frame 0 a second time"),
    (b"frame 0 octets a5\nframe 3 octets a5\n", "misplaced: line 2 answers frame 3, and the capture has 3 frames"),
])
def test_one_bad_line_is_told_and_ends_nothing(answers, said):
    found, counts = judged(answers)
    assert list(map(str, counts.faults)) == [said] and not counts.is_clean and counts.same == 1 and len(found) == 2


def test_the_causes_of_other_octets():
    assert judged(b"frame 1 seed zero\nframe 2 octets 8040\n")[1].causes == ["the bits of each octet are reversed"]
    found = judged(b"frame 1 octets a5\nframe 2 seed zero\nframe 3 octets 0102\nend 4 frames\n")[1]
    assert found.causes == ["frames seem to be numbered from 1"] and found.misstatements == ["line 4 says that there are 4 frames, and the capture has 3"]


def test_a_reference_of_another_kind():
    with pytest.raises(InputError, match="the reference has a line that isn't one of radio soft"):
        judged(b"frame 0 octets a5\n", (VECTORS / "worked" / "a5.rx").read_bytes())


def test_the_command(here, tmp_path):
    (tmp_path / "kept").write_bytes(SOFT_LINES)
    done = here("judge", "-", "theirs", "--soft", "--reference", "kept")
    assert done.returncode == 2  # there is no such file
    (tmp_path / "theirs").write_bytes(b"frame 0 octets a5\nframe 2 octets 0103\n")
    done = here("judge", "capture", "theirs", "--soft", "--reference", "kept", "--json", "verdicts")
    assert done.returncode == 1 and done.stdout.decode().splitlines() == [
        "other: frame 2 has other octets, and those of radio soft cost 90", "missing: frame 1", "frames 2: 1 same, 1 other; 1 without an answer"]
    records = [json.loads(line) for line in (tmp_path / "verdicts").read_text().splitlines()]
    assert records == [{"frame": 0, "verdict": "same", "cost": 7}, {"frame": 2, "verdict": "other", "cost": 90},
                       {"counts": {"frames": {"same": 1, "other": 1}, "unanswered": 1, "missing": [1], "misstated": 0, "lines": NO_FAULTS, "causes": []}}]
    (tmp_path / "theirs").write_bytes(b"frame 0 octets a5\n")
    assert here("judge", "capture", "theirs", "--soft", "--reference", "kept").returncode == 0
    assert here("judge", "capture", "theirs", "--soft", "--reference", "kept", "--complete").returncode == 1


def test_the_program_beside_itself(soft, here):
    path = VECTORS / "rates" / "bw0-mcs11.htcp"
    done = here("judge", path, path.with_suffix(".soft"), "--soft")
    assert done.returncode == 0 and done.stdout == b"frames 1: 1 same, 0 other; 0 without an answer\n"
    spoiled = here("judge", "-", path.with_suffix(".soft"), "--soft", given=path.read_bytes()[:-1])
    assert spoiled.returncode == 2 and b"standard input: refused Truncated at" in spoiled.stderr


@pytest.mark.parametrize("path", vectors(".channel")[::9])
def test_without_noise_octets_cost_nothing(path, soft):
    sent = [frame.octets for frame in read_httx(path.with_suffix(".httx"))]
    assert [(answer.cost, answer.octets) for answer in soft.soft(path)] == [(0, octets) for octets in sent]


def test_a_sweep_of_both_decoders(soft):
    """On the same captures weights lose fewer frames than signs, as the gain leaves most of them uncut."""
    setting = Setting(mcs=3, length=40, snr=(9.0, 30.0), frames=20, channel="awgn", seed=5)
    found = sweep(setting, soft, 1, detectors=[Detector(SOFT, SOFT)])
    by_weights = found.rates_of(SOFT)
    assert [rates.frames.trials for rates in by_weights] == [20, 20] and not by_weights[0].symbols.trials
    assert by_weights[0].frames.events < found.rates[0].frames.events and found.rates[1].frames.events == by_weights[1].frames.events == 0
    line = list(found.lines(0))[1]
    assert line.strip().startswith("soft: PER ") and "SER" not in line
    assert {record["detector"] for record in found.records()} == {"reference", "soft"}
    assert sweep(setting, soft, 2, detectors=[Detector.of("soft=soft")]).rates_of(SOFT) == by_weights
    assert np.isfinite(by_weights[0].frames.interval).all()


# recordings

def medians(frames):
    """Of each frame the median diagonal of its data subcarriers that have one above 0."""
    diagonals = (np.einsum("cii->ci", frame.triangles).real[~frame.rate.is_pilot] for frame in frames)
    return [np.median(each[each > 0]) for each in diagonals]


def test_the_gain_for_weights():
    """Typical diagonals are 80, or 160 at rate 5/6, whatever the scale; no part leaves its field; a channel of zeros has no typical one."""
    rate, random = Rate(20, 27), np.random.default_rng(4)
    channel, received = (random.standard_normal((*shape, 2)) @ [1, 1j] for shape in ((56, 4, 4), (rate.symbols(9), 56, 4)))
    frames = [MeasuredFrame(20, 27, 9, scale * channel, scale * received, erased) for scale, erased in ((1e-6, None), (1.0, [1, 7]), (1e6, None))]
    frames.append(MeasuredFrame(20, 27, 9, channel[:, :2], received[..., :2]))  # two of four diagonals are 0
    assert medians(capture(frames, "soft").frames) == pytest.approx([80] * 4, abs=1)
    tight = [MeasuredFrame(20, mcs, 9, channel[:, :, : mcs // 8 + 1], received[: Rate(20, mcs).symbols(9)]) for mcs in (28, 30, 31, 15, 7)]
    assert medians(capture(tight, "soft").frames) == pytest.approx([80, 80, 160, 160, 160], abs=1)  # 160 in 64-QAM at rate 5/6
    lopsided = MeasuredFrame(20, 27, 9, channel * np.where(np.arange(56) == 20, 1e6, 1)[:, None, None], received)
    silent = MeasuredFrame(20, 27, 9, 0 * channel, 0 * received)
    assert (capture([lopsided, silent], "soft").gains == capture([lopsided, silent]).gains).all()
    with pytest.raises(InputError, match="frame 0: the gain is loud, and has to be a number or soft"):
        capture(frames[:1], "loud")


def taken(octets, antennas, gain=None):
    """The frames of all packets of a recording, as a capture."""
    with air.recording_of(octets, Layout("cf32_le", 20e6, antennas)) as recording, Spool(gain=gain) as spool:
        for found in packets_in(recording):
            assert found.left_out is None and spool.add(found) is not None
        made = io.BytesIO()
        spool.write(made)
    return made.getvalue()


def test_weights_of_a_recording_lose_fewer_packets_than_signs(soft):
    """Two streams through fading channels at 16 dB. At the largest gain weights are cut, and decide hardly better than signs."""
    random = np.random.default_rng(1)
    sent = [SentFrame(Rate(20, 11), random.bytes(250), 1 + n) for n in range(24)]
    made = io.BytesIO()
    write_httx(made, sent)
    octets = air.recorded(list(read_htsy(soft.tx(made.getvalue()))), Scene(snr=16.0, offset=13.0, spread=50.0, seed=5), 2)
    largest, fitting = taken(octets, 2), taken(octets, 2, "soft")
    hard, cut, weighed = (sum(answer.octets != frame.octets for answer, frame in zip(answers, sent))
                          for answers in (soft.rx(largest), soft.soft(largest), soft.soft(fitting)))
    assert 3 * weighed < min(hard, cut) and hard >= 6, (hard, cut, weighed)
    assert medians(read_htcp(io.BytesIO(fitting))) == pytest.approx([80] * 24, abs=1)


def test_distances_of_a_recording_are_in_units_of_noise():
    """Two antennas, one with 15 dB more noise: on each subcarrier and in each row it's the gain's square."""
    frame, gain, rate = random_symbols(Rate(20, 9), 700, np.random.default_rng(3)), 16.0, Rate(20, 9)
    samples = air.samples_in(air.recorded([frame], Scene(snr=35.0, spread=100.0, seed=2), 2), 2).copy()
    more = np.random.default_rng(7).standard_normal((2, samples.shape[1])) * np.std(samples[1]) * 10 ** (-20 / 20) / np.sqrt(2)
    samples[1] += more[0] + 1j * more[1]
    (made,) = read_htcp(io.BytesIO(taken(air.octets_in(samples), 2, gain)))
    symbols, carriers = (part.reshape(-1) for part in np.indices(frame.points.shape[:2]))
    rest = residuals(made, symbols, carriers, frame.points[symbols, carriers]).reshape(*frame.points.shape)[:, ~rate.is_pilot]
    noise = np.mean(np.abs(rest) ** 2, axis=0) / gain**2
    assert 0.6 < np.median(noise) < 2 and noise.max() < 12 * noise.min()


def test_soft_decisions_by_the_commands(here, soft, tmp_path, monkeypatch):
    monkeypatch.setenv("MIZGAURE_RADIO", soft.path)
    header = bytes.fromhex("8802" "3000" "0102030405060a0b0c0d0e0f020202020202" "1000" "0000")
    octets = [with_fcs(header + bytes(range(count))) for count in (60, 30)]
    write_httx(tmp_path / "sent.httx", [SentFrame(Rate(20, mcs), row, 33) for mcs, row in zip((9, 2), octets)])
    (tmp_path / "sent.htsy").write_bytes(soft.tx((tmp_path / "sent.httx").read_bytes()))
    assert here("waveform", "sent.htsy", "-o", "air", "--antennas", 2, "--spread", 50, "--snr", 20).returncode == 0
    by_signs = here("receive", "air", "-o", "signs.pcap").stdout.decode().splitlines()
    by_weights = here("receive", "air", "-o", "weights.pcap", "--soft", "--json", "air.jsonl").stdout.decode().splitlines()
    assert (tmp_path / "signs.pcap").read_bytes() == (tmp_path / "weights.pcap").read_bytes()
    assert by_signs == [re.sub(r"; cost \d+;", ";", line) for line in by_weights] != by_weights
    assert here("record", "air", "-o", "air.htcp").returncode == 0
    answers = soft.soft(tmp_path / "air.htcp")
    assert [answer.octets for answer in answers] == octets and medians(read_htcp(tmp_path / "air.htcp")) == pytest.approx([80, 80], abs=1)
    assert [json.loads(line)["cost"] for line in (tmp_path / "air.jsonl").read_text().splitlines()] == [answer.cost for answer in answers]
    assert [f"; cost {answer.cost}; MPDU" in line for answer, line in zip(answers, by_weights)] == [True, True]
    for gain in ("largest", 30):
        assert here("record", "air", "-o", f"{gain}.htcp", "--gain", gain).returncode == 0
    assert all(17 < median < 400 for median in medians(read_htcp(tmp_path / "30.htcp"))) and min(medians(read_htcp(tmp_path / "largest.htcp"))) > 1000
    lines = here("record", "air", "-o", "none.htcp", "--gain", "1e6").stdout.decode().splitlines()
    assert [line.split("; ")[-1] for line in lines[:2]] == ["left out: too large at this gain"] * 2
    assert lines[2] == "2 packets: 0 in the capture; left out: 2 too large at this gain"
    assert b"--gain" in here("record", "air", "-o", "x.htcp", "--gain", "loud").stderr


def test_the_table_of_recordings():
    """Of docs/RECORDINGS.md: weights need less than signs, and at most 2 dB more than over the known channel, at MCS 28 at most 3."""
    ratio = r"([\d.]+) \([^)]+\)"
    row = rf"^\| (\d+) \| ([^|]+) \| (\d) \| [\d,]+ \| {ratio} \| {ratio} \| {ratio} \| {ratio} \| \d: met \|$"
    rows = re.findall(row, (TOP / "docs" / "RECORDINGS.md").read_text(), re.MULTILINE)
    assert [int(found[0]) for found in rows] == [3, 11, 15, 28]
    for mcs, kind, streams, hard, weighed, known, lost in rows:
        rate = Rate(20, int(mcs))
        assert (kind, int(streams)) == (f"{rate.modulation} {rate.coding_rate}", rate.streams)
        assert float(weighed) < float(hard) and abs(float(weighed) - float(known) - float(lost)) < 0.11 and float(lost) <= (3 if rate.mcs == 28 else 2)
