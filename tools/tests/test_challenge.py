"""The standard's receiver tests: levels of recordings, and verdicts on answers."""

import json

import numpy as np
import pytest
from air import samples_in
from conftest import TOP

from mizgaure import read_httx
from mizgaure.air.challenge import Challenge, Outcome
from mizgaure.air.limits import REJECTION, REJECTION_FAR, SENSITIVITY_LEVELS
from mizgaure.packets import Packet, Radiotap, has_good_fcs, write_pcap


def decibels(samples):
    return 10 * np.log10(np.mean(np.abs(samples) ** 2))


@pytest.mark.parametrize("words, name, level, over", [
    (["sensitivity", "--mcs", "0"], "sensitivity-20-mcs00", -82, 1), (["sensitivity", "--mcs", "7", "--full-scale", "-50"], "sensitivity-20-mcs07", -64, 1),
    (["sensitivity", "--mcs", "12", "--bandwidth", "40"], "sensitivity-40-mcs12", -67, 2), (["adjacent", "--mcs", "2"], "adjacent-20-mcs02", -74, 2)])
def test_levels_of_recordings(here, tmp_path, words, name, level, over):
    """Packets and noise in dBm of their band, by the annotations; a neighbour is as much stronger as the clause says."""
    done = here("challenge", words[0], "lab", *words[1:], "--packets", 2, "--length", 400)
    full_scale = float(words[-1]) if "--full-scale" in words else -20
    assert done.returncode == 0 and done.stdout.decode() == f"lab/{name}: 2 packets of 400 octets at {level} dBm, full scale {full_scale:g} dBm\n"
    meta = json.loads((tmp_path / "lab" / f"{name}.sigmf-meta").read_text())
    channels = meta["global"]["core:num_channels"]
    samples = samples_in((tmp_path / "lab" / f"{name}.sigmf-data").read_bytes(), channels).astype(complex)
    packet = meta["annotations"][0]
    noise = -91 + 10 * np.log10(over)
    front = samples[:, : packet["core:sample_start"] - 10]
    inside = samples[:, packet["core:sample_start"] : packet["core:sample_start"] + packet["core:sample_count"]]
    if words[0] == "sensitivity":
        assert decibels(front) + full_scale == pytest.approx(noise, abs=0.5)
        assert 10 * np.log10(np.mean(np.abs(inside) ** 2) - np.mean(np.abs(front) ** 2)) + full_scale == pytest.approx(level, abs=0.6)
    else:
        # The lower half of the band has the packet, and the upper one the neighbour.
        powers = np.abs(np.fft.fft(inside, axis=1)) ** 2 / inside.shape[1] ** 2
        count = inside.shape[1] // 2
        lower, upper = powers[:, count:].sum(), powers[:, :count].sum()
        assert 10 * np.log10(lower) + full_scale == pytest.approx(level, abs=1.0)
        assert 10 * np.log10(upper / lower) == pytest.approx(REJECTION[2], abs=1.5)
    frames = list(read_httx(tmp_path / "lab" / f"{name}.httx"))
    assert len({frame.octets for frame in frames}) == 2 and all(len(frame.octets) == 400 and has_good_fcs(frame.octets) for frame in frames)


def test_a_device_passes(here, tmp_path):
    """The way of a laboratory, with our own receiver as the device."""
    assert here("challenge", "sensitivity", "lab", "--mcs", "0,7", "--packets", 4, "--length", 100).returncode == 0
    assert here("receive", "lab/sensitivity-20-mcs07", "-o", "lab/sensitivity-20-mcs07.pcapng").returncode == 0
    done = here("challenge", "judge", "lab", "--json", "found.jsonl")
    lines = done.stdout.decode().splitlines()
    assert done.returncode == 0 and lines[0] == "sensitivity-20-mcs00, clause 20.3.21.1, -82 dBm: no verdict: there are no answers"
    assert lines[1].startswith("sensitivity-20-mcs07, clause 20.3.21.1, -64 dBm: packet error rate 0 of 4 = 0 (95 %: 0 to 0.49), limit 0.1: no verdict")
    records = [json.loads(line) for line in (tmp_path / "found.jsonl").read_text().splitlines()]
    assert [record["right"] for record in records] == [None, 4] and records[0]["per"] is None and records[1]["level"] == -64
    assert here("challenge", "judge", "lab", "--complete").returncode == 1


@pytest.mark.parametrize("right, verdict", [(40, "pass"), (33, None), (20, "fail")])
def test_verdicts_on_answers(here, tmp_path, right, verdict):
    """By lines and by pcap, with and without FCS, in any order, with an answer that is none of the packets."""
    assert here("challenge", "sensitivity", "lab", "--mcs", "3", "--packets", 40, "--length", 30).returncode == 0
    octets = [frame.octets for frame in read_httx("lab/sensitivity-20-mcs03.httx")][:right][::-1]
    lines = tmp_path / "lab" / "sensitivity-20-mcs03.lines"
    lines.write_bytes(b"".join(b"frame %d octets %s\n" % (n, each.hex().encode()) for n, each in enumerate(octets)) + b"frame 99 seed zero\nend 40 frames\n")
    texts = [here("challenge", "judge", "lab")]
    lines.unlink()
    write_pcap("lab/sensitivity-20-mcs03.pcap", [Packet(each[:-4], Radiotap(has_fcs=False)) for each in [*octets, b"other octets"]])
    texts.append(here("challenge", "judge", "lab"))
    for done in texts:
        assert done.returncode == (verdict == "fail") and f"packet error rate {40 - right} of 40" in done.stdout.decode()
        assert done.stdout.decode().endswith(f": {verdict or 'no verdict: the interval has the limit in it'}\n")
    assert b"; 1 answers are none of the packets" in texts[1].stdout


@pytest.mark.parametrize("test, bandwidth, rate, above, apart",
                         [("nonadjacent", 20, 100, 24, 40), ("adjacent", 40, 120, 8, 40), ("nonadjacent", 40, 200, 24, 80)])
def test_neighbours_farther_off(here, tmp_path, test, bandwidth, rate, above, apart):
    """At MCS 3 the packets stand in the middle, the neighbour as many MHz above as the channels are apart, and nothing between; the receiver passes."""
    assert here("challenge", test, "lab", "--mcs", 3, "--bandwidth", bandwidth, "--packets", 3, "--length", 700).returncode == 0
    name, level = f"{test}-{bandwidth}-mcs03", -71 if bandwidth == 20 else -68
    meta = json.loads((tmp_path / "lab" / f"{name}.sigmf-meta").read_text())
    samples = samples_in((tmp_path / "lab" / f"{name}.sigmf-data").read_bytes(), 1).astype(complex)
    packet = meta["annotations"][0]
    inside = samples[:, packet["core:sample_start"] : packet["core:sample_start"] + packet["core:sample_count"]]
    powers = np.mean(np.abs(np.fft.fft(inside, axis=1)) ** 2, axis=0) / inside.shape[1] ** 2
    offsets = np.fft.fftfreq(powers.size) * rate
    within = lambda middle: 10 * np.log10(powers[np.abs(offsets - middle) < bandwidth / 2].sum()) - 20  # noqa: E731
    assert meta["global"]["core:sample_rate"] == rate * 1e6 and within(0) == pytest.approx(level, abs=1)
    assert within(apart) == pytest.approx(level + above, abs=1.5)
    if test == "nonadjacent":
        assert within(apart / 2) < level - 8
    assert here("receive", f"lab/{name}", "-o", f"lab/{name}.pcapng").returncode == 0
    clause = f"20.3.21.{2 if test == 'adjacent' else 3}"
    assert here("challenge", "judge", "lab").stdout.decode().startswith(f"{name}, clause {clause}, {level} dBm: packet error rate 0 of 3")


def test_the_rejection_of_both_channels():
    """Table 20-23: a nonadjacent neighbour may be 16 dB stronger than an adjacent one."""
    assert [far - near for near, far in zip(REJECTION, REJECTION_FAR)] == [16] * 8
    assert Challenge("nonadjacent", 40, 15, 1, 30, 0.0).level == -58 and Challenge("nonadjacent", 20, 15, 1, 30, 0.0).neighbour == 14


def test_refusals(here, tmp_path):
    for words, said in ((["judge", "none"], "none/challenge.jsonl can't be read: No such file or directory"),
                        (["judge", "lab", "--mcs", "3"], "--mcs is said of recordings that are written"),
                        (["sensitivity", "lab", "--complete"], "--complete, --csv and --json are said of judge"),
                        (["sensitivity", "lab", "--length", "29"], "a packet has 30 octets at least, and not 29")):
        done = here("challenge", *words)
        assert done.returncode == 2 and done.stderr.decode() == f"mizgaure: {said}\n"
    assert not (tmp_path / "lab").exists()
    (tmp_path / "lab").mkdir()
    (tmp_path / "lab" / "challenge.jsonl").write_text("{}\n")
    assert here("challenge", "judge", "lab").stderr == b"mizgaure: lab/challenge.jsonl: it isn't what mizgaure challenge writes\n"


def test_the_levels_of_the_clause():
    """At 40 MHz 3 dB more, and a neighbour is tried 3 dB above the sensitivity."""
    assert [wide - narrow for narrow, wide in zip(SENSITIVITY_LEVELS[20], SENSITIVITY_LEVELS[40])] == [3] * 8
    assert Challenge("adjacent", 20, 15, 1, 30, 0.0).level == -61 and Challenge("sensitivity", 20, 15, 1, 30, 0.0).level == -64
    assert Outcome(Challenge("sensitivity", 20, 0, 100, 30, 0.0), 95).verdict is None


def test_the_numbers_of_the_pages():
    """docs/TRANSMITTERS.md has the levels and rejections of the table, and docs/RECORDINGS.md the ratio that a subcarrier has at each level.

    Of 20 MHz with noise of -91 dBm a packet fills 56 of 64 subcarriers, and of 40 MHz with 3 dB more 114 of 128.
    """
    page = (TOP / "docs" / "TRANSMITTERS.md").read_text()
    for numbers, words in ((SENSITIVITY_LEVELS[20], "4,096 octets wrong at {}, at 40 MHz 3 dB higher"), (REJECTION, "beside a neighbour {} dB stronger"),
                           (REJECTION_FAR, "two channels away, {} dB stronger")):
        said = ", ".join(map(str, numbers))
        assert words.format(said + " dBm" if "octets" in words else said) in page
    rows = [row.split(" | ") for row in (TOP / "docs" / "RECORDINGS.md").read_text().splitlines() if row.startswith(("| 20 MHz |", "| 40 MHz |"))]
    told = {(row[0].strip("| "), row[1]): float(row[2]) for row in rows if len(row) == 8}
    names = ["BPSK 1/2", "QPSK 1/2", "QPSK 3/4", "16-QAM 1/2", "16-QAM 3/4", "64-QAM 2/3", "64-QAM 3/4", "64-QAM 5/6"]
    ratios = {("20 MHz", name): level + 91 + 10 * np.log10(64 / 56) for name, level in zip(names, SENSITIVITY_LEVELS[20])}
    ratios["40 MHz", names[-1]] = SENSITIVITY_LEVELS[40][-1] + 88 + 10 * np.log10(128 / 114)
    assert told == pytest.approx(ratios, abs=0.051)


@pytest.mark.parametrize("bandwidth", [20, 40])
@pytest.mark.parametrize("test, above", [("sensitivity", None), ("adjacent", REJECTION), ("nonadjacent", REJECTION_FAR)])
def test_each_mcs_has_its_level_and_neighbour(bandwidth, test, above):
    """At 1 to 4 streams as at one: 4,096 octets, the level of the clause, 3 dB more beside a neighbour."""
    for mcs in range(32):
        made = Challenge(test, bandwidth, mcs, 100, 4096, -20.0)
        assert made.level == SENSITIVITY_LEVELS[bandwidth][mcs % 8] + (0 if above is None else 3)
        assert made.neighbour is None if above is None else made.neighbour == above[mcs % 8]
        assert made.limit.clause == {"sensitivity": "20.3.21.1", "adjacent": "20.3.21.2", "nonadjacent": "20.3.21.3"}[test]
