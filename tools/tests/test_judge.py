"""The judge: planted ties and errors are found, and nothing else is."""

import io
import json
import tracemalloc
from contextlib import contextmanager

import numpy as np
import pytest
from conftest import VECTORS, octets_of, random_frame, vectors

from mizgaure import InputError, Rate, judge, read_answers, read_htcp
from mizgaure.answers import FrameAnswer
from mizgaure.chain import encode, symbol_landing
from mizgaure.distances import distances, on_grid, zero_forcing
from mizgaure.judge import Counts, compared, judged
from mizgaure.rates import scrambling_sequence

SMALL = VECTORS / "jobs" / "small-mcs09.htcp"


def lines_of(jobs, number=0):
    """Answers as another receiver writes them."""
    return b"".join(b"job %d %d %d %s\n" % (number, s, c, b" ".join(b"%d %d" % (int(p.real), int(p.imag)) for p in vector))
                    for s, c, vector in zip(jobs.symbol, jobs.carrier, jobs.points))


def kept(path):
    """The reference of a vector, and its one record of jobs."""
    reference = path.with_suffix(".detect").read_bytes()
    return reference, next(iter(read_answers(reference)))


@pytest.mark.parametrize("path", [p for p in vectors(".detect") if b"job" in p.values[0].read_bytes()][::5])
def test_the_reference_is_the_same_as_itself(path):
    capture, text = path.with_suffix(".htcp"), path.read_bytes()
    found = judge(capture, text, reference=text)
    counts = found.job_counts
    assert found.is_clean and counts["same"] == sum(counts.values()) == text.count(b"job") and found.unanswered == found.misstated == 0


def planted():
    """Answers to a capture of many ties: another vector as near where there is one, errors on three jobs."""
    reference, jobs = kept(SMALL)
    (frame,) = read_htcp(SMALL)
    grid = np.array(np.meshgrid(*[[-1 - 1j, -1 + 1j, 1 - 1j, 1 + 1j]] * 2, indexing="ij")).reshape(2, -1).T
    points, expected = jobs.points.copy(), {}
    for n in range(len(jobs)):
        place = jobs.symbol[n : n + 1].repeat(len(grid)), jobs.carrier[n : n + 1].repeat(len(grid))
        every = distances(frame, *place, grid)
        allowed = on_grid(frame.rate, *place, grid)
        expected[n] = ("same", jobs.distance[n])
        others = [g for g in np.flatnonzero(allowed & (every == jobs.distance[n])) if (grid[g] != jobs.points[n]).any()]
        farther = np.flatnonzero(allowed & (every > jobs.distance[n]))
        if n % 9 == 4 and farther.size:
            points[n], expected[n] = grid[farther[0]], ("worse", every[farther[0]])
        elif others:
            points[n], expected[n] = grid[others[0]], ("tie", jobs.distance[n])
    points[7], expected[7] = -jobs.points[7], ("outside", -1)  # a pilot
    points[50, 0], expected[50] = 3, ("outside", -1)
    jobs.points = points
    return reference, jobs, expected


def test_planted_ties_and_errors():
    reference, jobs, expected = planted()
    mixed = lines_of(jobs).splitlines(keepends=True)
    np.random.default_rng(1).shuffle(mixed)
    found = judge(SMALL, b"".join(mixed), reference=reference)
    (verdicts,) = found.jobs
    order = np.lexsort((verdicts.carrier, verdicts.symbol))
    got = [(str(verdicts.verdict[n]), int(verdicts.distance[n])) for n in order]
    assert got == [(verdict, int(distance)) for verdict, distance in expected.values()]
    counts = found.job_counts
    assert counts["tie"] >= 1 and counts["worse"] >= 3 and counts["outside"] == 2 and not found.is_clean


def test_ties_alone_are_clean():
    reference, jobs, expected = planted()
    ties = np.array([verdict == "tie" for verdict, _ in expected.values()])
    jobs.symbol, jobs.carrier, jobs.points = jobs.symbol[ties], jobs.carrier[ties], jobs.points[ties]
    found = judge(SMALL, lines_of(jobs), reference=reference)
    assert found.is_clean and found.job_counts["tie"] == ties.sum() > 0 and found.unanswered == 56 - ties.sum()


def test_nothing_but_the_same_distance_is_a_tie():
    """Distances of a job differ by multiples of 4, so one above the least never comes; it would be worse all the same."""
    least = np.array([0, 10, 2**62, 2**70], object)
    assert compared(least, least).tolist() == ["tie"] * 4
    for more in (1, 4, 2**33):
        assert compared(least + more, least).tolist() == ["worse"] * 4
    assert compared(np.array([5, 6, 9]), np.array([5, 5, 5])).tolist() == ["tie", "worse", "worse"]


def test_the_order_of_lines_makes_no_difference():
    """Also where answers to a frame come behind those of later ones, for which the capture is gone through a second time."""
    frames = [random_frame(Rate(20, 9), 20, seed=seed, noise=250) for seed in range(5)]
    answers = [zero_forcing(frame, number) for number, frame in enumerate(frames)]
    reference = b"".join(line for jobs in answers for line in stated_lines(jobs))
    lines = [line for number, jobs in enumerate(answers) for line in lines_of(jobs, number).splitlines(keepends=True)]
    octets, random = octets_of(frames), np.random.default_rng(1)
    ascending = judge(octets, b"".join(lines), reference=reference)
    assert ascending.job_counts["same"] == len(lines) and ascending.unanswered == 0 and len(ascending.jobs) == 5
    for shuffled in (lines[::-1], lines[1000:] + lines[:1000], random.permutation(lines).tolist()):
        # Small blocks, so that the lines of a frame come late.
        found = judge(octets, Pieces(b"".join(shuffled)), reference=reference)
        assert found.job_counts == ascending.job_counts and found.unanswered == 0
    assert len(found.jobs) > 5  # some came late
    found = judge(octets, Pieces(b"".join(lines) + lines[3]), reference=reference)
    assert told(found) == [f"repeated: line {len(lines) + 1} answers job 0 0 3 a second time"] and found.job_counts == ascending.job_counts
    # A further answer among new ones, at once or late: the first one counts.
    for text, line in ((lines[:9] + [lines[4]] + lines[9:20], 10), (lines[:20] + [lines[559]] + lines[20:30] + [lines[4]], 32),
                       (lines[:20] + [lines[559], lines[30], lines[30]], 23)):
        other = b" ".join([*text[line - 1].split(b" ")[:4], b"-1 -1 -1 -1\n"])
        found = judge(octets, Pieces(b"".join([*text[: line - 1], other, *text[line:]]), 60), reference=reference)
        assert [fault.line for fault in found.faults] == [line] and told(found)[0].endswith("a second time") and not found.is_clean
        assert found.job_counts["same"] == sum(found.job_counts.values()) == len(text) - 1
    found = judge(octets, Pieces(b"job 5 0 0 1 1 1 1\n" + b"".join(lines)), reference=reference)
    assert told(found) == ["misplaced: line 1 answers frame 5, and the capture has 5 frames"] and found.job_counts == ascending.job_counts


def told(found):
    """The lines of a judgement that are no answers."""
    return list(map(str, found.faults))


def test_lines_in_no_order_are_judged_in_one_way_through():
    """Frames of other widths among each other, some lines with a distance, frames of octets between: each frame has one verdict."""
    rates = [Rate(20, mcs) for mcs in (0, 9, 17, 27)] * 6
    frames = [random_frame(rate, 1, seed=seed, noise=250) for seed, rate in enumerate(rates)]
    answers = [zero_forcing(frame, number) for number, frame in enumerate(frames)]
    reference = [line for jobs in answers for line in stated_lines(jobs)]
    words = [line.split(b" ") for line in reference]
    lines = [b" ".join(line if n % 5 else [*line[:4], *line[5:]]) for n, line in enumerate(words)]
    lines += [b"frame %d seed zero\n" % number for number in range(len(frames))]
    reference += [b"frame %d data 0 pilot 0 code 0 seed zero\n" % number for number in range(len(frames))]
    mixed = np.random.default_rng(2).permutation(lines).tolist()
    found = judge(octets_of(frames), b"".join(mixed), reference=b"".join(reference))
    assert [jobs.frame for jobs in found.jobs] == [verdict.frame for verdict in found.frames] == list(range(len(frames)))
    assert found.job_counts["same"] == sum(map(len, answers)) and found.unanswered == found.misstated == 0 and found.is_clean
    numbers = {tuple(map(int, line.split()[1:4])): number for number, line in enumerate(mixed, 1) if line.startswith(b"job")}
    for jobs in found.jobs:  # in the order of their lines
        order = [numbers[jobs.frame, symbol, carrier] for symbol, carrier in zip(jobs.symbol.tolist(), jobs.carrier.tolist())]
        assert order == sorted(order)
    # Faults are told in the order of lines, whatever their widths, and end nothing.
    for first, second in ((b"what\n", b"job 0 0 0 1 x\n"), (b"job 0 0 0 1 x\n", b"what\n")):
        found = judge(octets_of(frames), b"".join([*mixed[:30], first, *mixed[30:60], second]), reference=b"".join(reference))
        assert [(fault.kind, fault.line) for fault in found.faults] == [("unreadable", 31), ("unreadable", 62)]
        assert told(found)[0].endswith(repr(first.decode().strip()))
    again = mixed[:200] + [next(line for line in mixed[:200] if line.startswith(b"job"))]
    found = judge(octets_of(frames), b"".join(again), reference=b"".join(reference))
    assert [(fault.kind, fault.line) for fault in found.faults] == [("repeated", 201)]


def stated_lines(jobs):
    for line, distance in zip(lines_of(jobs, jobs.frame).splitlines(), jobs.distance.tolist()):
        words = line.split()
        yield b" ".join([*words[:4], b"%d" % distance, *words[4:]]) + b"\n"


class Pieces(io.RawIOBase):
    """A stream that gives some octets at a time."""

    def __init__(self, octets, size=10000):
        self.octets, self.size = io.BytesIO(octets), size

    def read(self, count):
        return self.octets.read(self.size)


@pytest.mark.parametrize("rate, noise", [(Rate(20, 9), 300), (Rate(40, 18), 150), (Rate(20, 24), 300), (Rate(20, 3), 500)])
def test_zero_forcing_is_worse_exactly_where_it_is(rate, noise, radio):
    """The verdicts are those of comparing distances that are computed apart, in Python's whole numbers."""
    frames = [random_frame(rate, 20, seed=seed, noise=noise) for seed in range(2)]
    octets = octets_of(frames)
    answers = [zero_forcing(frame, number) for number, frame in enumerate(frames)]
    found = judge(octets, b"".join(lines_of(jobs, number) for number, jobs in enumerate(answers)), radio=radio)
    for frame, jobs, reference, verdicts in zip(frames, answers, radio.detect(octets), found.jobs):
        for n in range(len(jobs)):
            ours = whole_distance(frame, jobs.symbol[n], jobs.carrier[n], jobs.points[n])
            least = int(reference.distance[n])
            same = (jobs.points[n] == reference.points[n]).all()
            assert verdicts.verdict[n] == ("same" if same else "tie" if ours == least else "worse")
            assert verdicts.distance[n] == ours
    worse = found.job_counts["worse"]
    assert worse > 0 if rate.streams > 1 else worse == 0


def whole_distance(frame, symbol, carrier, vector):
    total = 0
    for row in range(frame.rate.streams):
        real, imag = int(frame.samples[symbol, carrier, row].real), int(frame.samples[symbol, carrier, row].imag)
        for column in range(row, frame.rate.streams):
            entry, point = frame.triangles[carrier, row, column], vector[column]
            a, b, i, q = (int(part) for part in (entry.real, entry.imag, point.real, point.imag))
            real, imag = real - a * i + b * q, imag - a * q - b * i
        total += real * real + imag * imag
    return total


def of_frames(stem, folder="rates"):
    path = VECTORS / folder / f"{stem}.htcp"
    reference = path.with_suffix(".detect").read_bytes() + path.with_suffix(".rx").read_bytes()
    answer = next(r for r in read_answers(reference) if isinstance(r, FrameAnswer))
    return path, reference, answer


def test_octets_same_and_wrong():
    path, reference, answer = of_frames("bw0-mcs09")
    found = judge(path, b"frame 0 octets " + answer.octets.hex().upper().encode() + b"\n", reference=reference)
    assert found.is_clean and found.frame_counts == {"same": 1, "tie": 0, "wrong": 0}
    other = bytes([answer.octets[0] ^ 1]) + answer.octets[1:]
    (verdict,) = judge(path, b"frame 0 octets " + other.hex().encode(), reference=reference).frames
    assert verdict.verdict == "wrong" and verdict.code > verdict.least == 0
    for text in (b"frame 0 seed zero\n", b"frame 0 octets " + other[1:].hex().encode()):
        found = judge(path, text, reference=reference)
        assert found.frames[0].verdict == "wrong" and found.frames[0].code is None and not found.is_clean


@pytest.mark.parametrize("flipped, verdict", [(5, "tie"), (4, "wrong")])
def test_octets_as_near_are_a_tie(flipped, verdict):
    """What is received lies half way between two codewords that one data bit sets apart, or a place nearer to the one sent.

    Such codewords differ at ten places, the free distance of the code, so both are at distance 5 and none is nearer, or
    they are at 4 and 6, and no codeword is at a distance between, since all weights of the code are even.
    """
    rate, sent = Rate(20, 0), bytes.fromhex("123456")
    data = np.concatenate((np.zeros(16, np.uint8), np.unpackbits(np.frombuffer(sent, np.uint8), bitorder="little")))
    inputs = np.concatenate((data ^ scrambling_sequence(99)[:40], np.zeros(6, np.uint8)))
    coded, other = encode(rate, inputs), encode(rate, inputs ^ (np.arange(46) == 16 + 9))
    apart = np.flatnonzero(coded != other)
    assert apart.size == 10
    coded[apart[:flipped]] ^= 1
    carrier, _, _ = symbol_landing(rate)
    symbols = rate.symbols(3)
    labels = np.zeros((symbols, 52), int)
    places_ = np.arange(coded.size)
    labels[places_ // 52, carrier[0, places_ % 52]] = coded
    frame = random_frame(rate, 3, seed=1, noise=0)
    frame.triangles[:] = 10
    frame.samples[:, ~rate.is_pilot, 0] = 10 * (2 * labels - 1)
    frame.samples[:, rate.is_pilot] = 10 * rate.pilot_signs(symbols)
    detected = b"".join(b"job 0 %d %d 0 %d 0\n" % (s, c, frame.samples[s, c, 0].real / 10) for s in range(symbols) for c in range(56))
    reference = detected + b"frame 0 data 0 pilot 0 code %d octets 123456\nend 1 frames\n" % flipped
    verdicts = {octets: judge(octets_of([frame]), b"frame 0 octets " + octets, reference=reference).frames[0]
                for octets in (b"123456", b"123656", b"123457")}
    assert [v.verdict for v in verdicts.values()] == ["same", verdict, "wrong"]
    assert verdicts[b"123656"].code == 10 - flipped and verdicts[b"123457"].code > 5


GOOD = b"job 0 0 0 1 1 1 1\n"


@pytest.mark.parametrize("text, said", [
    (b"", "there is no answer to a job or a frame"),
    (b"nonsense\n", "there is no answer to a job or a frame: line 1 is no answer to a job or a frame: 'nonsense'"),
    (b"\nframe 0 octets a\n", "there is no answer to a job or a frame: line 2 is no answer to a job or a frame: 'frame 0 octets a'"),
])
def test_answers_that_are_none(text, said):
    reference, _ = kept(SMALL)
    with pytest.raises(InputError) as caught:
        judge(SMALL, text, reference=reference)
    assert str(caught.value) == said


@pytest.mark.parametrize("text, said", [
    (b"\njob 0 0 0 1 1\n", "misplaced: line 3 has 1 stream, and frame 0 has 2"),
    (b"job 0 0 0 1 1 -1 1\n", "repeated: line 2 answers job 0 0 0 a second time"),
    (b"frame 0 seed zero\nframe 0 seed zero\n", "repeated: line 3 answers frame 0 a second time"),
    (b"job 0 0 56 1 1 1 1\n", "misplaced: line 2 answers job 0 0 56, which the capture doesn't have"),
    (b"job 0 9 0 1 1 1 1\n", "misplaced: line 2 answers job 0 9 0, which the capture doesn't have"),
    (b"job 1 0 0 1 1 1 1\n", "misplaced: line 2 answers frame 1, and the capture has 1 frame"),
    (b"frame 1 octets 00\n", "misplaced: line 2 answers frame 1, and the capture has 1 frame"),
    (b"job 65536 0 0 1 1 1 1\n", "misplaced: line 2 answers frame 65536, and the capture has 1 frame"),
    (b"job 4294967296 0 0 1 1 1 1\n", "misplaced: line 2 answers frame 4294967296, and the capture has 1 frame"),
    (b"job 0 65536 0 1 1 1 1\n", "misplaced: line 2 answers job 0 65536 0, which the capture doesn't have"),
    (b"job 0 0 65536 1 1 1 1\r\n", "misplaced: line 2 answers job 0 0 65536, which the capture doesn't have"),
    (b"job 0 0 0 1 1 1\n", "misplaced: line 2 has 1 stream, and frame 0 has 2"),
    (b"nonsense\n", "unreadable: line 2 is no answer to a job or a frame: 'nonsense'"),
    (b"frame 0 octets a\n", "unreadable: line 2 is no answer to a job or a frame: 'frame 0 octets a'"),
])
def test_one_bad_line_is_told_and_ends_nothing(text, said):
    path, reference = SMALL, SMALL.with_suffix(".detect").read_bytes() + SMALL.with_suffix(".rx").read_bytes()
    found = judge(path, GOOD + text, reference=reference)
    assert told(found) == [said] and not found.is_clean
    assert sum(found.job_counts.values()) == 1 and found.fault_counts[said.partition(":")[0]] == 1 == sum(found.fault_counts.values())


def three_frames(radio):
    """A capture of three frames, the reference's lines of it, and those of its frames alone."""
    octets = octets_of([random_frame(Rate(20, 9), 20, seed=seed, noise=0) for seed in range(3)])
    with radio.text("detect", octets) as detected, radio.text("rx", octets) as received:
        detect, rx = detected.read(), received.read()
    return octets, detect + rx, rx.splitlines(keepends=True)


def test_what_is_missing_is_counted_and_named(here, tmp_path, radio):
    """Jobs and frames alike, and --complete asks for both but for those that --without names."""
    octets, reference, rx = three_frames(radio)
    (tmp_path / "capture").write_bytes(octets)
    (tmp_path / "lines").write_bytes(reference)
    jobs = [line for line in reference.splitlines(keepends=True) if line.startswith(b"job")]
    for theirs, lines, status in (
        (jobs + rx[1:2], [f"missing: frames 0, 2", f"jobs {len(jobs)}: {len(jobs)} same, 0 tie, 0 worse, 0 outside; 0 without an answer",
                          "frames 1: 1 same, 0 tie, 0 wrong; 2 without an answer"], 1),
        (jobs, [f"jobs {len(jobs)}: {len(jobs)} same, 0 tie, 0 worse, 0 outside; 0 without an answer", "frames 0: 3 without an answer"], 1),
        (rx, [f"jobs 0: {len(jobs)} without an answer", "frames 3: 3 same, 0 tie, 0 wrong; 0 without an answer"], 1),
        (jobs + rx, [f"jobs {len(jobs)}: {len(jobs)} same, 0 tie, 0 worse, 0 outside; 0 without an answer",
                     "frames 3: 3 same, 0 tie, 0 wrong; 0 without an answer"], 0),
    ):
        done = here("judge", "capture", "-", "--reference", "lines", given=b"".join(theirs))
        assert done.stdout.decode().splitlines() == lines and done.returncode == 0
        assert here("judge", "capture", "-", "--reference", "lines", "--complete", given=b"".join(theirs)).returncode == status
    for theirs, kind in ((jobs, "frames"), (rx, "jobs")):
        done = here("judge", "capture", "-", "--reference", "lines", "--complete", "--without", kind, given=b"".join(theirs))
        assert done.returncode == 0 and kind.encode() not in done.stdout
    done = here("judge", "capture", "-", "--reference", "lines", "--without", "frames", given=b"".join(rx))
    assert done.returncode == 2 and b"--without frames says that there are no such answers, and there are 3" in done.stderr


def test_what_is_misstated_is_named(here, tmp_path, radio):
    """A distance with its job, the sums of a frame, and the number of frames; only --stated makes the status of it."""
    octets, reference, rx = three_frames(radio)
    (tmp_path / "capture").write_bytes(octets)
    (tmp_path / "lines").write_bytes(reference)
    job = next(line for line in reference.splitlines(keepends=True) if line.startswith(b"job 0 1 5 "))
    words = job.split(b" ")
    _, _, _, data, _, pilot, _, code, *_ = rx[1].split(b" ")
    frame = rx[1].replace(b"data " + data, b"data 7").replace(b"pilot " + pilot, b"pilot 8").replace(b"code " + code, b"code 9")
    text = b" ".join([*words[:4], b"1" + words[4], *words[5:]]) + frame + b"end 7 frames\n"
    distance = words[4].decode()
    done = here("judge", "capture", "-", "--reference", "lines", "--json", "verdicts", given=text)
    assert done.returncode == 0 and done.stdout.decode().splitlines()[:5] == [
        f"misstated: job 0 1 5 states the distance 1{distance}, and that of its vector is {distance}",
        *(f"misstated: frame 1 states {name} {stated}, and it is {true.decode()}"
          for name, stated, true in (("data", 7, data), ("pilot", 8, pilot), ("code", 9, code))),
        "misstated: line 3 says that there are 7 frames, and the capture has 3"]
    assert done.stdout.decode().splitlines()[-1] == "misstated 5"
    records = [json.loads(line) for line in (tmp_path / "verdicts").read_text().splitlines()]
    assert records[0]["stated"] == int("1" + distance) and records[1]["misstated"]["code"] == [9, int(code)]
    assert records[-1]["counts"]["misstated"] == 5 and records[-1]["counts"]["missing"] == [0, 2]
    assert here("judge", "capture", "-", "--reference", "lines", "--stated", given=text).returncode == 1
    assert here("judge", "capture", "-", "--reference", "lines", "--stated", given=job + rx[1] + rx[3]).returncode == 0


def changed(jobs, points=None, carrier=None):
    jobs.points = jobs.points if points is None else points
    jobs.carrier = jobs.carrier if carrier is None else carrier
    return jobs


@pytest.mark.parametrize("said, change", [
    ("I and Q of the answers are swapped", lambda jobs, frame: changed(jobs, jobs.points.imag + 1j * jobs.points.real)),
    ("Q of the answers has the other sign", lambda jobs, frame: changed(jobs, jobs.points.conj())),
    ("the streams stand in the order 3 1 2", lambda jobs, frame: changed(jobs, jobs.points[:, [2, 0, 1]])),
    ("subcarriers are counted in the order of the FFT, from the middle up and then from the lowest one",
     lambda jobs, frame: changed(jobs, carrier=(jobs.carrier + 28) % 56)),
    (None, lambda jobs, frame: changed(jobs, -jobs.points)),
    (None, lambda jobs, frame: zero_forcing(frame)),
])
def test_a_cause_is_told(said, change, radio):
    frame = random_frame(Rate(20, 19), 30, seed=5, noise=250)
    octets = octets_of([frame])
    (jobs,) = radio.detect(octets)
    with radio.text("detect", octets) as lines:
        reference = lines.read()
    found = judge(octets, lines_of(change(jobs, frame)), reference=reference)
    assert found.causes == ([said] if said else []) and not found.is_clean


def test_a_conjugate_channel_is_told(radio):
    """The nearest vectors of a capture whose triangles are conjugate, judged beside the capture."""
    frame = random_frame(Rate(20, 11), 30, seed=6, noise=20)
    turned = random_frame(Rate(20, 11), 30, seed=6, noise=20)
    turned.triangles[:] = turned.triangles.conj()
    (jobs,) = radio.detect(octets_of([turned]))
    found = judge(octets_of([frame]), lines_of(jobs), radio=radio)
    assert found.causes == ["the answers are nearest for the conjugate channel"]


def test_the_causes_of_wrong_octets(radio):
    octets, reference, rx = three_frames(radio)
    reverse = bytes(int(f"{octet:08b}"[::-1], 2) for octet in range(256))
    lines = [line.split(b" ") for line in rx[:3]]
    turned = [b"frame %d octets %s\n" % (n, bytes.fromhex(line[-1].decode()).translate(reverse).hex().encode()) for n, line in enumerate(lines)]
    assert judge(octets, b"".join(turned), reference=reference).causes == ["the bits of each octet are reversed"]
    shifted = [b"frame %d octets %s" % (n + 1, line[-1]) for n, line in enumerate(lines)]
    found = judge(octets, b"".join(shifted), reference=reference)
    assert found.causes == ["frames seem to be numbered from 1"] and found.missing == [0] and found.fault_counts["misplaced"] == 1
    assert judge(octets, b"".join(shifted[:2]), reference=reference).causes == []


def test_lines_may_end_as_on_other_systems():
    reference, jobs = kept(SMALL)
    text = lines_of(jobs)
    assert judge(SMALL, text.replace(b"\n", b"\r\n"), reference=reference).job_counts["same"] == len(jobs)


def test_little_is_held_where_frames_ascend(tmp_path):
    """Of 40 frames no more than a few are in memory, and where none ascends no more than their answers in small types.

    Nor is a reference held that is kept in a file.
    """
    frames = [random_frame(Rate(40, 25), 400, seed=seed, noise=0) for seed in range(40)]
    octets, size = octets_of(frames), 0
    reference, lines = [], []
    for number, frame in enumerate(frames):
        jobs = zero_forcing(frame, number)
        reference += stated_lines(jobs)
        lines += lines_of(jobs, number).splitlines(keepends=True)
        size += len(jobs)
    path_like = io.BytesIO(b"".join(reference))

    def peak(text, **kept):
        path_like.seek(0)
        tracemalloc.start()
        counts = Counts()
        for _ in judged(octets, text, counts, **(kept or {"radio": Shown(path_like)})):
            pass
        held = tracemalloc.get_traced_memory()[1]
        tracemalloc.stop()
        assert counts.job_counts["same"] == size
        return held

    (tmp_path / "kept").write_bytes(b"".join(reference))
    assert size == 40 * 114 * 8 and peak(b"".join(lines)) < 12e6 and peak(b"".join(lines), reference=tmp_path / "kept") < 12e6
    assert peak(b"".join(np.random.default_rng(1).permutation(lines).tolist())) < 12e6 + 60 * size


class Shown:
    """A program whose detect says what it is given, frame by frame."""

    def __init__(self, text):
        self.text = text

    @contextmanager
    def answers(self, word, source):
        self.text.seek(0)
        yield read_answers(self.text)


def test_a_reference_of_another_capture_is_refused():
    reference, jobs = kept(VECTORS / "jobs" / "even-mcs09.htcp")
    with pytest.raises(InputError, match="the reference isn't that of this capture"):
        judge(SMALL, lines_of(jobs), reference=reference)


def test_the_command(command, tmp_path):
    reference, jobs, expected = planted()
    (tmp_path / "theirs").write_bytes(lines_of(jobs))
    done = command("judge", SMALL, "theirs", "--json", "verdicts.jsonl", "--list", 1)
    assert done.returncode == 1 and done.stderr == b""
    first, sums, last = done.stdout.decode().splitlines()
    assert first.startswith("outside: job 0 0 7 is outside its grid")
    verdicts = [verdict for verdict, _ in expected.values()]
    counted = ", ".join(f"{verdicts.count(v)} {v}" for v in ("same", "tie", "worse", "outside"))
    assert last == "frames 0: 1 without an answer" and sums == f"jobs 56: {counted}; 0 without an answer"
    records = [json.loads(line) for line in (tmp_path / "verdicts.jsonl").read_text().splitlines()]
    assert [record["verdict"] for record in records[:-1]] == verdicts and records[-1]["counts"]["jobs"]["tie"] == verdicts.count("tie")
    again = command("judge", SMALL, "theirs", "--json", "verdicts.jsonl")
    assert again.returncode == 2 and b"is there already" in again.stderr
    text = reference.replace(b"job 0 0 3 ", b"job 0 0 3 1")  # another distance than that of its vector
    done = command("judge", SMALL, "-", given=text)
    assert done.returncode == 0 and done.stdout.decode().splitlines()[1:] == [
        "jobs 56: 56 same, 0 tie, 0 worse, 0 outside; 0 without an answer", "frames 0: 1 without an answer", "misstated 1"]
    part = b"".join(text.splitlines(keepends=True)[:20])
    assert command("judge", SMALL, "-", given=part).returncode == 0
    assert command("judge", SMALL, "-", "--complete", given=part).returncode == 1
