"""Properties of the judge and of the formats, over inputs that hypothesis looks for."""

import io

import numpy as np
import pytest
from conftest import grid_of, octets_of

hypothesis = pytest.importorskip("hypothesis")
from hypothesis import given, settings, strategies as st  # noqa: E402

from mizgaure import (CaptureFrame, FormatError, InputError, LineError, Rate, SentFrame, SymbolsFrame, judge, read_answers, read_htcp,  # noqa: E402
                      read_htsy, read_httx, write_htsy, write_httx)
from mizgaure.answers import job_table, read_line  # noqa: E402

# The same inputs at each run, and no limit of time, since machines differ.
settings.register_profile("tools", derandomize=True, deadline=None, max_examples=60)
settings.load_profile("tools")

SMALL_RATES = st.sampled_from([Rate(20, 0), Rate(20, 1), Rate(20, 8), Rate(20, 9)])
RATES = st.builds(Rate, st.sampled_from([20, 40]), st.integers(0, 31))


@st.composite
def captures(draw, rates=SMALL_RATES, ends=True, length=st.integers(1, 4)):
    """A capture of one or two short frames, with small numbers, zeros and the ends of the fields, and erased subcarriers."""
    frames = []
    for _ in range(draw(st.integers(1, 2))):
        rate, octets = draw(rates), draw(length)
        random = np.random.default_rng(draw(st.integers(0, 2**32)))
        largest = draw(st.sampled_from([1, 3, 200, 32767] if ends else [1, 3, 20]))
        n, carriers, symbols = rate.streams, rate.subcarriers, rate.symbols(octets)
        parts = random.integers(-largest, largest + 1, (2, carriers, n, n))
        triangles = np.triu(parts[0] + 1j * parts[1], 1) + np.eye(n) * random.integers(0, 2 * largest + 1, (carriers, 1, n))
        reach = draw(st.sampled_from([0, 3 * largest, 2**31 - 1] if ends else [3 * largest]))
        samples = random.integers(-reach - (reach > 2**30), reach + 1, (2, symbols, carriers, n))
        erased = random.random(carriers) < draw(st.sampled_from([0, 0.1, 0.9]))
        erased[random.integers(carriers)] = False
        triangles[erased], samples[:, :, erased] = 0, 0
        frames.append(CaptureFrame(rate, octets, triangles, samples[0] + 1j * samples[1], erased))
    return frames


def same(one, other):
    return (one.rate == other.rate and one.length == other.length and np.array_equal(one.triangles, other.triangles)
            and np.array_equal(one.samples, other.samples) and np.array_equal(one.erased, other.erased))


@given(captures(RATES))
def test_a_capture_is_read_as_it_was_written(frames):
    read = list(read_htcp(octets_of(frames)))
    assert len(read) == len(frames) and all(map(same, read, frames))


def ending_of(octets, reader=read_htcp):
    """How reading ends: the frames that came, and the fault."""
    came = 0
    try:
        for _ in reader(octets):
            came += 1
    except FormatError as fault:
        return came, fault
    return came, None


@given(captures(), st.data())
def test_a_capture_that_is_cut_or_longer(frames, data):
    octets = octets_of(frames)
    place = data.draw(st.integers(0, len(octets) - 1))
    came, fault = ending_of(octets[:place])
    assert (fault.kind, fault.offset) == ("Truncated", place) and came < len(frames)
    came, fault = ending_of(octets + bytes([place % 256]))
    assert (fault.kind, fault.offset, came) == ("Trailing", len(octets), len(frames))


@given(st.binary(max_size=60) | st.binary(max_size=60).map(lambda octets: b"HTCP\1" + octets) | st.binary(max_size=60).map(lambda o: b"HTCP\2\0\1" + o),
       st.sampled_from([read_htcp, read_httx, read_htsy]))
def test_any_octets_are_refused_at_an_octet_of_theirs(octets, reader):
    _, fault = ending_of(octets, reader)
    assert fault is None or 0 <= fault.offset <= len(octets)
    if fault is not None and fault.kind not in ("Truncated", "Trailing"):  # what stands behind the field at fault makes no difference
        _, again = ending_of(octets + b"more", reader)
        assert (again.kind, again.offset) == (fault.kind, fault.offset)


@given(st.lists(st.builds(SentFrame, RATES, st.binary(min_size=1, max_size=40), st.integers(1, 127)), max_size=3), st.data())
def test_frames_are_read_as_they_were_written(frames, data):
    made = io.BytesIO()
    write_httx(made, frames)
    read = list(read_httx(made.getvalue()))
    assert [(f.rate, f.octets, f.seed) for f in read] == [(f.rate, f.octets, f.seed) for f in frames]
    place = data.draw(st.integers(0, len(made.getvalue()) - 1))
    _, fault = ending_of(made.getvalue()[:place], read_httx)
    assert (fault.kind, fault.offset) == ("Truncated", place)


@given(RATES, st.integers(1, 20), st.integers(0, 2**32), st.data())
def test_symbols_are_read_as_they_were_written(rate, length, seed, data):
    random = np.random.default_rng(seed)
    points = rate.points[random.integers(0, rate.points.size, (rate.symbols(length), rate.subcarriers, rate.streams))]
    points[:, rate.is_pilot] = rate.pilot_signs(points.shape[0])
    made = io.BytesIO()
    write_htsy(made, [SymbolsFrame(rate, length, points)])
    (read,) = read_htsy(made.getvalue())
    assert np.array_equal(read.points, points)
    place = data.draw(st.integers(11, len(made.getvalue()) - 1))
    octet = data.draw(st.integers(0, 255))
    spoiled = made.getvalue()[:place] + bytes([octet]) + made.getvalue()[place + 1 :]
    _, fault = ending_of(spoiled, read_htsy)
    flat = (place - 11) // 2
    carrier = flat // rate.streams % rate.subcarriers
    point = complex(*np.frombuffer(spoiled[11 + 2 * flat : 13 + 2 * flat], np.int8))
    good = point == points.reshape(-1)[flat] if rate.is_pilot[carrier] else point in set(rate.points.tolist())
    kind = "BadPilot" if rate.is_pilot[carrier] else "BadPoint"
    assert fault is None if good else (fault.kind, fault.offset) == (kind, 11 + 2 * flat)


LEVELS = st.sampled_from([-3, -1, 0, 1, 2, 3])


def whole_distance(frame, symbol, carrier, vector):
    """The distance in Python's whole numbers."""
    total = 0
    for row in range(frame.rate.streams):
        sample = frame.samples[symbol, carrier, row]
        real, imag = int(sample.real), int(sample.imag)
        for column in range(row, frame.rate.streams):
            entry = frame.triangles[carrier, row, column]
            (a, b), (i, q) = (int(entry.real), int(entry.imag)), vector[column]
            real, imag = real - a * i + b * q, imag - a * q - b * i
        total += real * real + imag * imag
    return total


def grid_of_job(frame, symbol, carrier):
    """All vectors of a job in the order that decides ties, as pairs of levels."""
    rate = frame.rate
    if rate.is_pilot[carrier]:
        number = int(np.count_nonzero(rate.is_pilot[:carrier]))
        return [[(int(sign), 0) for sign in rate.pilot_signs(1, symbol)[0, number]]]
    return [[(int(p.real), int(p.imag)) for p in vector] for vector in grid_of(rate)]


@settings(max_examples=40)
@given(captures(ends=False), st.data())
def test_verdicts_are_those_of_the_definition(frames, data):
    """Every vector is tried in whole numbers; lines stand in any order, with distances or without."""
    reference, theirs, expected = [], [], {}
    for number, frame in enumerate(frames):
        for symbol in range(frame.samples.shape[0]):
            for carrier in np.flatnonzero(~frame.erased):
                every = [(whole_distance(frame, symbol, carrier, vector), vector) for vector in grid_of_job(frame, symbol, carrier)]
                least, nearest = min(every, key=lambda pair: pair[0])  # the first of the nearest
                place = (number, symbol, int(carrier))
                reference.append(line_of(place, least, nearest))
                if carrier % 3:
                    continue
                kind = data.draw(st.sampled_from(["nearest", "tie", "next", "any"]))
                ties = [vector for distance, vector in every if distance == least]
                above = sorted(distance for distance, _ in every if distance > least)
                vector = {"nearest": nearest, "tie": ties[-1],
                          "next": next((v for d, v in every if above and d == above[0]), nearest)}.get(kind)
                vector = vector or data.draw(st.lists(st.tuples(LEVELS, LEVELS), min_size=len(nearest), max_size=len(nearest)))
                distance = dict((tuple(v), d) for d, v in every).get(tuple(vector))
                stated = data.draw(st.sampled_from([None, distance, least + 1]))
                theirs.append(line_of(place, stated, vector))
                verdict = "outside" if distance is None else "same" if vector == nearest else "tie" if distance == least else "worse"
                expected[place] = (verdict, -1 if distance is None else distance, stated is not None and stated != distance)
    if not theirs:
        return
    octets = octets_of(frames, version=2)
    found = judge(octets, b"".join(data.draw(st.permutations(theirs))), reference=b"".join(reference))
    got = {(part.frame, int(part.symbol[n]), int(part.carrier[n])): (str(part.verdict[n]), int(part.distance[n]), bool(part.misstated[n]))
           for part in found.jobs for n in range(part.verdict.size)}
    assert got == expected and found.unanswered == len(reference) - len(theirs)
    assert found.is_clean == all(verdict in ("same", "tie") for verdict, _, _ in expected.values())
    assert found.misstated == sum(misstated for _, _, misstated in expected.values())
    bad = [record for record in found.worst]
    farther = [2**70 if r["verdict"] == "outside" else r["distance"] - r["least"] for r in bad]
    assert farther == sorted(farther, reverse=True) and len(bad) == min(10, sum(v in ("worse", "outside") for v, _, _ in expected.values()))


def line_of(place, distance, vector):
    words = ["job", *map(str, place), *([] if distance is None else [str(distance)]), *(str(part) for pair in vector for part in pair)]
    return " ".join(words).encode() + b"\n"


NUMBERS = st.integers(0, 10**18 - 1) | st.integers(0, 20)
PLACES = st.tuples(st.integers(0, 65535), st.integers(0, 65535), st.integers(0, 113))
SPOILS = st.sampled_from([b"0", b"-", b" ", b"\n", b"x", b"\r", b"9", b"", b"job ", b"\0"])


@given(st.integers(1, 4), st.booleans(), st.data())
def test_lines_by_whole_arrays_are_lines_one_by_one(streams, distances_too, data):
    levels = st.lists(st.tuples(st.integers(-7, 7), st.integers(-7, 7)), min_size=streams, max_size=streams)
    rows = data.draw(st.lists(st.tuples(PLACES, NUMBERS if distances_too else st.none(), levels), min_size=1, max_size=4))
    text = b"".join(line_of(*row) for row in rows)
    table = job_table(text)
    assert table.tolist() == [[*place, *([] if distance is None else [distance]), *(part for pair in vector for part in pair)]
                              for place, distance, vector in rows]
    # One octet or word put in or taken out: it is read as before, or line by line, where it may be refused.
    place = data.draw(st.integers(0, len(text) - 1))
    spoiled = text[:place] + data.draw(SPOILS) + text[place + data.draw(st.integers(0, 1)) :]
    table = job_table(spoiled)
    if table is not None:
        words = [[int(word) for word in line.split(b" ")[1:]] for line in spoiled.splitlines()]
        assert table.tolist() == words and line_by_line(spoiled, words)
    if not distances_too:
        return
    try:
        jobs = list(read_answers(spoiled))
    except LineError as error:
        with pytest.raises(LineError):
            read_line(spoiled.split(b"\n")[error.line - 1], error.line)
    else:
        assert sum(len(part) for part in jobs if hasattr(part, "symbol")) <= len(rows) + 1


def line_by_line(text, words):
    """Whether the lines are the numbers as one would write them."""
    return text == b"".join(b"job " + b" ".join(b"%d" % number for number in row) + b"\n" for row in words)


@given(st.binary(max_size=80))
def test_any_text_is_answers_or_is_refused(text):
    frames = [CaptureFrame(Rate(20, 0), 1, np.full((56, 1, 1), 10) + 0j, np.zeros((2, 56, 1), complex))]
    for source in (text, b"job 0 0 0 1 0\n" + text):
        try:
            judge(octets_of(frames), source, reference=b"".join(line_of((0, s, c), 100, [(-1, 0)]) for s in range(2) for c in range(56)))
        except InputError:
            pass
