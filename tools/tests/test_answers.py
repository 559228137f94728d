"""The lines of the program, as arrays and records."""

import io

import numpy as np
import pytest
from conftest import vectors

from mizgaure import End, FrameAnswer, Jobs, LineError, Refused, read_answers, read_htcp
from mizgaure.distances import distances, places


@pytest.mark.parametrize("path", vectors(".detect"))
def test_distances_of_the_vectors(path):
    """The lines are read, and each distance is what this package finds for the vector, exactly."""
    answers = read_answers(path)
    records = list(answers)
    frames = list(read_htcp(path.with_suffix(".htcp")))
    assert answers.last == End(len(frames))
    for number, (frame, jobs) in enumerate(zip(frames, records)):
        symbol, carrier = places(frame)
        assert jobs.frame == number and np.array_equal(jobs.symbol, symbol) and np.array_equal(jobs.carrier, carrier)
        assert (distances(frame, symbol, carrier, jobs.points) == jobs.distance).all()


@pytest.mark.parametrize("path", vectors(".rx"))
def test_lines_of_frames(path):
    answers = read_answers(path)
    text = path.read_text().splitlines()
    for record, line in zip(answers, text):
        what = "seed zero" if record.octets is None else f"octets {record.octets.hex()}"
        assert line == f"frame {record.frame} data {record.data} pilot {record.pilot} code {record.code} {what}"


class Pipe(io.RawIOBase):
    """A pipe that gives a few octets at a time."""

    def __init__(self, octets):
        self.octets = octets

    def read(self, count):
        piece, self.octets = self.octets[:7], self.octets[7:]
        return piece


TEXT = (b"job 0 0 0 100 -1 0\njob 0 0 7 36877727455641076052 1 0\njob 1 0 0 2 -3 3 1 -1\n"
        b"frame 2 data 10400 pilot 800 code 0 seed zero\nrefused BadMcs at 1020\n")


def test_lines_as_they_come():
    for source in (TEXT, Pipe(TEXT), TEXT[:-1]):
        answers = read_answers(source)
        first, second, third = answers
        assert first.distance.tolist() == [100, 36877727455641076052] and first.carrier.tolist() == [0, 7]
        assert isinstance(second, Jobs) and second.frame == 1 and second.points.tolist() == [[-3 + 3j, 1 - 1j]]
        assert third == FrameAnswer(2, 10400, 800, 0, None)
        assert answers.last == Refused("BadMcs", 1020)


@pytest.mark.parametrize("line", [b"job 0 0 0 100 -1", b"job 0 0 0 1_0 -1 0", b"job 0 0 0 01 -1 0", b"frame 0 data 1 pilot 2 code 3 octets a",
                                  b"end one frames", b"", b"\xff\xfe"])
def test_a_line_that_is_none(line):
    with pytest.raises(LineError) as caught:
        list(read_answers(TEXT[:19] + line + b"\n"))
    assert caught.value.line == 2 and str(caught.value).startswith("line 2 is no line of the program: ")


def test_the_program_is_run(radio):
    path = next(p.values[0] for p in vectors(".detect") if b"end 1 frames" in p.values[0].read_bytes()).with_suffix(".htcp")
    (jobs,) = radio.detect(path)
    (kept,) = read_answers(path.with_suffix(".detect"))
    assert np.array_equal(jobs.points, kept.points) and np.array_equal(jobs.distance, kept.distance)
    assert radio.knows("detect") and not radio.knows("nothing")
