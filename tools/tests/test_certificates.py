"""Certificates: the vectors, the job that docs/CERTIFICATES.md works by hand, the checker of the examples, and the judge on them."""

import json
import re
import struct
import subprocess
import sys
from dataclasses import replace

import numpy as np
import pytest
from conftest import TOP, VECTORS, octets_of, random_frame

from mizgaure import FormatError, InputError, Rate, judge
from mizgaure.certificates import Certificate, check, check_lines, read_htct
from mizgaure.distances import places, zero_forcing

PAGE = (TOP / "docs" / "CERTIFICATES.md").read_text()
FILES = sorted((VECTORS / "certificates").glob("*.htct"))
BY_HAND = Certificate(0, [[(10, 0)]], [(3, -4)], [(1, 0)], 65, bytes([1, 0, 1]))


@pytest.mark.parametrize("path", FILES, ids=lambda path: path.stem)
def test_the_vectors(path):
    assert "".join(f"{line}\n" for line in check_lines(path)) == path.with_suffix(".check").read_text()


def test_there_are_vectors():
    assert len(FILES) == 48


@pytest.mark.parametrize("changes, fault", [
    ({"vector": [(-1, 0)], "distance": 185, "marks": b"\1\1\1"}, "Better at 2"),
    ({"distance": 64}, "WrongDistance at 65"),
    ({"marks": b"\0"}, "Early at 0"),
    ({"marks": b"\1\0"}, "Short at 2"),
    ({"marks": b"\1\0\1\1"}, "Long at 3"),
    ({"vector": [(0, 0)]}, "OffGrid at 1"),
])
def test_the_faults_of_the_page(changes, fault):
    assert check(BY_HAND) is None
    assert str(check(replace(BY_HAND, **changes))) == fault and f"`{fault}`" in PAGE


@pytest.mark.parametrize("vector, marks, fault", [
    ((1, 0), b"\1\1\1", "Better at 1"),  # as near, and before the claimed one
    ((-1, 0), b"\1\1\0", "Early at 2"),  # as near isn't above
    ((-1, 0), b"\1\1\1", None),
    ((1, 1), b"\1\1\1", "OffGrid at 1"),
])
def test_a_tie_by_hand(vector, marks, fault):
    """BPSK, d = 10, y = -4i: both vectors are at 116, and (-1, 0) is the first."""
    found = check(replace(BY_HAND, samples=[(0, -4)], vector=[vector], distance=116, marks=marks))
    assert (None if found is None else str(found)) == fault


def test_the_octets_of_the_page():
    shown = re.search(r"^(00 01  000a .*)$", PAGE, re.MULTILINE).group(1)
    octets = b"HTCT\1" + (1).to_bytes(8, "big") + bytes.fromhex(shown)
    assert len(octets) == 50 and "a file of 50 octets" in PAGE
    assert list(read_htct(octets)) == [BY_HAND] and list(check_lines(octets)) == ["job 0 yes", "end 1 jobs yes 1"]
    command, *lines = re.search(r"\$ tools/mizgaure check (\S+)\n((?:job .*\n|refused .*\n)+)", PAGE).groups()
    assert (TOP / command).with_suffix(".check").read_text() == "".join(lines)


def test_the_checker_of_the_examples():
    """It says yes and no as the vectors do, in all files that aren't at fault."""
    checker = TOP / "examples" / "check.py"
    assert checker.read_text().count("\n") <= 32 and "examples/check.py" in PAGE
    whole = [path for path in FILES if "refused" not in path.with_suffix(".check").read_text()]
    joined = f"import runpy, sys\nfor path in sys.argv[1:]:\n    sys.argv[1] = path\n    runpy.run_path({str(checker)!r})\n"
    done = subprocess.run([sys.executable, "-c", joined, *map(str, whole)], capture_output=True, text=True, check=True)
    wanted = [line.split(" no ")[0] + " no" if " no " in line else line for path in whole for line in path.with_suffix(".check").read_text().splitlines()]
    assert done.stdout.splitlines() == [line for line in wanted if not line.startswith("end")] and " no\n" in done.stdout


def test_the_weight_that_the_page_says():
    (path,) = [path for path in FILES if path.stem == "rates-bw1-mcs31"]
    records = list(read_htct(path))
    assert len(records) == 108 and {len(record.marks) for record in records} == {64}
    assert path.stat().st_size == 13 + 108 * (22 + 2 * 16 + 10 * 4 + 64) == 13 + 108 * 158
    assert sum(8**n for n in range(1, 9)) == 19173960 and "19,173,960" in PAGE


def record_of(frame, symbol, carrier, vector, distance, marks=b""):
    """A record as another detector writes it."""
    made = bytes([{1: 0, 2: 1, 4: 2, 6: 3}[frame.rate.bits_per_point], frame.rate.streams])
    for row in range(frame.rate.streams):
        for column in range(row, frame.rate.streams):
            entry = frame.triangles[carrier, row, column]
            made += struct.pack(">H", int(entry.real)) if row == column else struct.pack(">hh", int(entry.real), int(entry.imag))
    for value in frame.samples[symbol, carrier]:
        made += struct.pack(">ii", int(value.real), int(value.imag))
    made += b"".join(struct.pack(">bb", int(point.real), int(point.imag)) for point in vector)
    return made + int(distance).to_bytes(16, "big") + len(marks).to_bytes(4, "big") + marks


def certified(frames, answers):
    """A file of certificates with these claims, and how many records it has."""
    records = []
    for frame, jobs in zip(frames, answers):
        for n in np.flatnonzero(~frame.rate.is_pilot[jobs.carrier]):
            records.append(record_of(frame, jobs.symbol[n], jobs.carrier[n], jobs.points[n], jobs.distance[n]))
    return records


def file_of(records):
    return b"HTCT\1" + len(records).to_bytes(8, "big") + b"".join(records)


def test_the_judge_takes_certificates(tmp_path):
    """The claims are judged as lines are, whatever the marks; a record of another job is refused, and so is one too many."""
    frames = [random_frame(Rate(20, 9), 10, seed=seed, noise=250) for seed in range(2)]
    frames[1].erased[[3, 7]] = True
    frames[1].triangles[[3, 7]], frames[1].samples[:, [3, 7]] = 0, 0
    answers = [zero_forcing(frame, number) for number, frame in enumerate(frames)]
    reference = b"".join(b"job %d %d %d %d %s\n" % (jobs.frame, s, c, d, b" ".join(b"%d %d" % (int(p.real), int(p.imag)) for p in vector))
                         for jobs in answers for s, c, d, vector in zip(jobs.symbol, jobs.carrier, jobs.distance, jobs.points))
    octets, records = octets_of(frames), certified(frames, answers)
    found = judge(octets, file_of(records), reference=reference)
    pilots = sum(frame.samples.shape[0] * int((frame.rate.is_pilot & ~frame.erased).sum()) for frame in frames)
    assert found.job_counts["same"] == len(records) and found.unanswered == 0 and found.missing == [] and found.misstated == 0
    assert sum(len(places(frame)[0]) for frame in frames) == len(records) + pilots
    other = frames[1].rate.points[0]
    changed = [*records]
    changed[5] = record_of(frames[0], 0, 5, [other, 3], 1)  # outside, whatever it states
    changed[6] = record_of(frames[0], 0, 6, answers[0].points[6], int(answers[0].distance[6]) + 1)
    found = judge(octets, file_of(changed), reference=reference)
    assert found.job_counts["outside"] == 1 and found.misstated == 2
    path = tmp_path / "theirs.htct"
    for spoiled, said in (([records[1], records[0]], "record 0 is of another job than job 0 0 0 of the capture"),
                          (records + records[:1], f"there are {len(records) + 1} records, and the capture has {len(records)} data jobs")):
        path.write_bytes(file_of(spoiled))
        with pytest.raises(InputError) as caught:
            judge(octets, str(path), reference=reference)
        assert str(caught.value) == f"{path}: {said}"
    with pytest.raises(FormatError, match="refused Truncated at 20"):
        judge(octets, file_of(records)[:20], reference=reference)
    part = judge(octets, file_of(records[:7]), reference=reference)
    assert part.job_counts["same"] == 7


def test_the_commands(command, tmp_path):
    path = VECTORS / "certificates" / "jobs-small-mcs16"
    done = command("check", f"{path}.htct")
    assert (done.returncode, done.stdout, done.stderr) == (0, path.with_suffix(".check").read_bytes(), b"")
    spoiled = VECTORS / "certificates" / "jobs-small-mcs01-spoiled.htct"
    done = command("check", "-", given=spoiled.read_bytes())
    assert (done.returncode, done.stdout, done.stderr) == (2, spoiled.with_suffix(".check").read_bytes(), b"mizgaure: standard input: refused BadMark at 222\n")
    done = command("judge", f"{path}.htcp", f"{path}.htct", "--json", "verdicts")
    assert done.returncode == 0 and re.fullmatch(rb"jobs \d+: \d+ same, 0 tie, 0 worse, 0 outside; 0 without an answer\n", done.stdout)
    assert command("judge", f"{path}.htcp", f"{path}.htct", "--complete").returncode == 0  # of jobs of data subcarriers
    counts = json.loads((tmp_path / "verdicts").read_text().splitlines()[-1])["counts"]
    assert counts["misstated"] == 0
