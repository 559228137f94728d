"""The proved library in place of the program: the same answers, which other programs' are. Nothing is tested where it isn't built."""

import numpy as np
import pytest
from conftest import TOP, VECTORS, vectors

from mizgaure import cli, inside, read_answers, read_htcp, read_htsy, read_httx
from mizgaure.inside import Inside

LIBRARY = inside.library
pytestmark = pytest.mark.skipif(LIBRARY is None, reason="library/build hasn't built the library")
SMALL = VECTORS / "jobs" / "small-mcs09.htcp"


def same_jobs(one, other):
    return (one.frame == other.frame and all(np.array_equal(getattr(one, name), getattr(other, name)) for name in ("symbol", "carrier", "points"))
            and one.distance.tolist() == other.distance.tolist())


@pytest.mark.parametrize("path", vectors(".detect"))
def test_jobs_are_another_programs(path):
    """Vectors, pilots counted, and distances of 64 bits and more, in the order of the lines; no pilot where it is erased."""
    known = {jobs.frame: jobs for jobs in read_answers(path)}
    for number, frame in enumerate(read_htcp(path.with_suffix(".htcp"))):
        assert same_jobs(Inside().jobs(number, frame), known[number])


@pytest.mark.parametrize("ending", [".rx", ".soft"])
def test_lines_are_another_programs(ending):
    """Also with erased subcarriers, and where the seed is zero."""
    library = Inside()
    for (path,) in (each.values for each in vectors(ending)):
        for number, (frame, answer) in enumerate(zip(read_htcp(path.with_suffix(".htcp")), read_answers(path))):
            assert (library.soft(number, frame) if ending == ".soft" else library.answer(frame, library.jobs(number, frame))) == answer, path


def test_symbols_are_another_programs():
    for (path,) in (each.values for each in vectors(".htsy")[::5]):
        if path.with_suffix(".httx").exists():
            for frame, symbols in zip(read_httx(path.with_suffix(".httx")), read_htsy(path)):
                assert np.array_equal(Inside().sent(frame).points, symbols.points)


@pytest.fixture
def called(here, monkeypatch):
    """The command with the library."""
    monkeypatch.setattr(inside, "library", LIBRARY)
    return here


@pytest.fixture
def both(called, radio):
    """Runs words by the library, which is said, and by the program, and gives what both write."""
    def run(name, *words):
        by_library, by_program = called(name, *words), called(name, "--radio", radio.path, *words)
        line = f"mizgaure: the reference is that of the proved library {Inside().path}\n".encode()
        assert by_library.stderr == line + by_program.stderr and by_library.stdout == by_program.stdout and by_library.returncode == by_program.returncode
        return by_library

    return run


def test_judge_and_measure_say_the_same(both, tmp_path):
    lines = SMALL.with_suffix(".detect").read_bytes().replace(b" 1 -1", b" -1 1").replace(b"end", b"frame 0 octets 00\nend")
    (tmp_path / "theirs").write_bytes(lines)
    assert both("judge", SMALL, "theirs", "--complete", "--stated").returncode == 1
    many = VECTORS / "version2"
    for path in sorted(many.glob("*.htcp"))[:4]:
        both("measure", path)
    path = VECTORS / "rates" / "bw1-mcs31.htcp"
    (tmp_path / "soft").write_bytes(b"frame 0 octets 00\n")
    assert both("judge", path, "soft", "--soft").returncode == 1
    assert b"frame error rate" in both("measure", path, "--sent", path.with_suffix(".httx")).stdout
    assert both("judge", VECTORS / "worked" / "a5.htsy", "theirs").returncode == 2


@pytest.mark.parametrize("more", [[], ["--soft", "--detector", "zf=zero-forcing"], ["--processes", 2]])
def test_a_sweep_is_the_same(both, more):
    words = ["sweep", "--mcs", 9, "--length", 20, "--snr", "2,12", "--frames", 6, "--chunk", 3, *(more if "--processes" in more else [*more, "--processes", 1])]
    assert b"PER" in both(*words).stdout


def test_progress_by_frames(called, monkeypatch):
    """The program tells how far it was read, and the library how many frames were."""
    told = []
    monkeypatch.setattr(inside.Progress, "add", lambda self, count: told.append((self.label, self.total, count)))
    assert called("measure", TOP / "examples" / "z.htcp").returncode == 0 and told and {(label, total) for label, total, _ in told} == {("measure", told[0][1])}


def test_without_the_library(monkeypatch, radio):
    monkeypatch.setattr(inside, "library", None)
    monkeypatch.setenv("MIZGAURE_RADIO", radio.path)
    assert inside.receiver().path == radio.path
    with pytest.raises(inside.InputError, match="there is no proved library"):
        Inside()
    assert cli.main(["judge", str(SMALL), str(SMALL.with_suffix(".detect"))]) == 0
