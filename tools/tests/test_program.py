"""The program as the tools run it: its statuses, played by a script that writes what it is told to and ends as it is told to."""

import pytest
from conftest import VECTORS

from mizgaure import InputError, ProgramError, Radio, judge
from mizgaure.program import find_radio

SMALL = VECTORS / "jobs" / "small-mcs09.htcp"


@pytest.fixture
def played(tmp_path):
    """A program that takes its input and writes a file, and then does as a line of shell says."""

    def make(ending, text=None):
        (tmp_path / "text").write_bytes(SMALL.with_suffix(".detect").read_bytes() if text is None else text)
        path = tmp_path / "radio"
        path.write_text(f"#!/bin/sh\ncat >/dev/null\ncat '{tmp_path}/text'\n{ending}\n")
        path.chmod(0o755)
        return Radio(str(path), progress=False)

    return make


@pytest.mark.parametrize("ending, said", [
    ("exit 2", "has no command detect"),
    ("exit 3", "detect ended with status 3: it couldn't read its input"),
    ("exit 4", "detect ended with status 4: it couldn't write its output"),
    ("exit 5", "detect ended with status 5: it ran out of memory"),
    ("exit 6", "detect ended with status 6: a word of the call isn't UTF-8"),
    ("exit 7", "detect ended with status 7: what that means is not known"),
    ("exit 125", "detect ended with status 125: it couldn't be built"),
    ("kill -9 $$", "detect was ended by signal 9"),
])
def test_no_status_but_0_and_1_is_good(played, ending, said):
    """Also where all lines came: an answer of a program that failed is none."""
    radio = played(ending)
    with pytest.raises(ProgramError) as caught:
        radio.detect(SMALL)
    assert str(caught.value) == f"{radio.path} {said}"
    with pytest.raises(ProgramError) as caught:
        judge(SMALL, SMALL.with_suffix(".detect"), radio=radio)
    assert str(caught.value) == f"{radio.path} {said}"


def test_status_0_and_1_are_good(played):
    for ending in ("exit 0", "exit 1"):
        assert len(played(ending).detect(SMALL)) == 1
    with pytest.raises(ProgramError, match="wrote no last line"):
        played("exit 0", SMALL.with_suffix(".detect").read_bytes().rpartition(b"end")[0]).detect(SMALL)
    with pytest.raises(ProgramError, match="ended with status 5: it ran out of memory"):
        judge(SMALL, SMALL.with_suffix(".detect"), radio=played("exit 5", b""))


def test_the_text_can_be_left_before_its_end(played):
    with played("exit 5").text("detect", SMALL) as lines:
        assert lines.readline().startswith(b"job 0 0 0 ")


def test_a_program_on_the_path_is_found(tmp_path, monkeypatch, played):
    played("exit 0")
    monkeypatch.delenv("MIZGAURE_RADIO", raising=False)
    monkeypatch.setenv("PATH", str(tmp_path))
    installed = tmp_path / "lib" / "mizgaure" / "program.py"
    monkeypatch.setattr("mizgaure.program.__file__", str(installed))  # no clone stands above it
    assert find_radio() == str(tmp_path / "radio")
    monkeypatch.setenv("MIZGAURE_RADIO", "nowhere")
    with pytest.raises(ProgramError, match="nowhere is no program that can be run"):
        find_radio()
    monkeypatch.delenv("MIZGAURE_RADIO")
    monkeypatch.setenv("PATH", str(tmp_path / "lib"))
    with pytest.raises(ProgramError, match="the program radio wasn't found: it is in no folder of PATH, and MIZGAURE_RADIO isn't set"):
        find_radio()


def test_an_input_that_cannot_be_read(played, tmp_path):
    with pytest.raises(InputError, match="can't be read"):
        played("exit 0").detect(tmp_path)


def test_a_program_that_is_not_read_to_its_end_does_not_complain(tmp_path, capfd):
    """It is ended before its output is closed, and so says nothing of a broken pipe."""
    writing = tmp_path / "radio"
    writing.write_text("#!/bin/sh\ntrap '' PIPE\nprintf ab\nsleep 0.3\nprintf c || echo complained >&2\n")
    writing.chmod(0o755)
    with Radio(str(writing)).text("detect", b"") as output:
        assert output.read(1) == b"a"
    assert capfd.readouterr().err == ""
