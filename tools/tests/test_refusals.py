"""Bad files and words: each gets a line that names the file, and the status 2."""

import io
import zipfile

import numpy as np
import pytest

from mizgaure import cli
from mizgaure.commands import COMMANDS


def arrays(**changes):
    """A frame as `capture` reads it, with some arrays changed, or left out where the change is None."""
    random = np.random.default_rng(1)
    made = {"channel": random.standard_normal((56, 1, 1)), "received": random.standard_normal((2, 56, 1)), "bandwidth": 20, "mcs": 0, "length": 1}
    made.update(changes)
    octets = io.BytesIO()
    np.savez(octets, **{name: array for name, array in made.items() if array is not None})
    return octets.getvalue()


def one_array():
    octets = io.BytesIO()
    np.save(octets, np.zeros(3))
    return octets.getvalue()


def archive(**members):
    octets = io.BytesIO()
    with zipfile.ZipFile(octets, "w") as made:
        for name, member in members.items():
            made.writestr(f"{name}.npy", member)
    return octets.getvalue()


WHOLE = arrays()
NONE = "bad.npz: frame 2: this is no archive of arrays (.npz)"
NO_CHANNEL = "bad.npz: frame 2: channel can't be read as an array of numbers"
BAD_ARCHIVES = {
    "an-npy": (one_array(), "bad.npz: frame 2: this is one array, and an archive of arrays (.npz) is asked for"),
    "empty": (b"", NONE),
    "text": (b"channel", NONE),
    "cut": (WHOLE[:700], NONE),
    "spoiled": (WHOLE[:200] + bytes(200) + WHOLE[400:], NO_CHANNEL),
    "no-arrays": (archive(channel=b"text", received=b"", bandwidth=b"1", mcs=b"", length=b""), NO_CHANNEL),
    "a-head-alone": (archive(channel=one_array()[:20], received=b"", bandwidth=b"", mcs=b"", length=b""), NO_CHANNEL),
    "objects": (arrays(channel=np.array([None] * 56)), NO_CHANNEL),
    "missing": (arrays(length=None), "bad.npz: frame 2: there is no array length"),
    "text-in-channel": (arrays(channel=np.full((56, 1, 1), "1")), "bad.npz: frame 2: channel isn't an array of numbers, but of <U1"),
    "text-in-erased": (arrays(erased=np.array(["3"])), "bad.npz: frame 2: erased isn't an array of numbers, but of <U1"),
    "a-time": (arrays(received=np.zeros((2, 56, 1), "M8[s]")), "bad.npz: frame 2: received isn't an array of numbers, but of datetime64[s]"),
    "a-small-channel": (arrays(channel=np.full((56, 1, 1), 1e-310), received=np.zeros((2, 56, 1))),
                        "bad.npz: frame 2: the parts of the channel and of what was received are too large or too small to be scaled"),
    "half-an-octet": (arrays(length=700.5), "bad.npz: frame 2: length has to be one whole number"),
    "a-rate-with-a-point": (arrays(mcs=11.0), "bad.npz: frame 2: mcs has to be one whole number"),
    "a-bandwidth-in-text": (arrays(bandwidth="20"), "bad.npz: frame 2: bandwidth has to be one whole number"),
    "two-rates": (arrays(mcs=[1, 2]), "bad.npz: frame 2: mcs has to be one whole number"),
    "no-rate": (arrays(mcs=32), "bad.npz: frame 2: the MCS is 32, and only 0 to 31 are known"),
    "not-a-number": (arrays(channel=np.full((56, 1, 1), np.nan)), "bad.npz: frame 2, subcarrier 0: the channel of antenna 0 and stream 1 isn't finite"),
    "shape": (arrays(received=np.zeros((2, 56))), "bad.npz: frame 2: received has the shape (2, 56), and (2, 56, 1) is asked for"),
}


@pytest.mark.parametrize("name", BAD_ARCHIVES)
@pytest.mark.filterwarnings("error")
def test_a_bad_archive_among_good_ones_is_named(name, tmp_path, monkeypatch, capsys):
    octets, said = BAD_ARCHIVES[name]
    assert said.startswith("bad.npz: frame 2")
    monkeypatch.chdir(tmp_path)
    for path, content in (("a.npz", WHOLE), ("b.npz", WHOLE), ("bad.npz", octets)):
        (tmp_path / path).write_bytes(content)
    assert cli.main(["capture", "a.npz", "b.npz", "bad.npz", "-o", "made.htcp"]) == 2
    assert capsys.readouterr().err == f"mizgaure: {said}\n"
    assert not (tmp_path / "made.htcp").exists()


def test_a_mistake_of_the_tools_is_a_line_too(monkeypatch, capsys):
    """No status but that of the judge is 1, and no traceback is seen, unless it is asked for."""
    def run(given):
        raise ZeroDivisionError("over\nthree\nlines")

    monkeypatch.setattr("mizgaure.cli.COMMANDS", [type(COMMANDS[0])("break", "break", lambda words: None, run)])
    assert cli.main(["break"]) == 2
    said = "mizgaure: a mistake of mizgaure, please report it: ZeroDivisionError: over three lines (test_refusals.py, line "
    assert capsys.readouterr().err.startswith(said)
    monkeypatch.setenv("MIZGAURE_TRACEBACK", "1")
    assert cli.main(["break"]) == 2 and "Traceback" in capsys.readouterr().err


@pytest.mark.parametrize("text", [b"\x00", b"{}", b"[1]", b'{"sweep": null}', b'{"sweep": {"snr": [1], "mcs": "9"}, "coded": true, "points": [{}]}',
                                  b'{"sweep": {"snr": [1]}, "coded": true, "points": [{"bits": [[1, 0, 1]], "symbols": [], "octet_bits": [], '
                                  b'"frames": [0, 1]}]}'])
def test_a_bad_sweep_is_named(text, tmp_path, monkeypatch, capsys):
    pytest.importorskip("matplotlib")
    monkeypatch.chdir(tmp_path)
    (tmp_path / "sweep.json").write_bytes(text)
    assert cli.main(["picture", "sweep", "sweep.json", "a.png"]) == 2
    assert capsys.readouterr().err.startswith("mizgaure: sweep.json: this isn't the output of a sweep")


@pytest.mark.parametrize("words, snr", [(["--snr", "-2:10:4"], (-2, 2, 6, 10)), (["--snr=-2:10:4"], (-2, 2, 6, 10)), (["--snr", "-3,-.5,7"], (-3, -0.5, 7)),
                                        (["--snr", "-1"], (-1,)), (["--snr", "-.5:.5:.5"], (-0.5, 0, 0.5))])
def test_ratios_may_be_negative(words, snr):
    given = cli.parser().parse_args(cli._with_negative_values(["sweep", *words, "--frames", "3"]))
    assert given.snr == snr and given.frames == 3
    assert cli._with_negative_values(["picture", "evm", "-", "-1.png"]) == ["picture", "evm", "-", "-1.png"]


@pytest.mark.parametrize("words", [["check"], ["judge", "x"], ["capture", "x"], ["sweep", "--snr", "1:2"], ["sweep", "--snr"], ["measure"], [],
                                   ["judge", "--list", "-1", "x", "y"]])
def test_bad_words_are_usage(words, capsys):
    with pytest.raises(SystemExit) as caught:
        cli.main(words)
    assert caught.value.code == 2 and "mizgaure" in capsys.readouterr().err
