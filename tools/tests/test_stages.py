"""The stages of the chain. From annex L.1 of the standard come its PSDU, its seed and its first fourteen points; what else is
expected of values comes from the programs that made vectors/. Where the proved library isn't built, only the files are tested.
"""

import csv
import io
import os
import subprocess
import sys

import numpy as np
import pytest
from conftest import TOP, VECTORS

from mizgaure import Rate, read_answers, read_htsy, stages
from mizgaure.chain import encode, kept_places, steps, symbol_landing
from mizgaure.rates import labels_of
from mizgaure.stage_files import (BITS, LABELS, LIBRARY, POINTS, PROGRAM, SAMPLES, TOOLS, Stage, Staged, arrays_of, write_mat, write_stage_rows,
                                  write_text, write_words)

proved = pytest.mark.skipif(stages.library is None, reason="library/build hasn't built the library")
LEGACY = VECTORS / "legacy"

# Annex L.1: the points of symbol 0 from subcarrier -26 up, which the annex gives divided by the square root of 10.
ANNEX = [(-1, 1), (-1, 1), (1, 1), (-3, -3), (1, 3), (1, 0), (1, 1), (1, -3), (-1, -3), (-1, 1), (-3, 1), (-3, -3), (-3, -3), (3, 1)]
# The octet a5 at 20 MHz and MCS 0, seed 127, by the program that made vectors/rates (docs/CHAIN.md).
A5 = {
    "data": "0000000000000000101001010000000000000000000000000000",
    "scrambled": "0000111011110010011011000000001000100110001011101011",
    "punctured": "0000000011100101111100111010010010111000000100010010" "0111000011011111111100001000111101001101011100000100",
    "interleaved": "0110000001000110010101000110000010111110111001010000" "0101110011111111011101100100001010001000001111101000",
}


def stages_in(path):
    """The stages of the only frame of a file, by name."""
    (staged,) = stages.stages_of(path)
    return {stage.name: stage for stage in staged.stages}


def values_in(path, name):
    return stages_in(path)[name].values


@proved
def test_annex_l1():
    """From the annex are the PSDU, the seed and these points, in the text divided by the root of 10 too."""
    (staged,) = stages.stages_of(LEGACY / "annex-l1.lgtx")
    found = {stage.name: stage.values for stage in staged.stages}
    assert staged.text == "36 Mbit/s (16-QAM 3/4), 100 octets, seed 93"
    assert np.packbits(found["data"][16:816], bitorder="little").tobytes() == (LEGACY / "annex-l1.lgtx").read_bytes()[-100:]
    assert list(map(tuple, found["points"][0, :14, 0].tolist())) == ANNEX
    text = io.StringIO()
    write_text(text, staged)
    assert " -26  -1  1 -0.316  0.316   -25  -1  1 -0.316  0.316   -24   1  1  0.316  0.316   -23  -3 -3 -0.949 -0.949\n" in text.getvalue()


@proved
def test_one_octet_of_another_program():
    found = stages_in(VECTORS / "worked" / "a5.httx")
    assert {name: "".join(map(str, found[name].values.reshape(-1))) for name in A5} == A5
    assert [stage.source for stage in found.values()] == [TOOLS, *[LIBRARY] * 6, TOOLS]
    back = stages_in(VECTORS / "worked" / "a5.htcp")
    assert "".join(map(str, back["deinterleaved"].values.reshape(-1))) == A5["punctured"] and back["octets"].values.tobytes() == b"\xa5"


@proved
@pytest.mark.parametrize("bandwidth", [20, 40])
def test_all_rates_of_another_program(bandwidth):
    """Points are those of the other program's symbols, coded bits stand where these have them, and its captures come back.

    What isn't sent of the coded bits is compared with the tools' own coder, the judge's.
    """
    for mcs in range(32):
        rate, path = Rate(bandwidth, mcs), VECTORS / "rates" / f"bw{bandwidth // 40}-mcs{mcs:02}"
        found = stages_in(path.with_suffix(".httx"))
        (sent,) = read_htsy(path.with_suffix(".htsy"))
        points = found["points"].values
        assert np.array_equal(points[..., 0] + 1j * points[..., 1], sent.points)
        carrier, stream, bit = symbol_landing(rate)
        labels = labels_of(sent.points[:, ~rate.is_pilot], rate)
        punctured = labels[:, carrier, stream] >> (rate.bits_per_point - 1 - bit) & 1
        assert np.array_equal(found["punctured"].values, punctured)
        coded, inputs = found["coded"].values, found["scrambled"].values.reshape(-1, rate.encoders).T
        kept = kept_places(rate, coded.shape[1] // 2)
        assert np.array_equal(coded[:, kept], np.concatenate(punctured, axis=1)) and np.array_equal(coded, encode(Rate(20, 0), inputs))
        back = stages_in(path.with_suffix(".htcp"))
        depunctured, kept = back["depunctured"].values, kept_places(rate, steps(rate, sent.length))
        assert np.array_equal(depunctured[:, kept], np.concatenate(back["gathered"].values, axis=1)[:, : kept.size])
        assert (np.delete(depunctured, kept, axis=1) == 2).all()
        jobs, answer = (next(iter(read_answers(path.with_suffix(ending)))) for ending in (".detect", ".rx"))
        assert back["octets"].values.tobytes() == answer.octets and f"at {answer.code} differences" in back["decoded"].text
        data = jobs.points.reshape(len(sent.points), -1, rate.streams)[:, ~rate.is_pilot]
        assert np.array_equal(back["points"].values[..., 0] + 1j * back["points"].values[..., 1], data)


@proved
def test_erasures_of_another_program():
    """Captures with erased subcarriers: what is erased is unknown at each stage, and the octets are the other program's."""
    for path in sorted((VECTORS / "version2").glob("*.rx")):
        answers = list(read_answers(path))
        for staged, answer in zip(stages.stages_of(path.with_suffix(".htcp")), answers):
            found = {stage.name: stage.values for stage in staged.stages}
            assert ("octets" in found) == (answer.octets is not None)
            assert answer.octets is None or found["octets"].tobytes() == answer.octets
            erased = (found["labels"] == 255).sum()
            assert not found["points"][found["labels"] == 255].any() and found["points"][found["labels"] != 255].any(axis=-1).all()
            assert erased and all((found[name] == 2).sum() == erased * (found["demapped"].size // found["labels"].size)
                                  for name in ("demapped", "deinterleaved", "gathered"))
    nothing = list(stages.stages_of(VECTORS / "worked" / "a5-pilots-alone.htcp"))[0]
    assert nothing.left_out == ["descrambled and octets: the first seven bits are those of no seed"] and nothing.stages[-1].name == "decoded"


@proved
def test_clause_18_of_other_programs():
    texts = [path for path in sorted(LEGACY.glob("*.lrx")) if not path.stem.startswith("fault")]
    assert len(texts) >= 26
    for path in texts:
        octets = [bytes(next(stage for stage in staged.stages if stage.name == "octets").values) for staged in stages.stages_of(path.with_suffix(".lgcp"))]
        assert octets == [answer.octets for answer in read_answers(path)]
    coded = values_in(LEGACY / "annex-l1.lgtx", "interleaved")
    assert np.array_equal(coded, values_in(LEGACY / "annex-l1.lgcp", "demapped"))


@proved
@pytest.mark.parametrize("pattern, kept", [(0, [0, 1, 2, 3, 4, 5]), (1, [0, 1, 2, 4, 5, 6]), (2, [0, 1, 2, 5, 6, 7, 8, 11]),
                                           (3, [0, 1, 2, 5, 6, 9, 10, 11, 12])])
def test_what_is_kept(pattern, kept):
    """Clauses 18.3.5.6 and 20.3.11.6: A0 B0 A1 at 2/3, A0 B0 A1 B2 at 3/4, A0 B0 A1 B2 A3 B4 at 5/6."""
    assert stages.kept_places(pattern, 100)[: len(kept)].tolist() == kept


@proved
@pytest.mark.parametrize("path, span", [("legacy/annex-l1.lgtx", 26), ("worked/a5.httx", 28)])
def test_samples_have_the_points(path, span):
    """The transform of a symbol's samples behind its guard interval gives the points back; the short training repeats."""
    found = stages_in(VECTORS / path)
    samples, points = found["samples"].values[0], found["points"].values[:, :, 0].astype(float)
    begin = samples.size - 80 * len(points)
    factors = found["points"].factors
    for number, row in enumerate(points):
        transform = np.fft.fft(samples[begin + 80 * number + 16 :][:64]) / 64 * np.sqrt(2 * span)
        there = transform[np.r_[-span:0, 1 : span + 1]]
        data = factors != 1 if span == 26 else np.isin(found["points"].axes["subcarrier"], (-21, -7, 7, 21), invert=True)
        assert np.allclose(there[data], (row[:, 0] + 1j * row[:, 1])[data] * factors[data])
    assert np.allclose(samples[:144], samples[16:160])


def made_by_hand():
    """Stages of every kind, with two encoders and an erased bit."""
    encoders = {"symbol": np.arange(1), "encoder": np.arange(2), "index": np.arange(3)}
    carriers = {"symbol": np.arange(1), "subcarrier": np.array([-1, 1]), "stream": np.array([1, 2])}
    points = np.array([[[[1, -1], [3, -3]], [[-1, 0], [1, 0]]]], np.int8)
    return Staged(3, "a rate", {"mcs": 9}, [
        Stage("gathered", "bits", BITS, encoders, np.array([[[0, 1, 2], [1, 1, 0]]], np.uint8)),
        Stage("labels", "labels", LABELS, carriers, np.array([[[0x2B, 0], [255, 255]]], np.uint8)),
        Stage("points", "points", POINTS, carriers, points, factors=np.array([0.5, 1.0])),
        Stage("samples", "samples", SAMPLES, {"chain": np.array([1]), "index": np.arange(2)}, np.array([[0.5 - 1j, 2j]]), TOOLS),
    ], ["octets: no seed"])


def test_text():
    text = io.StringIO()
    write_text(text, made_by_hand())
    assert text.getvalue() == """frame 3: a rate

gathered: bits; by the proved library
symbol 0, encoder 0
       0  01x
symbol 0, encoder 1
       0  110

labels: labels; by the proved library
symbol 0, stream 1
    -1 2b     1 xx
symbol 0, stream 2
    -1 00     1 xx

points: points; by the proved library
symbol 0, stream 1
    -1   1 -1  0.500 -0.500     1  -1  0 -1.000  0.000
symbol 0, stream 2
    -1   3 -3  1.500 -1.500     1   1  0  1.000  0.000

samples: samples; by these tools, tested and not proved
chain 1
       0   0.5000 -1.0000       1   0.0000  2.0000

octets: no seed

"""


def test_rows():
    made = io.BytesIO()
    write_stage_rows(made, [made_by_hand()])
    rows = list(csv.DictReader(made.getvalue().decode().splitlines()))
    told = [{name: value for name, value in row.items() if value} for row in rows]
    assert len(told) == 6 + 4 + 4 + 2
    assert told[2] == {"frame": "3", "stage": "gathered", "source": "library", "symbol": "0", "encoder": "0", "index": "2"}
    assert told[6] == {"frame": "3", "stage": "labels", "source": "library", "symbol": "0", "subcarrier": "-1", "stream": "1", "value": "43"}
    assert told[11] == {"frame": "3", "stage": "points", "source": "library", "symbol": "0", "subcarrier": "-1", "stream": "2", "i": "3", "q": "-3"}
    assert told[-1] == {"frame": "3", "stage": "samples", "source": "tools", "chain": "1", "index": "1", "i": "0.0", "q": "2.0"}


def test_matlab_reads_the_arrays():
    """As SciPy reads them, which is no program of ours."""
    reader = pytest.importorskip("scipy.io")
    arrays, made = arrays_of([made_by_hand()]), io.BytesIO()
    write_mat(made, arrays)
    made.seek(0)
    read = reader.loadmat(made)
    assert {name for name in read if name[0] != "_"} == set(arrays)
    for name, array in arrays.items():
        assert read[name].dtype == array.dtype and np.array_equal(read[name].reshape(array.shape), array), name


def test_words_of_verilog(tmp_path):
    assert write_words(tmp_path / "made", [made_by_hand()]) == 4
    words = {path.stem: path.read_text().splitlines() for path in (tmp_path / "made").glob("*.mem")}
    assert words["frame3-gathered"][:3] == ["// frame 3: a rate", "// gathered: bits; by the proved library", "// symbol 0 to 0, encoder 0 to 1, index 0 to 2"]
    assert {name: lines[3:] for name, lines in words.items()} == {
        "frame3-gathered": ["0", "1", "x", "1", "1", "0"], "frame3-labels": ["2b", "00", "xx", "xx"],
        "frame3-points": ["01ff", "03fd", "ff00", "0100"], "frame3-samples": ["0200fc00", "00000800"]}


@proved
def test_the_command(here, tmp_path):
    path = VECTORS / "legacy" / "many-frames.lgtx"
    done = here("stages", path, "--frame", 3, "--csv", "-", "--npz", "x.npz", "--mat", "x.mat", "--readmemh", "words")
    assert done.returncode == 0 and done.stdout.startswith(b"frame,stage,source,") and done.stderr == b"words: 7 files\n"
    with np.load(tmp_path / "x.npz") as arrays:
        assert {name.partition("_")[0] for name in arrays} == {"frame3"} and arrays["frame3_points"].dtype == np.int8
    assert here("stages", VECTORS / "worked" / "a5.httx").stdout.startswith(b"frame 0: 20 MHz, MCS 0 (BPSK 1/2, 1 stream), 1 octet, seed 127\n\ndata: ")
    for words, said in (((path, "--frame", 20), f"{path}: there is no frame 20 in it"),
                        ((LEGACY / "fault2.lgcp",), f"{LEGACY / 'fault2.lgcp'}: refused BadMcs at 7"),
                        ((path, "--npz", "x.npz"), "x.npz is there already, and only --force overwrites it")):
        done = here("stages", *words)
        assert (done.returncode, done.stdout, done.stderr.decode()) == (2, b"", f"mizgaure: {said}\n")


def by_program(radio, path):
    """The stages that the program gives of the frames of a file, each by name, and all names, those left out included, in the page's order."""
    for staged in stages.stages_of(path, radio=radio):
        left_out = [name for reason in staged.left_out for name in reason.partition(":")[0].split(", ")]
        yield {stage.name: stage for stage in staged.stages}, {stage.name for stage in staged.stages}.union(left_out)


SENT = {"data", "scrambled", "coded", "punctured", "parsed", "interleaved", "points", "samples"}
RECEIVED = {"points", "labels", "demapped", "deinterleaved", "gathered", "depunctured", "decoded", "descrambled", "octets"}


@pytest.mark.parametrize("bandwidth", [20, 40])
def test_points_and_octets_of_the_program_are_another_programs(radio, bandwidth):
    """Without the library: what `tx`, `detect` and `rx` say, and the names of all else."""
    for mcs in range(0, 32, 5):
        rate, path = Rate(bandwidth, mcs), VECTORS / "rates" / f"bw{bandwidth // 40}-mcs{mcs:02}"
        (sent,) = read_htsy(path.with_suffix(".htsy"))
        ((found, names),) = by_program(radio, path.with_suffix(".httx"))
        points = found["points"].values
        assert np.array_equal(points[..., 0] + 1j * points[..., 1], sent.points) and names == SENT
        assert {name: stage.source for name, stage in found.items()} == {"data": TOOLS, "points": PROGRAM, "samples": TOOLS}
        jobs, answer = (next(iter(read_answers(path.with_suffix(ending)))) for ending in (".detect", ".rx"))
        ((found, names),) = by_program(radio, path.with_suffix(".htcp"))
        points, data = found["points"].values, jobs.points.reshape(len(sent.points), -1, rate.streams)[:, ~rate.is_pilot]
        assert np.array_equal(points[..., 0] + 1j * points[..., 1], data) and found["octets"].values.tobytes() == answer.octets
        assert names == RECEIVED and {stage.source for stage in found.values()} == {PROGRAM} and f"at {answer.code} differences" in found["octets"].text


def test_erasures_and_clause_18_of_the_program(radio):
    for path in sorted((VECTORS / "version2").glob("*.rx")):
        for (found, names), answer in zip(by_program(radio, path.with_suffix(".htcp")), read_answers(path)):
            assert names == RECEIVED and ("octets" in found) == (answer.octets is not None)
            assert answer.octets is None or found["octets"].values.tobytes() == answer.octets
            assert not found["points"].values.any(axis=(0, 2, 3)).all()
    ((found, names),) = by_program(radio, LEGACY / "annex-l1.lgtx")
    assert list(map(tuple, found["points"].values[0, :14, 0].tolist())) == ANNEX and names == SENT - {"parsed"}
    ((found, names),) = by_program(radio, LEGACY / "annex-l1.lgcp")
    assert found["octets"].values.tobytes() == (LEGACY / "annex-l1.lgtx").read_bytes()[-100:] and names == RECEIVED - {"gathered"} and len(found) == 1


def test_the_page_has_all_stages():
    page = (TOP / "docs" / "CHAIN.md").read_text()
    for names in (SENT, RECEIVED):
        assert any(names == {cell.split("`")[1] for cell in row.split("|")[2].split(",")} for row in page.splitlines()
                   if row.startswith(("| frames (", "| captures (")))


def test_without_the_library(radio, tmp_path):
    """The command goes by the program, and says what is left out, and that the library that was named isn't there; without the program
    either, one line says so.
    """
    none = tmp_path / "none.so"
    remark = (f"mizgaure: there is no proved library at {none} (MIZGAURE_LIBRARY names one): {none}: cannot open shared object file: "
              "No such file or directory; the program is run\n")

    def stage(program, *words):
        environment = {**os.environ, "MIZGAURE_LIBRARY": str(none), "MIZGAURE_RADIO": program, "PYTHONPATH": str(TOP / "tools" / "src")}
        return subprocess.run([sys.executable, "-m", "mizgaure", "stages", *map(str, words)], env=environment, cwd=tmp_path, capture_output=True,
                              text=True, check=False)

    done = stage(radio.path, VECTORS / "worked" / "a5.httx")
    left_out = "scrambled, coded, punctured, parsed, interleaved: the library alone gives them (docs/LIBRARY.md), and these values are the program's\n"
    assert (done.returncode, done.stderr) == (0, remark) and done.stdout.endswith(f"\n{left_out}\n") and "; by the proved program radio\n" in done.stdout
    done = stage(radio.path, VECTORS / "worked" / "a5.httx", "--csv", "-")
    assert (done.returncode, done.stderr) == (0, f"{remark}mizgaure: left out of frame 0: {left_out}") and ",points,program," in done.stdout
    done = stage(str(tmp_path / "none"), VECTORS / "worked" / "a5.httx")
    assert (done.returncode, done.stdout, done.stderr) == (2, "", f"mizgaure: {tmp_path / 'none'} is no program that can be run\n")
