"""Records for other programs: JSON lines and CSV of measures and sweeps."""

import csv
import io
import json
import math

import numpy as np
import pytest
from conftest import VECTORS

from mizgaure.measures import FrameProportion, Proportion
from mizgaure.tables import plain, rate_columns, write_csv, write_json_lines

ONE, TWO = VECTORS / "rates" / "bw0-mcs09.htcp", VECTORS / "rates" / "bw1-mcs17.htcp"


def test_values_as_other_programs_read_them():
    made = io.BytesIO()
    write_json_lines(made, [{"a": np.float64("nan"), "b": np.array([[1.5, math.inf]]), "c": np.bool_(True), "d": np.int64(3), "e": "x"}])
    assert made.getvalue() == b'{"a": null, "b": [[1.5, null]], "c": true, "d": 3, "e": "x"}\n'
    made = io.BytesIO()
    write_csv(made, [{"a": float("nan"), "b": True}, {"a": np.float64(0.5), "c": 'say "x", y'}], ("a", "b", "c"))
    assert made.getvalue() == b'a,b,c\n,true,\n0.5,,"say ""x"", y"\n'
    assert plain(np.zeros(2, np.int8)) == [0, 0] and plain(None) is None


def test_the_columns_of_a_rate():
    pytest.importorskip("scipy")
    found = rate_columns("per", Proportion(1, 10))
    assert list(found) == ["per_errors", "per_trials", "per", "per_low", "per_high"]
    assert found["per"] == 0.1 and found["per_low"] == pytest.approx(0.01788, abs=1e-5)
    assert rate_columns("ser", FrameProportion({(1, 10): 1}))["ser_high"] == 1


def rows_of(path):
    with open(path, newline="") as stream:
        return list(csv.DictReader(stream))


def test_measures_of_many_captures(command, tmp_path):
    done = command("measure", ONE, TWO, "--sent", ONE.with_suffix(".httx"), "--sent", TWO.with_suffix(".htsy"), "--csv", "m.csv", "--json", "m.jsonl")
    said = done.stdout.decode().splitlines()
    assert done.returncode == 0 and said[0] == f"{ONE}:" and said[2] == f"{TWO}:" and said[1].startswith("frame 0: 20 MHz, MCS 9 ")
    first, second = rows_of(tmp_path / "m.csv")
    assert (first["file"], first["frame"], first["mcs"], second["bandwidth"], second["mcs"]) == (str(ONE), "0", "9", "40", "17")
    assert first["evm_stream2"] and not first["evm_stream3"] and second["evm_stream3"] and first["within"] in ("true", "false")
    assert float(first["evm_db"]) == pytest.approx(20 * math.log10(float(first["evm"])))
    assert first["frame_wrong"] == "false" and first["octet_bit_errors"] == "0" and not first["points"]
    assert second["point_errors"] == "0" and int(second["points"]) > 0 and not second["frame_wrong"]
    lines = [json.loads(line) for line in (tmp_path / "m.jsonl").read_text().splitlines()]
    assert [line["file"] for line in lines[:2]] == [str(ONE), str(TWO)] and len(lines[0]["evm_cells"]) == 56 and len(lines[1]["residual_cells"][0]) == 3
    assert [line["test"].split(" (")[0] for line in lines[2:4]] == ["20 MHz, MCS 9", "40 MHz, MCS 17"] and not lines[2]["full"]
    assert [line["rate"] for line in lines[4:]] == ["bit error rate before the decoder", "symbol error rate", "bit error rate of octets", "frame error rate"]
    for words, told in (((ONE, TWO, "--sent", ONE), "--sent comes once for each capture: captures 2, --sent 1"),
                        (("-", "-"), "only one capture can be standard input")):
        done = command("measure", *words)
        assert done.returncode == 2 and done.stderr.decode() == f"mizgaure: {told}\n"


def test_a_sweep_as_a_table(command, tmp_path):
    pytest.importorskip("scipy")
    assert command("sweep", "--length", 5, "--snr", "-5,40", "--frames", 4, "--processes", 1, "--csv", "s.csv").returncode == 0
    low, high = rows_of(tmp_path / "s.csv")
    assert float(low["snr"]) == -5 and float(low["ser"]) > float(high["ser"]) == 0 and int(low["ser_trials"]) == 4 * 52 * 2
    assert float(low["ser_low"]) < float(low["ser"]) < float(low["ser_high"]) and float(high["ser_high"]) == pytest.approx(1 - 0.025**0.25)
