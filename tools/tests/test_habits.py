"""Habits of the command: data alone on standard output, no option that does nothing, no traceback, nothing half written, help by example."""

import argparse
import csv
import io
import json
import os
import re
import resource
import shlex
import shutil
import subprocess
import sys
from contextlib import contextmanager

import numpy as np
import pytest
from conftest import TOP, VECTORS, random_frame

from mizgaure import Rate, cli, write_htcp
from mizgaure.commands import COMMANDS, EXAMPLES
from mizgaure.formats import CaptureFrame
from mizgaure.program import Progress

SMALL = VECTORS / "jobs" / "small-mcs09.htcp"
FULL = "No space left on device"

# A table of all commands: words that do something small in the folder of `everything`, and the options that name files, each with what it is
# tried with. Options that may name standard output have a True.
TABLE = {
    "judge": (["c.htcp", "theirs"], {"--json": ("x.jsonl", True)}),
    "check": (["c.htct"], {}),
    "capture": (["frame.npz"], {"-o": ("x.htcp", True)}),
    "example": ([], {"-o": ("x.npz", True), "--sent": ("x.htsy", False)}),
    "show": (["c.htcp"], {}),
    "answers": (["c.htcp"], {"-o": ("x.npz", False)}),
    "measure": (["c.htcp"], {"--json": ("x.jsonl", True), "--csv": ("x.csv", True)}),
    "packets": (["c.htcp"], {"--json": ("x.jsonl", True), "--csv": ("x.csv", True), "-o": ("x.pcap", True)}),
    "frames": (["mpdus"], {"-o": ("x.httx", True)}),
    "bundle": (["c.htcp", "c.htcp"], {"-o": ("x.htmb", True)}),
    "unbundle": (["both.htmb"], {"-o": ("x", False)}),
    "stages": (["sent.httx"], {"--csv": ("x.csv", True), "--npz": ("x.npz", True), "--mat": ("x.mat", True), "--readmemh": ("x", False)}),
    "sweep": (["--length", 5, "--snr", "9", "--frames", 2, "--processes", 1],
              {"-o": ("x.json", True), "--json": ("x.jsonl", True), "--csv": ("x.csv", True), "--picture": ("x.png", False)}),
    "merge": (["sweep.json"], {"-o": ("x.json", True), "--json": ("x.jsonl", True), "--csv": ("x.csv", True), "--picture": ("x.png", False)}),
    "picture": (["sweep", "sweep.json"], {"": ("x.png", False)}),
    "report": (["c.htcp", "--pictures", 0], {"-o": ("x.html", False)}),
    "zero-forcing": (["c.htcp"], {}),
    "waveform": (["sent.htsy"], {"-o": ("x", False)}),
    "record": (["air"], {"-o": ("x.htcp", True), "--json": ("x.jsonl", True), "--csv": ("x.csv", True)}),
    "receive": (["air"], {"-o": ("x.pcap", True), "--json": ("x.jsonl", True), "--csv": ("x.csv", True)}),
    "verdict": (["air"], {"--json": ("x.jsonl", True), "--csv": ("x.csv", True)}),
    "challenge": (["judge", "lab"], {"--json": ("x.jsonl", True), "--csv": ("x.csv", True)}),
}
FILES = {"output", "json", "csv", "npz", "mat", "readmemh", "picture"}  # what options that name files are called
# Those that last long with long inputs, and show how far they are.
LONG = {"judge", "check", "capture", "answers", "measure", "packets", "stages", "sweep", "report", "zero-forcing", "waveform", "record", "receive", "verdict"}


@pytest.fixture(scope="module")
def made(radio, tmp_path_factory):
    """A folder with what the table's words name."""
    folder, before = tmp_path_factory.mktemp("made"), os.getcwd()
    for name, path in (("c.htcp", SMALL), ("theirs", SMALL.with_suffix(".detect")), ("sent.htsy", VECTORS / "worked" / "a5.htsy"),
                       ("sent.httx", VECTORS / "worked" / "a5.httx"), ("mpdus", TOP / "examples" / "mpdus.hex"),
                       ("c.htct", VECTORS / "certificates" / "jobs-even-mcs17.htct")):
        shutil.copy(path, folder / name)
    os.environ["MIZGAURE_RADIO"] = radio.path
    os.chdir(folder)
    try:
        for words in (["waveform", "sent.htsy", "-o", "air"], ["example", "-o", "frame.npz"], ["bundle", "c.htcp", "-o", "both.htmb"],
                      ["sweep", *TABLE["sweep"][0], "-o", "sweep.json"], ["challenge", "sensitivity", "lab", "--mcs", 0, "--packets", 1, "--length", 30]):
            assert cli.main(list(map(str, words))) == 0
    finally:
        os.chdir(before)
    return folder


@pytest.fixture
def everything(made, here, tmp_path):
    """The same in the folder where the command runs."""
    shutil.copytree(made, tmp_path, dirs_exist_ok=True)
    return tmp_path


def files_in(folder):
    return {path.relative_to(folder): path.read_bytes() for path in sorted(folder.rglob("*")) if path.is_file()}


def words_of(name, option, file):
    """The words that write a file; what else has to be written goes nowhere."""
    needed = {"capture": "-o", "example": "-o", "record": "-o"}.get(name)
    more = [] if needed in (None, option) else [needed, "/dev/null"]
    return [name, *TABLE[name][0], *more, *([option] if option else []), file]


@contextmanager
def no_larger_than(octets):
    """While the block lasts no file of this process can be larger, so that writing ends as on a full disk."""
    before = resource.getrlimit(resource.RLIMIT_FSIZE)
    resource.setrlimit(resource.RLIMIT_FSIZE, (octets, before[1]))
    try:
        yield
    finally:
        resource.setrlimit(resource.RLIMIT_FSIZE, before)


def test_the_table_has_all_commands_and_files():
    assert set(TABLE) == {command.name for command in COMMANDS}
    for command in COMMANDS:
        parser = argparse.ArgumentParser()
        command.words(parser)
        named = {action.option_strings[0] if action.option_strings else "" for action in parser._actions if action.dest in FILES}
        assert named <= set(TABLE[command.name][1]), command.name


@pytest.mark.parametrize("name", [name for name, (_, files) in TABLE.items() if files])
def test_what_is_written(here, everything, monkeypatch, name):
    """Each file whole or not at all: on a full disk, at Ctrl-C, and where it is there already; and the same octets on standard output."""
    for option, (file, standard) in TABLE[name][1].items():
        words, before = words_of(name, option, file), files_in(everything)
        with no_larger_than(1):
            done = here(*words)
        last = done.stderr.decode().splitlines()[-1]
        assert done.returncode == 2 and "can't be written: File too large" in last, (words, done.stderr)
        assert last.startswith((f"mizgaure: {file}", *["mizgaure: a temporary file in "] * (name in ("record", "receive"))))
        assert b"Traceback" not in done.stderr and files_in(everything) == before
        if (name, option) != ("sweep", "-o"):  # which is kept as it comes
            with monkeypatch.context() as patched:
                patched.setattr("mizgaure.files._usual_mode", interrupted)
                done = here(*words)
            assert (done.returncode, done.stderr.decode().splitlines()[-1]) == (130, "mizgaure: interrupted") and files_in(everything) == before
        assert here(*words).returncode == 0
        made = files_in(everything)
        assert len(made) > len(before)
        done = here(*words)
        assert done.returncode == 2 and re.match(rb"mizgaure: \S+ is there already, and only --force overwrites it\n", done.stderr)
        assert files_in(everything) == made
        assert here(*words, "--force").returncode == 0 and set(files_in(everything)) == set(made)
        if standard:
            done = here(*words_of(name, option, "-"))
            assert (done.returncode, done.stdout) == (0, (everything / file).read_bytes()), words


def interrupted(_):
    raise KeyboardInterrupt


@pytest.mark.parametrize("name", [name for name, (words, _) in TABLE.items() if words and name not in ("sweep", "challenge")])
def test_a_missing_file_is_named(here, everything, name):
    words = ["none" if (everything / str(word)).is_file() or word == "air" else word for word in TABLE[name][0]]
    done = here(name, *words, *(words_of(name, *next(iter((option, file) for option, (file, _) in TABLE[name][1].items())))[1 + len(words):]
                                if TABLE[name][1] else []))
    assert done.returncode == 2 and re.fullmatch(r"mizgaure: none(\.\S+)? can't be read: No such file or directory\n", done.stderr.decode()), done.stderr


@pytest.mark.parametrize("name", sorted(LONG))
def test_progress(here, everything, monkeypatch, name):
    """On a terminal, here without tqdm, how far a long command is stands in front of the line that it is on."""
    monkeypatch.setitem(sys.modules, "tqdm", None)
    for module in ("program", "commands.base"):
        monkeypatch.setattr(f"mizgaure.{module}.sys", _Instead(sys, stderr=_Instead(sys.stderr, isatty=lambda: True)))
    words = words_of(name, *next(iter((option, file) for option, (file, _) in TABLE[name][1].items()), ("", ""))) if TABLE[name][1] else [name, *TABLE[name][0]]
    done = here(*words)
    assert done.returncode in (0, 1) and re.search(rb"\r[a-z -]+: 100 %", done.stderr), done.stderr


def test_progress_of_a_challenge(here, tmp_path, monkeypatch):
    """Each packet that was written counts, over all recordings; their lines stand alone."""
    monkeypatch.setitem(sys.modules, "tqdm", None)
    monkeypatch.setattr("mizgaure.program.sys", _Instead(sys, stderr=_Instead(sys.stderr, isatty=lambda: True)))
    done = here("challenge", "sensitivity", "lab", "--mcs", "0,7", "--packets", 5, "--length", 30)
    assert done.returncode == 0 and re.findall(r"\rchallenge: (\d+) %", done.stderr.decode()) == [str(percent) for percent in range(10, 101, 10)]
    assert [line.partition(":")[0] for line in done.stdout.decode().splitlines()] == ["lab/sensitivity-20-mcs00", "lab/sensitivity-20-mcs07"]
    assert done.stderr.endswith(b" \r")


class _Instead:
    """Something with other attributes."""

    def __init__(self, what, **others):
        self._what, self._others = what, others

    def __getattr__(self, name):
        return self._others.get(name) or getattr(self._what, name)


@pytest.fixture
def recorded(here, radio, tmp_path):
    """A folder with a capture, answers, a sweep and a recording."""
    (tmp_path / "theirs").write_bytes(SMALL.with_suffix(".detect").read_bytes())
    (tmp_path / "sent.htsy").write_bytes((VECTORS / "worked" / "a5.htsy").read_bytes())
    assert here("waveform", "sent.htsy", "-o", "air").returncode == 0
    assert here("sweep", "--length", 5, "--snr", "9", "--frames", 2, "--processes", 1, "-o", "sweep.json").returncode == 0
    return tmp_path


def json_lines(text):
    return [json.loads(line) for line in text.splitlines()]


def test_data_alone_go_to_standard_output(here, recorded):
    """What is said for people goes to standard error then, and is the same."""
    for words, kinds in ((["judge", SMALL, "theirs"], ["--json"]), (["measure", SMALL], ["--json", "--csv"]), (["packets", SMALL], ["--json", "--csv"]),
                         (["record", "air", "-o", "air.htcp", "--force"], ["--json", "--csv"]), (["merge", "sweep.json"], ["--json", "--csv", "-o"]),
                         (["sweep", "--length", 5, "--snr", "9", "--frames", 2, "--processes", 1], ["--json", "--csv", "-o"])):
        said = here(*words)
        assert said.returncode == 0 and said.stdout and not said.stderr
        for kind in kinds:
            done = here(*words, kind, "-")
            assert done.returncode == 0 and done.stderr == said.stdout
            rows = list(csv.reader(io.StringIO(done.stdout.decode()))) if kind == "--csv" else json_lines(done.stdout)
            assert rows and (kind != "--csv" or {len(row) for row in rows} == {len(rows[0])})
    done = here("measure", SMALL, "--json", "-", "--csv", "-")
    assert done.returncode == 2 and done.stderr == b"mizgaure: only one of --json and --csv can be standard output\n"


@pytest.mark.parametrize("words, said", [
    (["sweep", "--decay", "3", "--channel", "flat"], "--decay is that of the channel exponential, and does nothing to flat"),
    (["sweep", "--profile", "0:0,50:-3"], "--profile is that of the channel tapped, and does nothing to exponential"),
    (["example", "--decay", "0", "--channel", "awgn", "-o", "x.npz"], "--decay is that of the channel exponential, and does nothing to awgn"),
    (["sweep", "--processes", "0"], None), (["sweep", "--antennas", "0"], None), (["answers", SMALL, "--processes", "0"], None),
    (["sweep", "--processes", "2", "--scheduler", "tcp://127.0.0.1:1"], "--processes is said of this machine, and with --scheduler its workers do the work"),
    (["frames", "-", "-o", "x"], "standard input: there is no MPDU in it"),
    (["picture", "sweep", "sweep.json", "x.png", "--frame", "0"], "--frame is said of one frame, and sweep shows all"),
    (["picture", "spectrum", "air", "x.png", "--answers", "y"], "--answers are those to a capture"),
    (["picture", "sweep", "sweep.json", "x.png", "--variable", "y"], "--datatype, --sample-rate, --channels and --variable are said of a recording"),
    (["picture", "sweep", "sweep.json", "x.png", "--radio", "y"], "--radio does nothing here: sweep is drawn without it"),
    (["picture", "evm", SMALL, "x.png", "--answers", "theirs", "--radio", "y"], "--radio does nothing here: --answers are in place of a run of it"),
    (["judge", SMALL, "theirs", "--reference", "theirs", "--radio", "y"], "--radio does nothing here: --reference is in place of a run of it"),
    (["judge", SMALL, "theirs", "--soft", "--without", "jobs"], "--without is said of answers to jobs and frames, and with --soft there are frames alone"),
    (["measure", SMALL, "--answers", "theirs", "--radio", "y"], "--radio does nothing here: --answers are in place of a run of it"),
    (["packets", SMALL, "--answers", "theirs", "--radio", "y"], f"{SMALL}: --radio does nothing here: --answers are in place of a run of it"),
    (["challenge", "judge", "lab", "--radio", "y"], "--radio does nothing here: what a device answers is judged without it"),
    (["challenge", "judge", "lab", "--mcs", "0"], "--mcs is said of recordings that are written"),
    (["challenge", "sensitivity", "lab", "--complete"], "--complete, --csv and --json are said of judge"),
    (["report", "air.sigmf-meta", "-o", "x.html", "--pictures", 1], "--pictures does nothing here: the frames of captures are drawn, and there is none"),
    (["report", SMALL, "-o", "x.html", "--frequency", 5e9], "--frequency does nothing here: it is said of recordings, and there is none"),
    (["report", SMALL, "-o", "x.html", "--shift", 1e6], "--shift does nothing here: it is said of recordings, and there is none"),
    (["report", "air.sigmf-meta", "-o", "x.html", "--radio", "y"], "--radio does nothing here: recordings and sweeps are looked at without it"),
    (["waveform", "sent.htsy", "-o", "x", "--dc-drift", 9], "--dc-drift does nothing here: it turns the level of --dc, and there is none"),
    (["receive", "air", "--full-scale", -20], "--full-scale is said of the levels in --output"),
    (["verdict", "air", "--channels", 1], "--sample-rate and --channels are said of a file of samples, whose --datatype is said, too"),
    (["verdict", "air", "--variable", "y"], "--variable is said of a .mat"),
])
def test_an_option_that_does_nothing_is_refused(here, words, said):
    done = here(*words)
    assert done.returncode == 2 and (said is None or done.stderr.decode() == f"mizgaure: {said}\n")


def test_frames_of_a_pcap_have_an_fcs_or_none(here, tmp_path):
    assert here("frames", TOP / "examples" / "mpdus.hex", "-o", "sent.httx").returncode == 0
    from mizgaure.packets import Packet, Radiotap, write_pcap
    write_pcap("some.pcap", [Packet(bytes(20), Radiotap(has_fcs=False))])
    assert here("frames", "some.pcap", "-o", "x.httx", "--fcs", "add").stderr == (
        b"mizgaure: some.pcap: --fcs is said of hexadecimal lines, and a pcap file says itself whether there is an FCS\n")


@pytest.mark.parametrize("words, near", [(["mesure", "x"], "measure"), (["recieve", "x"], "receive"), (["zero_forcing"], "zero-forcing")])
def test_a_mistyped_command_names_the_nearest(here, words, near):
    done = here(*words)
    assert done.returncode == 2 and done.stderr.decode().splitlines()[-1] == f"mizgaure: error: there is no command {words[0]}; did you mean {near}?"


def test_each_help_has_an_example_that_can_be_given(here):
    assert set(EXAMPLES) == {command.name for command in COMMANDS}
    for name, example in EXAMPLES.items():
        done = here(name, "--help")
        assert done.returncode == 0 and f"\nexample: {example}\n" in done.stdout.decode()
        calls = [call for call in example.split(" | ") if call.startswith("mizgaure ")]
        assert f"mizgaure {name} " in example
        for call in calls:
            words = shlex.split(call.partition(" > ")[0])[1:]
            assert cli.parser().parse_args(words).run is not None


def limited(radio, tmp_path, octets, *words):
    """The command where no file can have more octets, which fails as a full disk does."""
    environment = {"PATH": "/usr/bin:/bin", "MIZGAURE_RADIO": radio.path, "MIZGAURE_PYTHON": sys.executable, "PYTHONDONTWRITEBYTECODE": "1"}
    return subprocess.run([str(TOP / "tools" / "mizgaure"), *map(str, words)], cwd=tmp_path, env=environment, capture_output=True, timeout=100,
                          preexec_fn=lambda: resource.setrlimit(resource.RLIMIT_FSIZE, (octets, octets)), check=False)


def test_a_full_disk_under_a_process(radio, recorded, tmp_path):
    """As the table has it, for the command as a user runs it; what a sweep keeps stays, and can be gone on with."""
    before = {path.name: path.stat().st_size for path in tmp_path.iterdir()}
    done = limited(radio, tmp_path, 1000, "answers", SMALL, "-o", "x")
    assert done.returncode == 2 and done.stderr.decode() == "mizgaure: x can't be written: File too large\n"
    done = limited(radio, tmp_path, 600, "sweep", "--length", 5, "--snr", "9", "--frames", 40, "--chunk", 5, "--processes", 1, "-o", "kept.json")
    assert done.returncode == 2 and re.fullmatch("mizgaure: kept.json can't be written: .*; --resume goes on with it\n", done.stderr.decode())
    assert (tmp_path / "kept.json").stat().st_size <= 600
    (tmp_path / "kept.json").unlink()
    assert {path.name: path.stat().st_size for path in tmp_path.iterdir()} == before


def test_standard_output_on_a_full_disk(radio, command, tmp_path):
    with open("/dev/full", "wb") as full:
        done = subprocess.run([str(TOP / "tools" / "mizgaure"), "show", str(SMALL)], stdout=full, stderr=subprocess.PIPE, check=False,
                              env={"PATH": "/usr/bin:/bin", "MIZGAURE_PYTHON": sys.executable})
    assert done.returncode == 2 and done.stderr.decode().startswith("mizgaure: standard output, or a temporary file in ")
    assert done.stderr.decode().endswith(f": {FULL}\n") and done.stderr.count(b"\n") == 1
    done = command("example", "-o", "/dev/full")
    assert done.returncode == 2 and done.stderr.decode() == f"mizgaure: /dev/full can't be written: {FULL}\n"


def test_an_early_interrupt_shows_no_traceback(tmp_path):
    """A Ctrl-C while the package is imported, which takes most of the time before a command does anything."""
    (tmp_path / "mizgaure").mkdir()
    (tmp_path / "mizgaure" / "__init__.py").write_text("raise KeyboardInterrupt\n")
    start = TOP / "tools" / "src" / "mizgaure" / "start.py"
    done = subprocess.run([sys.executable, str(start), "show", "-"], capture_output=True, check=False, env={"PYTHONPATH": str(tmp_path)})
    assert (done.returncode, done.stdout, done.stderr) == (130, b"", b"mizgaure: interrupted\n")


def test_diagonals_that_are_all_zero_are_said(here, tmp_path):
    words = b": all diagonals are 0: the numbers are too small, or nothing was received"
    rate = Rate(20, 0)
    write_htcp("none.htcp", [CaptureFrame(rate, 1, np.zeros((56, 1, 1), complex), np.zeros((2, 56, 1), complex)), random_frame(rate, 1, seed=1)])
    first, second = here("show", "none.htcp").stdout.splitlines()[1:]
    assert words[2:] in first and words[2:] not in second
    assert here("example", "-o", "frame.npz").returncode == 0
    assert words[2:] in here("capture", "frame.npz", "-o", "low.htcp", "--gain", "1e-9").stderr
    assert words[2:] not in here("capture", "frame.npz", "-o", "made.htcp").stderr


def test_progress_of_a_recording(here, recorded, monkeypatch):
    """How far it was read is told up to its end, and lines stand alone: the bar is taken away for each."""
    told = []

    class Bar(Progress):
        def add(self, count):
            told.append(count)
            super().add(count)

    monkeypatch.setattr("mizgaure.commands.record.Progress", lambda *words, **more: Bar(*words, **{**more, "shown": True}))
    monkeypatch.setitem(sys.modules, "tqdm", None)
    done = here("record", "air", "-o", "other.htcp")
    samples = (recorded / "air.sigmf-data").stat().st_size // 8
    assert done.returncode == 0 and sum(told) == samples and b"\rpackets: 100 %" in done.stderr and done.stderr.endswith(b" \r")
    assert done.stdout.count(b"packet 0 at") == 1 and b"\r" not in done.stdout
