"""The command as a user meets it: its pages, its refusals, its files, and the examples of the documents."""

import os
import re
import signal
import subprocess
import sys
import time
from pathlib import Path

import numpy as np
import pytest
from conftest import TOP, VECTORS, octets_of, other_program, random_frame

from mizgaure import Rate, cli
from mizgaure.sweep import Setting, random_symbols, received_frame

CAPTURES = TOP / "docs" / "CAPTURES.md"
Z = TOP / "examples" / "z.htcp"


def test_the_python_of_the_page_runs_as_it_stands(radio, tmp_path, monkeypatch, capsys):
    pytest.importorskip("matplotlib")
    (block,) = re.findall(r"```python\n(.*?)```", CAPTURES.read_text(), re.DOTALL)
    assert len([line for line in block.splitlines() if line]) <= 10
    random = np.random.default_rng(1)
    setting = Setting(mcs=11, length=700)
    frame = received_frame(setting, 27.0, random_symbols(setting.rate, 700, random), random)
    monkeypatch.chdir(tmp_path)
    monkeypatch.setenv("MIZGAURE_RADIO", radio.path)
    exec(block, {"H": frame.channel, "Y": frame.received})
    assert (tmp_path / "made.png").stat().st_size > 10000 and (tmp_path / "made.htcp").exists()
    said = capsys.readouterr().out
    assert re.fullmatch(r"gain \d+, roots of distances off by at most 7\.6\nerror vector magnitude \d\d\.\d %, residuals [3-7]\.\d %\n", said)


def test_the_shell_of_the_pages(here):
    """The way from an example to a verdict, as tools/README.md has it."""
    assert here("example", "--mcs", 11, "--length", 700, "-o", "frame.npz", "--sent", "sent.htsy").returncode == 0
    made = here("capture", "frame.npz", "-o", "made.htcp")
    assert made.returncode == 0
    assert re.fullmatch(r"frame\.npz: 20 MHz, MCS 11 \(16-QAM 1/2, 2 streams\), 700 octets, gain [\d.]+, "
                        r"the root of a distance is off by at most 7\.62\n", made.stderr.decode())
    measured = here("measure", "made.htcp", "--sent", "sent.htsy", "--json", "measures.jsonl").stdout.decode()
    assert re.search(r"EVM 14\.67 % \(-16\.7 dB\), within -16 dB; stream 1 17\.05 %, stream 2 11\.81 %; residual 6\.60 % \(-23\.6 dB\); stream 1", measured)
    assert "EVM of 1 frame at 20 MHz, MCS 11 (16-QAM 1/2, 2 streams): 14.67 % (-16.7 dB), within the limit of -16 dB" in measured
    assert "symbol error rate" in measured
    answers = here("zero-forcing", "made.htcp")
    verdict = here("judge", "made.htcp", "-", given=answers.stdout)
    assert verdict.returncode == 1 and re.search(rb"jobs 1568: \d+ same, 0 tie, \d+ worse, 0 outside; 0 without an answer", verdict.stdout)
    pytest.importorskip("matplotlib")
    for kind in ("constellation", "evm", "residual", "distances"):
        assert here("picture", kind, "made.htcp", f"{kind}.svg").returncode == 0
    assert here("sweep", "--length", 20, "--snr", "5,15", "--frames", 3, "--processes", 2, "-o", "sweep.json", "--picture", "a.png").returncode == 0
    assert here("picture", "sweep", "sweep.json", "b.pdf").returncode == 0


def test_show_and_answers(command, tmp_path):
    said = command("show", VECTORS / "version2" / "bw0-mcs08.htcp" if (VECTORS / "version2" / "bw0-mcs08.htcp").exists() else Z)
    assert said.returncode == 0 and said.stdout.startswith(b"HTCP version ")
    assert command("show", Z).stdout == b"HTCP version 1, 1 frame\nframe 0: 20 MHz, MCS 0 (BPSK 1/2, 1 stream), 1 octet, 2 symbols\n"
    lines = command("answers", Z)
    assert lines.returncode == 0 and lines.stdout.count(b"\n") == 113 and lines.stdout.endswith(b"end 1 frames\n")
    assert command("answers", Z, "-o", "answers.npz").returncode == 0
    with np.load(tmp_path / "answers.npz") as arrays:
        assert arrays["distance0"].tolist() == [100] * 112 and arrays["points0"].shape == (112, 1)


def test_arrays_of_an_rx_are_numbers(command, tmp_path):
    path = VECTORS / "rates" / "bw0-mcs09.htcp"
    assert command("answers", path, "--command", "rx", "-o", "answers.npz").returncode == 0
    line = path.with_suffix(".rx").read_text().split()
    with np.load(tmp_path / "answers.npz") as arrays:
        for name, word in (("data", line[3]), ("pilot", line[5]), ("code", line[7])):
            assert arrays[name].dtype == np.int64 and arrays[name].tolist() == [int(word)]
        assert arrays["octets"].tolist() == [line[9]]


def test_a_picture_of_one_frame_detects_one_frame(radio, tmp_path):
    """The program gets a capture of the frame alone, and nothing behind the frame is read."""
    pytest.importorskip("matplotlib")
    octets = octets_of([random_frame(Rate(20, mcs), 10, seed=mcs) for mcs in (0, 9, 1)])
    (tmp_path / "some.htcp").write_bytes(octets[:-500])
    counting = tmp_path / "radio"
    counting.write_text(f'#!/bin/sh\ntee "{tmp_path}/input" | "{radio.path}" "$@"\n')
    counting.chmod(0o755)
    assert cli.main(["picture", "evm", str(tmp_path / "some.htcp"), str(tmp_path / "a.svg"), "--frame", "1", "--radio", str(counting)]) == 0
    assert (tmp_path / "input").read_bytes() == octets_of([random_frame(Rate(20, 9), 10, seed=9)])
    assert b"MCS 9" in (tmp_path / "a.svg").read_bytes() or (tmp_path / "a.svg").stat().st_size > 10000


def test_measures_from_kept_lines_and_from_a_pipe(here, tmp_path):
    path = VECTORS / "jobs" / "small-mcs09.htcp"
    (tmp_path / "lines").write_bytes(path.with_suffix(".detect").read_bytes() + path.with_suffix(".rx").read_bytes())
    (tmp_path / "sent").write_bytes(b"x")
    rates = b"bit error rate of octets 6 of 8 = 0.75 (one frame gives no interval)\nframe error rate 1 of 1 = 1 (95 %: 0.207 to 1)\n"
    kept = here("measure", path, "--answers", "lines", "--octets", "sent")
    assert kept.returncode == 0 and kept.stdout.endswith(rates)
    assert here("measure", "-", "--answers", "lines", "--octets", "sent", given=path.read_bytes()).stdout == kept.stdout
    assert here("judge", path, path.with_suffix(".rx"), "--reference", "lines").stdout == (
        b"jobs 0: 56 without an answer\nframes 1: 1 same, 0 tie, 0 wrong; 0 without an answer\n")


def bad_inputs():
    """Words and the one sentence that they get."""
    cut = octets_of([random_frame(Rate(20, 9), 20, seed=1)])[:500]
    yield ["show", "-"], cut, "standard input: refused Truncated at 500"
    yield ["show", "missing"], b"", "missing can't be read: No such file or directory"
    yield ["answers", "-"], cut, "standard input: refused Truncated at 500"
    yield ["answers", "-", "-o", "lines"], cut, "standard input: refused Truncated at 500"
    yield ["answers", "-", "-o", "a.npz"], cut, "standard input: refused Truncated at 500"
    yield ["measure", "-"], cut, "standard input: refused Truncated at 500"
    yield ["judge", "-", Z], b"", None
    yield ["judge", Z, "-"], b"what\n", "standard input: there is no answer to a job or a frame: line 1 is no answer to a job or a frame: 'what'"
    yield ["judge", Z, "-", "--soft", "--without", "jobs"], b"", "--without is said of answers to jobs and frames, and with --soft there are frames alone"
    yield ["judge", "-", "-"], b"", "the capture and the answers can't both be standard input"
    yield ["capture", "missing.npz", "-o", "x"], b"", "missing.npz can't be read: No such file or directory"
    yield ["capture", Z, "-o", "x"], b"", f"{Z}: frame 0: this is no archive of arrays (.npz)"
    yield ["picture", "evm", Z, "x.gif"], b"", "x.gif: a picture's name ends in .png, .svg, .pdf"
    yield ["picture", "evm", Z, "x.png", "--frame", "1"], b"", f"{Z}: it has 1 frame, and no frame 1"
    yield ["picture", "sweep", Z, "x.png"], b"", None
    yield ["sweep", "--mcs", "32"], b"", "the MCS is 32, and only 0 to 31 are known"
    yield ["sweep", "--snr", "a"], b"", None
    yield ["sweep", "--length", "0"], b"", "a frame has 1 to 65535 octets, and not 0"
    yield ["zero-forcing", "-"], b"HTCX", "standard input: refused BadMagic at 3"
    yield ["judge", Z, "-", "--radio", "nowhere"], b"job 0 0 0 1 0\n", "nowhere is no program that can be run"
    yield ["judge", Z, "-", "--radio", "/bin/false"], b"job 0 0 0 1 0\n", None
    yield ["measure", Z, "--sent", Z], b"", f"{Z}: a capture doesn't say what was sent; a file of frames or of symbols does"
    yield ["nothing"], b"", None


@pytest.mark.parametrize("words, given, said", [pytest.param(*case, id=f"{n}-{case[0][0]}") for n, case in enumerate(bad_inputs())])
def test_bad_input_gets_one_sentence(here, command, words, given, said, tmp_path):
    if words[0] == "picture" or said is None:
        pytest.importorskip("matplotlib")
    done = (command if words[0] == "answers" else here)(*words, given=given)  # where radio reads standard input itself
    text = done.stderr.decode()
    assert done.returncode == 2 and "Traceback" not in text
    last = text.splitlines()[-1]
    assert last.startswith("mizgaure") and (said is None or text == f"mizgaure: {said}\n")
    assert [path.name for path in tmp_path.iterdir()] == []


def test_nothing_is_overwritten_without_force(command, tmp_path):
    kept = tmp_path / "kept.npz"
    kept.write_bytes(b"mine")
    done = command("example", "-o", "kept.npz")
    assert done.returncode == 2 and kept.read_bytes() == b"mine"
    assert done.stderr == b"mizgaure: kept.npz is there already, and only --force overwrites it\n"
    assert command("example", "-o", "kept.npz", "--force").returncode == 0 and kept.read_bytes() != b"mine"
    assert [path.name for path in tmp_path.iterdir()] == ["kept.npz"]


@pytest.mark.parametrize("number, status", [(signal.SIGINT, 130), (signal.SIGTERM, 143)])
def test_an_interrupted_run_leaves_no_half_file(radio, tmp_path, tmp_path_factory, number, status):
    """The program's output is being written when the signal comes: its input doesn't end."""
    environment = {**os.environ, "MIZGAURE_RADIO": radio.path, "MIZGAURE_PYTHON": sys.executable}
    said = tmp_path_factory.mktemp("said") / "said"
    with said.open("wb") as errors:
        child = subprocess.Popen([str(TOP / "tools" / "mizgaure"), "answers", "-", "-o", "lines"], stdin=subprocess.PIPE, stderr=errors,
                                 cwd=tmp_path, env=environment)
    child.stdin.write(octets_of([random_frame(Rate(20, 9), 400, seed=1)])[:-1])
    child.stdin.flush()
    for _ in range(400):
        if any(path.stat().st_size for path in tmp_path.iterdir()):
            break
        time.sleep(0.05)
    assert list(tmp_path.iterdir()) and not (tmp_path / "lines").exists()
    child.send_signal(number)
    ended = child.wait(20)
    child.stdin.close()
    assert ended == status and "Traceback" not in said.read_text() and "Fatal" not in said.read_text()
    assert list(tmp_path.iterdir()) == []


def options():
    """All commands and the long options of each."""
    commands = next(action for action in cli.parser()._actions if action.choices and "judge" in action.choices).choices
    return {name: {word for action in made._actions for word in action.option_strings if word.startswith("--")} for name, made in commands.items()}


def test_pages_know_every_command_and_option():
    page = (TOP / "man" / "mizgaure.1").read_text().replace("\\-", "-")
    table = (TOP / "tools" / "README.md").read_text()
    known = {"--help", "--version"}
    for name, words in options().items():
        assert f"`{name} " in table or f"`{name}`" in table
        assert name in page and words <= set(re.findall(r"--[a-z]+(?:-[a-z]+)*", page))
        known |= words
    assert set(re.findall(r"--[a-z]+(?:-[a-z]+)*", page)) <= known


def test_completions_are_those_of_the_words():
    done = subprocess.run([sys.executable, str(TOP / "completions" / "make"), "--check"], capture_output=True, text=True, check=False)
    assert (done.returncode, done.stdout) == (0, "")


def test_completions_of_radio_in_bash():
    """Its commands, and behind each command the options that docs/words lists for it."""
    words = subprocess.run([sys.executable, str(TOP / "docs" / "words"), "--list"], capture_output=True, text=True, check=True).stdout
    known = {command: options for command, *options in map(str.split, words.splitlines())}
    script = f"""source '{TOP}/completions/radio.bash'
for first in {" ".join(known)} ''; do
  COMP_WORDS=(radio $first '') COMP_CWORD=${{first:+2}} COMP_CWORD=${{COMP_CWORD:-1}} COMPREPLY=()
  _radio
  echo "${{COMPREPLY[*]}}"
done"""
    lines = subprocess.run(["bash", "-c", script], capture_output=True, text=True, check=True).stdout.splitlines()
    assert [line.split() for line in lines] == [*known.values(), [*known, "--help", "--version"]]


@pytest.mark.parametrize("page", ["radio", "mizgaure"])
def test_manual_pages_are_in_good_style(page):
    """What the programs that read them complain of most often; this asks for none of them."""
    lines = (TOP / "man" / f"{page}.1").read_bytes().split(b"\n")
    assert lines.pop() == b"" and lines[0].startswith(b".TH ")
    for number, line in enumerate(lines, 1):
        assert line and (line.startswith(b".") or len(line) <= 80) and line == line.rstrip() and line.isascii(), (number, line)
    macros = [line.split()[0] for line in lines if line.startswith(b".")]
    assert macros.count(b".RS") == macros.count(b".RE") and macros.count(b".EX") == macros.count(b".EE")
    sections = [line for line in lines if line.startswith(b".SH")]
    assert sections[:3] == [b".SH NAME", b".SH SYNOPSIS", b".SH DESCRIPTION"] and len(set(sections)) == len(sections)


@pytest.mark.parametrize("page", ["radio", "mizgaure"])
@pytest.mark.parametrize("reader, words", [("man", ["--warnings", "-E", "UTF-8", "-l", "-Tutf8", "-Z"]), ("mandoc", ["-T", "lint"])], ids=["man", "mandoc"])
def test_manual_pages_have_no_warning(reader, words, page, tmp_path):
    environment = {"PATH": "/usr/bin:/bin", "HOME": str(tmp_path), "LANG": "C.UTF-8"}
    done = subprocess.run([other_program(reader), *words, str(TOP / "man" / f"{page}.1")], capture_output=True, env=environment, check=False)
    said = done.stdout if reader == "mandoc" else b""
    assert (done.returncode, said, done.stderr) == (0, b"", b"")


@pytest.mark.parametrize("shell, words", [("bash", ["-n"]), ("zsh", ["-f", "-n"]), ("fish", ["--no-config", "-n"])], ids=["bash", "zsh", "fish"])
def test_completions_parse(shell, words):
    path = "bash" if shell == "bash" else other_program(shell)
    for name in ("radio", "mizgaure"):
        assert subprocess.run([path, *words, str(TOP / "completions" / f"{name}.{shell}")], check=False).returncode == 0


def test_installed_and_removed(radio, tmp_path):
    prefix = tmp_path / "new" / "a place"
    (tmp_path / "mine").write_text("mine")
    environment = {name: value for name, value in os.environ.items() if name != "MIZGAURE_RADIO"}
    install = [str(TOP / "install"), "--prefix", str(prefix)]
    built = {**environment, "MIZGAURE_RADIO": radio.path}
    for _ in range(2):  # a second time over the first
        assert subprocess.run(install, env=built, capture_output=True, check=False).returncode == 0
    run = subprocess.run([str(prefix / "bin" / "mizgaure"), "answers", str(Z)], env={**environment, "MIZGAURE_PYTHON": sys.executable},
                         capture_output=True, check=False)
    assert run.returncode == 0 and run.stdout.endswith(b"end 1 frames\n")
    newer = (prefix / "lib" / "mizgaure" / "x86-64-v3").exists()
    assert {path.name for path in prefix.rglob("*.1")} == {"radio.1", "mizgaure.1"} and len(list(prefix.rglob("*radio*"))) == 6 + newer
    installed = str(prefix / "bin" / "radio")
    done = subprocess.run([installed, "detect"], stdin=Z.open("rb"), env=environment, capture_output=True, check=False)
    assert done.returncode == 0 and done.stdout.endswith(b"end 1 frames\n")
    asked, whole = (subprocess.run([program, "--help"], env=environment, capture_output=True, text=True, check=True).stdout
                    for program in (installed, str(TOP / "radio")))
    assert whole.startswith(asked) and asked.count("\n") > 50 and "The first call" in whole[len(asked) :] and "The first call" not in asked
    said = [subprocess.run([program, "--version"], env=environment, capture_output=True, check=True).stdout for program in (installed, str(TOP / "radio"))]
    commit, built_with, *level = said[0].splitlines()
    assert said[1].splitlines()[0] == commit and commit.startswith(b"mizgaure ") and level in ([b"runs for x86-64-v2"], [b"runs for x86-64-v3"])
    if Path(radio.path).resolve() == TOP / "crates" / "ht_radio" / "out" / "ht_radio":
        assert said[0] == said[1] and built_with.startswith(b"rattle-kit-")
    forced = subprocess.run([installed, "--version"], env={**environment, "MIZGAURE_CPU": "x86-64-v2"}, capture_output=True, check=True)
    assert forced.stdout.endswith(b"runs for x86-64-v2\n")
    wrong = subprocess.run([installed, "detect"], env={**environment, "MIZGAURE_CPU": "x86-64-v9"}, stdin=Z.open("rb"), capture_output=True, check=False)
    assert wrong.returncode == 125 and b"MIZGAURE_CPU" in wrong.stderr
    (prefix / "bin" / "other").write_text("not ours")
    assert subprocess.run([*install, "--remove"], env=environment, capture_output=True, check=False).returncode == 0
    assert [path.relative_to(prefix).as_posix() for path in prefix.rglob("*")] == ["bin", "bin/other"]
    assert subprocess.run([*install, "--remove"], env=environment, capture_output=True, check=False).returncode == 2
    (prefix / "bin" / "radio").write_text("another radio")
    refused = subprocess.run(install, env=built, capture_output=True, check=False)
    assert refused.returncode == 2 and b"is there already" in refused.stderr and (prefix / "bin" / "radio").read_text() == "another radio"
