"""The examples of docs/PACKETS.md and docs/CLUSTER.md as they stand there, with fewer frames where they would take long."""

import os
import re
import shlex
import shutil
import signal
import socket
import subprocess
import sys
from pathlib import Path

import pytest
from conftest import TOP, octets_of, random_frame

from mizgaure import Rate, read_httx

PACKETS = (TOP / "docs" / "PACKETS.md").read_text()
CLUSTER = (TOP / "docs" / "CLUSTER.md").read_text()
TOLD = r"(?:\d\d:){5}\d\d|Beacon|ARP|is at|Who has"  # of what tshark says of a packet
SWEPT = {"--frames 10000": "--frames 6", "--frames 100": "--frames 6", "--chunk 100": "--chunk 2", "--chunk 50": "--chunk 2", "0:30:2": "5,15"}


def blocks(page, language="text"):
    return re.findall(rf"^```{language}\n(.*?)^```$", page, re.MULTILINE | re.DOTALL)


def block_of(page, word):
    """The one block of a page that has a word."""
    (block,) = (block for block in blocks(page) if word in block)
    return block


def replaced(text, pairs):
    """A text with what each pair says replaced; each has to be in some example."""
    for old, new in pairs.items():
        text = text.replace(old, new)
    return text


def shown(page):
    """The commands of a page that stand with what they print."""
    for block in blocks(page):
        first, *parts = re.split(r"^\$ ", block, flags=re.MULTILINE)
        for part in parts if not first else []:
            command, *lines = part.splitlines()
            yield command, lines


@pytest.fixture
def bash(here, radio, tmp_path):
    """The shell in which the page's commands are run: a command to the lines that it prints."""
    if not radio.knows("channel"):
        pytest.skip("the program has no command channel")
    for name in ("tools", "examples"):
        (tmp_path / name).symlink_to(TOP / name)
    (tmp_path / "radio").symlink_to(radio.path)

    def run(command):
        done = subprocess.run(["bash", "-o", "pipefail", "-c", command], capture_output=True, text=True, env={**os.environ, "MIZGAURE_PYTHON": sys.executable},
                              check=False)
        assert done.returncode == 0, done.stderr
        return done.stdout.splitlines()

    return run


def test_wireshark_shows_the_lines_of_packets(bash, tshark, tmp_path):
    """The addresses and the kind of each packet."""
    for command, lines in shown(PACKETS):
        if command.startswith("tshark"):
            break
        bash(command)
    words = shlex.split(command)
    told = tshark(*words[1:-1], tmp_path / words[-1])
    assert len(told) == len(lines) == 4
    for said, line in zip(told, lines):
        assert re.findall(TOLD, said) == re.findall(TOLD, line) != []


def test_the_examples_of_packets(bash, here, tmp_path):
    """From lines to a capture, its packets, an A-MPDU, the frames again, a report, and the same from Python."""
    pytest.importorskip("matplotlib")
    commands = list(shown(PACKETS))
    assert len(commands) == 5
    for command, lines in commands:
        if not command.startswith("tshark"):
            assert bash(command) == lines
    (again,) = re.findall(r"`(mizgaure frames made\.pcap [^`]*)`", PACKETS)
    assert here(*again.split()[1:]).returncode == 0
    lines = [line.replace(" ", "") for line in (TOP / "examples" / "mpdus.hex").read_text().splitlines() if not line.startswith("#")]
    frames = list(read_httx(tmp_path / "again.httx"))
    assert [frame.octets[:-4].hex() for frame in frames] == lines and {frame.rate for frame in frames} == {Rate(20, 11)}
    shutil.copy("made.htcp", "lab.htcp")
    for command in block_of(PACKETS, "mizgaure report").splitlines():
        bash(command)
    assert (tmp_path / "lab.html").read_text().startswith("<!DOCTYPE html>")
    (python,) = blocks(PACKETS, "python")
    exec(python, {})
    assert here("frames", "made.pcap", "-o", "third.httx").returncode == 0
    assert (tmp_path / "third.httx").read_bytes() == (tmp_path / "again.httx").read_bytes()


def words_of(line):
    """The words of a line of a shell, with names of files put in the place of *."""
    for word in shlex.split(line):
        yield from sorted(map(str, Path().glob(word))) if "*" in word else [word]


def run(here, line):
    """A line of the page's shell: mizgaure, parallel with mizgaure, or cat into a file."""
    words = list(words_of(line))
    if words[0] == "parallel":
        cut = words.index(":::")
        for value in words[cut + 1 :]:
            run(here, shlex.join(word.replace("{}", value) for word in words[1:cut]))
    elif words[0] == "cat":
        assert words[-2] == ">"
        with open(words[-1], "wb") as stream:
            stream.write(b"".join(open(name, "rb").read() for name in words[1:-2]))
    else:
        assert words[0] == "mizgaure"
        done = here(*words[1:])
        assert done.returncode == 0, done.stderr
        return done.stdout


@pytest.fixture
def big(tmp_path):
    (tmp_path / "big.htcp").write_bytes(octets_of([random_frame(Rate(20, 9), 30, seed=n) for n in range(9)]))
    return tmp_path


def test_the_parts_by_parallel(here, big):
    """What is joined is what one run writes, octet for octet, as the page says."""
    pytest.importorskip("matplotlib")
    lines = replaced(block_of(CLUSTER, "parallel mizgaure"), SWEPT).splitlines()
    for line in lines:
        run(here, line)
    assert here("answers", "big.htcp", "-o", "whole.detect").returncode == 0
    assert (big / "big.detect").read_bytes() == (big / "whole.detect").read_bytes()
    (sweep,) = re.findall(r"mizgaure (sweep .*) --part", lines[0])
    assert here(*sweep.split(), "-o", "alone.json", "--csv", "alone.csv").returncode == 0
    assert (big / "whole.json").read_bytes() == (big / "alone.json").read_bytes()
    assert (big / "whole.csv").read_bytes() == (big / "alone.csv").read_bytes() and (big / "whole.png").stat().st_size > 10000


def test_the_array_of_slurm(here, tmp_path, monkeypatch):
    """The script as it stands, task by task, one of which was put back into the queue."""
    script = block_of(CLUSTER, "SLURM_ARRAY_TASK_ID")
    (tmp_path / "script").write_text(replaced(script, SWEPT))
    (tmp_path / "mizgaure").write_text('#!/bin/sh\nprintf "%s\\n" "$@"\n')
    (tmp_path / "mizgaure").chmod(0o755)
    monkeypatch.setenv("PATH", f"{tmp_path}:{os.environ['PATH']}")
    monkeypatch.setenv("SLURM_ARRAY_TASK_COUNT", "3")
    calls = []
    for task in ("1", "2", "3"):
        monkeypatch.setenv("SLURM_ARRAY_TASK_ID", task)
        calls.append(subprocess.run(["sh", "script"], capture_output=True, text=True, check=True).stdout.splitlines())
        assert here(*calls[-1]).returncode == 0
    whole = (tmp_path / "part2.json").read_text()
    (tmp_path / "part2.json").write_text("".join(whole.splitlines(keepends=True)[:2]))
    assert here(*calls[1]).returncode == 0 and (tmp_path / "part2.json").read_text() == whole
    assert here("merge", "part1.json", "part2.json", "part3.json", "-o", "merged.json").returncode == 0
    alone = calls[0][: calls[0].index("--part")]
    assert here(*(word for word in alone if word != "--resume"), "-o", "alone.json").returncode == 0
    assert (tmp_path / "merged.json").read_bytes() == (tmp_path / "alone.json").read_bytes()


def test_a_scheduler_and_its_workers(here, big, radio, monkeypatch):
    """The three parts of the example on this machine, with two worker processes."""
    if not shutil.which("dask-scheduler") or not shutil.which("dask-worker"):
        pytest.skip("there is no dask.distributed, which Debian's python3-distributed gives")
    with socket.socket() as free:
        free.bind(("127.0.0.1", 0))
        port = str(free.getsockname()[1])
    pairs = {**SWEPT, "8786": port, "HOST": "127.0.0.1", "/srv/mizgaure/tools/src": str(TOP / "tools" / "src"), "/srv/mizgaure/bin/radio": radio.path,
             "--nworkers 4": "--nworkers 2"}
    lines = replaced(block_of(CLUSTER, "dask-scheduler"), pairs).splitlines()
    services = []
    try:
        for line in (line for line in lines if not line.startswith("#")):
            if line.startswith("export "):
                for pair in shlex.split(line)[1:]:
                    monkeypatch.setenv(*pair.split("=", 1))
            elif line.startswith("dask-"):
                services.append(subprocess.Popen(shlex.split(line), stdout=subprocess.DEVNULL, stderr=subprocess.DEVNULL))
            else:
                run(here, line)
    finally:
        for service in reversed(services):
            service.send_signal(signal.SIGTERM)
        for service in services:
            service.wait(30)
    assert here("answers", "big.htcp", "-o", "whole.detect").returncode == 0
    assert (big / "big.detect").read_bytes() == (big / "whole.detect").read_bytes()
    (sweep,) = re.findall(r"mizgaure (sweep .*) --scheduler", "\n".join(lines))
    assert here(*sweep.split(), "-o", "alone.json").returncode == 0 and (big / "sweep.json").read_bytes() == (big / "alone.json").read_bytes()
