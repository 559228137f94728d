"""What the tests share: the repository's folders, the program, other programs that look at what was written, and small captures."""

from __future__ import annotations

import io
import os
import subprocess
import sys
from pathlib import Path
from typing import Sequence

import numpy as np
import pytest

from mizgaure import CaptureFrame, Radio, Rate, cli, write_htcp

TOP = Path(__file__).resolve().parents[2]
VECTORS = TOP / "vectors"
BUILT = TOP / "crates" / "ht_radio" / "out" / "ht_radio"


# Other programs that look at what was written: the package of each, and how its version in Debian 12 begins.
DEBIAN_12 = {"fish": ("fish", "3.6."), "man": ("man-db", "2.11."), "mandoc": ("mandoc", "1.14.6-"), "tshark": ("tshark", "4.0."), "zsh": ("zsh", "5.9-")}

# Pictures are drawn by matplotlib's own settings, and by no user's.
os.environ["MATPLOTLIBRC"] = os.devnull


def other_program(name: str) -> str:
    """The path of another program in its version of Debian 12; with no other version, which may say other things, is anything compared."""
    package, version = DEBIAN_12[name]
    try:
        asked = subprocess.run(["dpkg-query", "-W", "-f", "${db:Status-Status} ${Version}", package], capture_output=True, text=True, check=False).stdout
    except OSError:
        asked = ""
    path = f"/usr/bin/{name}"
    if not asked.startswith(f"installed {version}") or not os.access(path, os.X_OK):
        pytest.skip(f"there is no {name} of Debian 12, which .ci/tools installs there")
    return path


@pytest.fixture
def tshark(tmp_path_factory):
    """Wireshark's reading, without a user's settings: words to the lines that it prints."""
    path, home = other_program("tshark"), str(tmp_path_factory.mktemp("home"))

    def run(*words: object) -> list[str]:
        environment = {"PATH": "/usr/bin:/bin", "HOME": home, "LANG": "C.UTF-8"}
        done = subprocess.run([path, *map(str, words)], capture_output=True, text=True, env=environment, check=False)
        assert done.returncode == 0, done.stderr
        return done.stdout.splitlines()

    return run


def vectors(ending: str) -> list:
    """The vectors with an ending that are no files at fault, as parameters of a test."""
    paths = [path for path in sorted(VECTORS.glob(f"*/*{ending}")) if "-bad-" not in path.stem]
    return [pytest.param(path, id=f"{path.parent.name}-{path.stem}") for path in paths]


@pytest.fixture(scope="session")
def radio() -> Radio:
    """The program; never built by a test."""
    path = os.environ.get("MIZGAURE_RADIO") or str(BUILT)
    if not os.path.exists(path):
        pytest.skip("the program isn't built: run ./radio once, or set MIZGAURE_RADIO")
    return Radio(path, progress=False)


@pytest.fixture
def command(radio, tmp_path):
    """The command mizgaure, as a user runs it: words to the finished process."""

    def run(*words: object, given: bytes = b"") -> subprocess.CompletedProcess:
        environment = {**os.environ, "MIZGAURE_RADIO": radio.path, "MIZGAURE_PYTHON": sys.executable}
        return subprocess.run([str(TOP / "tools" / "mizgaure"), *map(str, words)], input=given, capture_output=True, cwd=tmp_path,
                              env=environment, timeout=100, check=False)

    return run


@pytest.fixture
def here(radio, tmp_path, monkeypatch, capsysbinary):
    """The command in this process, which is faster than one of its own: words to the finished run."""

    def run(*words: object, given: bytes = b"") -> subprocess.CompletedProcess:
        capsysbinary.readouterr()
        monkeypatch.setattr(sys, "stdin", io.TextIOWrapper(io.BytesIO(given)))
        try:
            status = cli.main([str(word) for word in words])
        except SystemExit as ended:
            status = ended.code
        return subprocess.CompletedProcess(words, status, *capsysbinary.readouterr())

    monkeypatch.chdir(tmp_path)
    monkeypatch.setenv("MIZGAURE_RADIO", radio.path)
    monkeypatch.setattr("mizgaure.inside.library", None)  # test_inside.py looks at what the library says in its place
    return run


def octets_of(frames: Sequence[CaptureFrame], **options) -> bytes:
    """A capture in memory."""
    made = io.BytesIO()
    write_htcp(made, frames, **options)
    return made.getvalue()


def random_frame(rate: Rate, length: int, seed: int, largest: int = 200, noise: int = 60) -> CaptureFrame:
    """A frame of small whole numbers, with points sent through its triangles."""
    random = np.random.default_rng(seed)
    n, carriers, symbols = rate.streams, rate.subcarriers, rate.symbols(length)
    triangles = np.triu(random.integers(-largest, largest + 1, (carriers, n, n)) + 1j * random.integers(-largest, largest + 1, (carriers, n, n)), 1)
    triangles = triangles + np.eye(n) * random.integers(1, largest, (carriers, n))[:, :, None]
    points = rate.points[random.integers(0, rate.points.size, (symbols, carriers, n))]
    points[:, rate.is_pilot] = rate.pilot_signs(symbols)
    samples = np.einsum("ckl,scl->sck", triangles, points)
    samples += random.integers(-noise, noise + 1, samples.shape) + 1j * random.integers(-noise, noise + 1, samples.shape)
    return CaptureFrame(rate, length, triangles, samples)


def grid_of(rate: Rate) -> np.ndarray:
    """All vectors of the constellation in the order that decides ties: shape (vectors, streams)."""
    points = np.array(sorted(rate.points, key=lambda point: (point.real, point.imag)))
    return np.stack(np.meshgrid(*[points] * rate.streams, indexing="ij"), axis=-1).reshape(-1, rate.streams)


def exhaustive(triangles: np.ndarray, samples: np.ndarray, rate: Rate) -> np.ndarray:
    """The first nearest vector of each data subcarrier by trying all: shape (symbols, subcarriers, streams), zeros on pilots."""
    grid = grid_of(rate)
    found = np.zeros(samples.shape, complex)
    for carrier in np.flatnonzero(~rate.is_pilot):
        seen = grid @ triangles[carrier].T
        rest = samples[:, carrier, None, :] - seen[None]
        distance = (rest.real**2 + rest.imag**2).sum(axis=-1)
        found[:, carrier] = grid[distance.argmin(axis=1)]
    return found
