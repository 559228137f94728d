"""The package as pip installs it: without a net, and with nothing left in its folder."""

import csv
import importlib.util
import os
import shutil
import subprocess
import sys
import tarfile
import zipfile

import pytest
from conftest import TOP

WITHOUT_NET = {"PIP_NO_INDEX": "1", "PIP_DISABLE_PIP_VERSION_CHECK": "1", "PIP_CONFIG_FILE": os.devnull, "PIP_FIND_LINKS": ""}


@pytest.fixture
def environment():
    """That of a user, whose Python keeps what it compiles."""
    found = {**os.environ, **WITHOUT_NET}
    found.pop("PYTHONDONTWRITEBYTECODE", None)
    found.pop("PYTHONPATH", None)
    return found


@pytest.fixture
def folder(tmp_path):
    """A copy of tools/ in which what would be left can be seen."""
    skipped = shutil.ignore_patterns("__pycache__", ".pytest_cache", ".hypothesis", "tests")
    return shutil.copytree(TOP / "tools", tmp_path / "tools", ignore=skipped)


def sources(folder):
    return {path.relative_to(folder).as_posix() for path in folder.rglob("*.py")}


def test_archives_are_built_by_python_alone(folder, environment, tmp_path):
    """As pip calls the backend, without a package beside Python's library; what is in a wheel runs as it is."""
    if sys.version_info < (3, 11) and not importlib.util.find_spec("tomli"):
        pytest.skip("this Python has neither tomllib (3.11) nor tomli")
    before = sorted(folder.rglob("*"))
    calls = "import build_backend as b; assert b.get_requires_for_build_wheel() == []; print(b.build_wheel('..')); print(b.build_sdist('..'))"
    words = [sys.executable, *(["-S"] if sys.version_info >= (3, 11) else []), "-c", calls]
    done = subprocess.run(words, cwd=folder, env=environment, capture_output=True, text=True, check=True)
    assert sorted(folder.rglob("*")) == before
    wheel, sdist = (tmp_path / name for name in done.stdout.split())
    with zipfile.ZipFile(wheel) as archive:
        names = set(archive.namelist())
        assert {name for name in names if name.endswith(".py")} == sources(folder / "src")
        (record,) = (name for name in names if name.endswith(".dist-info/RECORD"))
        assert {row[0] for row in csv.reader(archive.read(record).decode().splitlines())} == names
    with tarfile.open(sdist) as archive:
        packed = {name.partition("/")[2] for name in archive.getnames()}
    assert packed == {f"src/{name}" for name in sources(folder / "src")} | {"PKG-INFO", "README.md", "pyproject.toml", "build_backend.py"}
    run = subprocess.run([sys.executable, "-m", "mizgaure", "--version"], env={**environment, "PYTHONPATH": str(wheel)}, cwd=tmp_path,
                         capture_output=True, text=True, check=True)
    assert run.stdout.startswith("mizgaure tools ")


def test_a_wheel_with_a_library_says_where_it_runs(folder, tmp_path):
    """Installers take it for its platform alone, and find in it the library and its header beside the modules and what it was made of."""
    if sys.version_info < (3, 11) and not importlib.util.find_spec("tomli"):
        pytest.skip("this Python has neither tomllib (3.11) nor tomli")
    (tmp_path / "library").write_bytes(b"octets of a library")
    (tmp_path / "made").write_text("mizgaure of a commit\n")
    (tmp_path / "header").write_bytes(b"calls of a library")
    settings = {"library": str(tmp_path / "library"), "header": str(tmp_path / "header"), "platform": "manylinux_2_17_x86_64", "version": str(tmp_path / "made")}
    calls = f"import build_backend as b; print(b.build_wheel('..', {settings!r}))"
    done = subprocess.run([sys.executable, "-c", calls], cwd=folder, capture_output=True, text=True, check=True)
    assert done.stdout == "mizgaure-0.1.0-py3-none-manylinux_2_17_x86_64.whl\n"
    with zipfile.ZipFile(tmp_path / done.stdout.strip()) as archive:
        assert archive.read("mizgaure/libmizgaure.so.0") == b"octets of a library"
        assert archive.read("mizgaure/mizgaure.h") == b"calls of a library"
        assert archive.read("mizgaure-0.1.0.dist-info/version") == b"mizgaure of a commit\n"
        said = archive.read("mizgaure-0.1.0.dist-info/WHEEL").decode().splitlines()
    assert "Root-Is-Purelib: false" in said and "Tag: py3-none-manylinux_2_17_x86_64" in said


def test_it_is_installed_without_a_net_and_leaves_nothing_behind(folder, environment, tmp_path):
    if not importlib.util.find_spec("pip"):
        pytest.skip("this Python has no pip, which Debian's python3-pip gives")
    before = sorted(folder.rglob("*"))
    there = tmp_path / "there"
    done = subprocess.run([sys.executable, "-m", "pip", "install", "--no-deps", "--target", str(there), str(folder)], env=environment,
                          capture_output=True, text=True, check=False)
    assert done.returncode == 0, done.stderr
    assert sorted(folder.rglob("*")) == before
    assert sources(there) == sources(folder / "src")
    run = subprocess.run([str(there / "bin" / "mizgaure"), "--version"], env={**environment, "PYTHONPATH": str(there)}, cwd=tmp_path,
                         capture_output=True, text=True, check=True)
    assert run.stdout.startswith("mizgaure tools ")
