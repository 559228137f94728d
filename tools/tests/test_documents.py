"""The numbers that the pages say, computed."""

import re
import runpy

import numpy as np
import pytest
from conftest import TOP, exhaustive, octets_of

from mizgaure import MeasuredFrame, Rate, capture, judge
from mizgaure.quantise import rounding_bound

CAPTURES = (TOP / "docs" / "CAPTURES.md").read_text()


def test_the_subcarrier_by_hand(radio):
    """docs/CAPTURES.md, one subcarrier by hand: its octets, its line, its distances and its bound."""
    rate = Rate(20, 9)
    factors = np.where(rate.is_pilot, 1, rate.normalising_factor)
    channel = np.array([[3, 1j], [4, 2j]]) / factors[:, None, None]
    received = np.tile(np.array([2.1 - 4j, 2 - 6.2j]), (rate.symbols(1), 56, 1))
    made = capture([MeasuredFrame(20, 9, 1, channel, received)], gain=16)
    (frame,) = made.frames
    octets = octets_of(made.frames)
    assert octets[11:19].hex(" ", 2) == "0050 0000 0023 0006" and "`0050 0000 0023 0006`" in CAPTURES
    sample = octets[11 + 56 * 8 :][:16].hex(" ", 4)
    assert sample == "0000002e ffffff8a fffffff8 00000008" and f"`{sample}`" in CAPTURES
    with radio.text("detect", octets) as lines:
        assert lines.read().startswith(b"job 0 0 0 18 1 -1 -1 1\n") and "`job 0 0 0 18 1 -1 -1 1`" in CAPTURES
    assert exhaustive(frame.triangles, frame.samples, rate)[0, 0].tolist() == [1 - 1j, -1 + 1j]
    levels = [i + 1j * q for i in (-1, 1) for q in (-1, 1)]
    every = sorted(float((abs(frame.samples[0, 0] - frame.triangles[0] @ np.array([a, b])) ** 2).sum()) for a in levels for b in levels)
    assert every[:2] == pytest.approx([18, 4970]) and "the next one is at 4970" in CAPTURES
    true = (abs(received[0, 0] - np.array([[3, 1j], [4, 2j]]) @ np.array([1 - 1j, -1 + 1j])) ** 2).sum()
    assert true == pytest.approx(0.05) and 16 * true**0.5 == pytest.approx(3.58, abs=0.005) and 18**0.5 == pytest.approx(4.24, abs=0.005)
    assert made.bounds[0] == pytest.approx(3.16, abs=0.005)


def test_the_table_of_bounds():
    rows = re.findall(r"^\| (BPSK|QPSK|16-QAM|64-QAM) \| (.*) \|$", CAPTURES, re.MULTILINE)
    assert [name for name, _ in rows] == ["BPSK", "QPSK", "16-QAM", "64-QAM"]
    for (_, cells), scheme in zip(rows, (0, 1, 3, 5)):
        assert cells == " | ".join(f"{rounding_bound(Rate(20, 8 * n + scheme)):.1f}" for n in range(4))


def test_the_judges_lines_of_the_first_page(command):
    """tools/README.md shows what the judge says of the zero-forcing detector on a vector."""
    page = (TOP / "tools" / "README.md").read_text()
    path = TOP / "vectors" / "jobs" / "small-mcs09.htcp"
    theirs = command("zero-forcing", path).stdout
    said = command("judge", path, "-", given=theirs).stdout.decode().splitlines()
    assert said[0] in page and said[-1] in page
    assert judge(path, theirs, reference=path.with_suffix(".detect").read_bytes()).job_counts["tie"] == 1
    made = command("example", "--mcs", 11, "--length", 700, "-o", "frame.npz"), command("capture", "frame.npz", "-o", "made.htcp")
    assert made[1].stderr.decode().strip() in page


def test_the_planted_mistakes():
    """tools/README.md has their number, what is mistaken stands once in its module, and there are the tests that have to find it."""
    mistakes = runpy.run_path(str(TOP / "tools" / "plant"))["MISTAKES"]
    assert f"plants {len(mistakes)} mistakes" in (TOP / "tools" / "README.md").read_text()
    for _, module, old, new, tests in mistakes:
        text = (TOP / "tools" / "src" / "mizgaure" / module).read_text()
        assert text.count(old) == 1 and new != old
        for test in tests.split():
            module, _, word = test.partition(":")
            assert re.search(rf"^def test_\w*{word.removeprefix('test_')}", (TOP / "tools" / "tests" / f"test_{module}.py").read_text(), re.MULTILINE), test


def test_the_table_of_soft_decisions():
    """docs/RECORDINGS.md has the rows that docs/pictures/recorded makes of the results that it keeps."""
    script = runpy.run_path(str(TOP / "docs" / "pictures" / "recorded"))
    found = script["kept"]()
    page = (TOP / "docs" / "RECORDINGS.md").read_text().splitlines()
    assert all(script["row_of"](found, mcs) in page for mcs in script["POINTS"])


def test_each_picture_is_shown_and_is_made_by_a_script():
    """Whatever a page shows is there, and each picture that is there is on a page and in a script beside it."""
    folder = TOP / "docs" / "pictures"
    shown = {name for page in (TOP / "docs").glob("*.md") for name in re.findall(r"\]\(pictures/([^)]*)\)", page.read_text())}
    assert shown == {path.name for path in folder.glob("*.png")}
    scripts = "".join(path.read_text() for path in folder.iterdir() if path.suffix == "")
    for name in shown:
        assert (folder / name).read_bytes().startswith(b"\x89PNG")
        assert re.search(rf"(?<![\w-]){re.escape(name.partition('.')[0])}(?![\w-])", scripts)
