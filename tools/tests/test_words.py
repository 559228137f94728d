"""docs/words --check says what differs: in a copy of the tree with one text changed it has to fail."""

import shutil
import subprocess
import sys

import pytest
from conftest import TOP

PAGE, LINES = "docs/COMMANDS.md", "crates/ht_text/specs/Lines.antt"


@pytest.fixture(scope="module")
def copy(tmp_path_factory):
    """What the script reads of the tree."""
    room = tmp_path_factory.mktemp("words") / "copy"
    left_out = shutil.ignore_patterns("out", "target", "proofs", "must-fail", "*.png", "*.svg", "__pycache__")
    crates = [f"crates/ht_{name}" for name in ("cli", "radio", "text", "words")]
    for name in (".ci", "bench", "checks", "completions", "docs", "examples", "man", "tools/src", *crates):
        shutil.copytree(TOP / name, room / name, ignore=left_out)
    for path in TOP.iterdir():
        if path.is_file():
            shutil.copy(path, room)
    return room


def check(room):
    done = subprocess.run([sys.executable, str(room / "docs" / "words"), "--check"], stdout=subprocess.PIPE, stderr=subprocess.STDOUT, text=True, check=False)
    return done.returncode, done.stdout


def test_the_tree_passes(copy):
    assert check(copy) == (0, "")


@pytest.mark.parametrize("path, old, new, said", [
    (PAGE, "(HTSY) | none |", "(HTSY) | `--seed` |", "the command `tx` has ['seed']"),
    (PAGE, "| 1 to 64 | 4 |", "| 1 to 65 | 4 |", "the option `--workers` has ('1 to 65', '4')"),
    (PAGE, "| the file of their symbols (HTSY) |", "| their symbols (HTSY) |", "man/radio.1: it isn't what docs/words writes"),
    (PAGE, "| `job K yes` |", "| `job K holds` |", "has no line `job # holds`"),
    (PAGE, "| `capture K` | `many` |", "| `capture K` | `several` |", "is written by '`several`', which names no commands"),
    (PAGE, "| `capture K` | `many` |", "| `capture K` | `tx` |", "`tx` writes the file of their symbols (HTSY), and the lines say otherwise"),
    (PAGE, "| the last line of a whole capture, which has N frames |", "| last |", "radio: it isn't what docs/words writes"),
    (PAGE, "`usage: radio COMMAND then", "`usage: radio COMMAND and", "it hasn't the line `usage: radio COMMAND and options as --NAME DIGITS`"),
    (PAGE, "| 5 | NoMemory |", "| 5 | OutOfMemory |", "its statuses aren't those of crates/ht_cli/src/status.rt"),
    (PAGE, "| 6 | |", "| 7 | |", "its statuses without a name aren't those of crates/ht_radio/src/main.rt and radio"),
    (LINES, 'codes " cost "', 'codes " costs "', "has no line `soft # cost # octets #`"),
    (LINES, 'codes "usage: radio', 'codes "usage: radios', "it lacks the line `usage: radios"),
    ("radio", "readers='detect rx", "readers='rx detect", "radio: it isn't what docs/words writes"),
    ("man/radio.1", "\n.B lrx\n", "\n.B lrxx\n", "man/radio.1: it isn't what docs/words writes"),
    ("completions/radio.fish", " -a lrx ", " -a lrxx ", "completions/radio.fish: it isn't what docs/words writes"),
    ("tools/src/mizgaure/program.py", ', "lrx")', ")", "and by docs/COMMANDS.md they are detect lrx many rx soft"),
    ("tools/src/mizgaure/program.py", "6: ", "7: ", "its statuses aren't those of docs/COMMANDS.md"),
    ("install", "set -eu\n", "set -eu\nknown='tx channel upgrade'\n", "install: docs/words doesn't know the list 'tx channel upgrade'"),
    ("install", "set -eu\n", "set -eu\nknown='--seed --noise --frames'\n", "install: docs/words doesn't know the list '--seed --noise --frames'"),
])
def test_a_change_is_refused(copy, path, old, new, said):
    text = (copy / path).read_text()
    assert old in text
    (copy / path).write_text(text.replace(old, new, 1))
    try:
        status, told = check(copy)
    finally:
        (copy / path).write_text(text)
    assert status == 1 and said in told
