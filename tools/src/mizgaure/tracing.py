"""What makes a report evidence: when and by what it was made, and the digests of what it was made from."""

from __future__ import annotations

import hashlib
import os
import platform
import shlex
import subprocess
from datetime import datetime, timezone
from typing import Iterator, List, Optional, Sequence, Tuple

import numpy as np

from . import __version__
from .air.sigmf import read_json
from .files import reading

PIECE = 1 << 20
# Where the script ``radio`` has its programs, in a clone and installed.
BEHIND = tuple(folder + name for folder, name in (("crates/ht_radio/out/", "ht_radio"), ("crates/ht_radio/out/x86-64-v3/", "ht_radio"),
                                                  ("../lib/mizgaure/", "radio"), ("../lib/mizgaure/x86-64-v3/", "radio")))
# Fields of a recording's metadata that say how it was made, and their names in a report.
MADE = (("core:description", "description"), ("core:author", "recorded by"), ("core:recorder", "recorded with"), ("core:hw", "hardware"))


def digest_of(path: str) -> Tuple[int, str]:
    """The octets of a file, and their SHA-256."""
    digest, octets = hashlib.sha256(), 0
    with reading(path) as stream:
        while piece := stream.read(PIECE):
            digest.update(piece)
            octets += len(piece)
    return octets, digest.hexdigest()


def program_facts(path: str) -> Iterator[Tuple[str, str]]:
    """What is known of the program: its path and its digest, those of the programs that it runs where it is the script ``radio``, and what
    it says of its version and its toolchain."""
    _, digest = digest_of(path)
    yield "program", path
    yield "SHA-256 of the program", digest
    with open(path, "rb") as stream:
        is_script = stream.read(2) == b"#!"
    for name in BEHIND if is_script else ():
        behind = os.path.join(os.path.dirname(os.path.realpath(path)), name)
        if os.path.isfile(behind):
            yield f"SHA-256 of {name}", digest_of(behind)[1]
    try:
        done = subprocess.run([path, "--version"], stdin=subprocess.DEVNULL, capture_output=True, text=True, timeout=60, check=False)
        said = ", ".join(done.stdout.split("\n")[:2]).strip(", ") if done.returncode == 0 else ""
    except (OSError, ValueError, subprocess.TimeoutExpired):
        said = ""
    yield "version and toolchain of the program", said or "not known: this program doesn't say it, as the script radio does"


def facts(words: Sequence[str], program: Optional[str], inputs: Sequence[str]) -> List[Tuple[str, str]]:
    """What stands at the head of a report, as names and values.

    Parameters
    ----------
    words : sequence of str
        The command.
    program : str, optional
        The path of the program, where it was run.
    inputs : sequence of str
        The files that were read.
    """
    made = [("made", f"{datetime.now(timezone.utc):%Y-%m-%d %H:%M:%S} UTC"), ("command", shlex.join(words)),
            ("tools", f"mizgaure tools {__version__}, Python {platform.python_version()}, numpy {np.__version__}"),
            *(program_facts(program) if program else ())]
    for path in inputs:
        octets, digest = digest_of(path)
        made.append((f"SHA-256 of {path}", f"{digest} ({octets:,} octets)"))
    return made


def recorded(path: str) -> List[Tuple[str, str]]:
    """What a .sigmf-meta says of how its samples were made, and when those of its captures were taken; nothing where there is no such file."""
    if not os.path.isfile(path):
        return []
    with reading(path) as stream:
        said = read_json(stream.read(), path, "global")
    times = [capture.get("core:datetime") for capture in said["captures"] if isinstance(capture, dict)]
    found = [(name, said.get(field)) for field, name in MADE] + [("taken", ", ".join(time for time in times if isinstance(time, str)))]
    return [(name, value) for name, value in found if isinstance(value, str) and value]
