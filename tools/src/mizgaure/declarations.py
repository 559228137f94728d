"""What ``mizgaure.h`` declares, as ctypes has it: by this ``mizgaure.library`` finds a header that its calls aren't those of."""

from __future__ import annotations

import ctypes
import re
from pathlib import Path
from typing import NamedTuple, Optional

#: The types of parameters and answers; a pointer is an address.
_TYPES = {f"uint{bits}_t": getattr(ctypes, f"c_uint{bits}") for bits in (8, 16, 32, 64)} | {"size_t": ctypes.c_size_t}

#: The types of a call's parameters, and that of its answer.
Signature = tuple[tuple[type, ...], type]


class Declarations(NamedTuple):
    """A version, the calls of that version by name, without ``mizgaure_``, and the faults by name, as ``NO_RATE``, with their numbers."""

    version: int
    calls: dict[str, Signature]
    faults: dict[str, int]

    def difference(self, of: Declarations) -> str:
        """The first thing in which these are others than those of a library, in words; empty where they are the same."""
        if self.version != of.version:
            return f"its calls are those of version {self.version}, and not {of.version}"
        for names, mine, other in (("mizgaure_", self.calls, of.calls), ("MIZGAURE_", self.faults, of.faults)):
            for name in sorted(mine.keys() | other.keys()):
                if mine.get(name) != other.get(name):
                    lacks = "isn't there" if name not in mine else "is more" if name not in other else "is another"
                    return f"{names}{name} {lacks}"
        return ""


def _kind(words: str) -> Optional[type]:
    return ctypes.c_void_p if "*" in words else _TYPES.get(words.split()[0])


def read_declarations(header: str) -> Declarations:
    """The declarations in the text of a header. What it has of no known type differs from everything."""
    version = re.search(r"^#define MIZGAURE_VERSION (\d+)$", header, re.MULTILINE)
    bare = re.sub(r"/\*.*?\*/", "", header, flags=re.DOTALL)
    calls = {}
    for answer, name, inside in re.findall(r"^(\w+) mizgaure_(\w+)\(([^)]*)\);", bare, re.MULTILINE):
        calls[name] = tuple(map(_kind, inside.split(","))) if inside != "void" else (), _kind(answer)
    inside = bare.partition("enum mizgaure_fault {")[2].partition("}")[0]
    faults = {name: int(number) for name, number in re.findall(r"MIZGAURE_(\w+) = (\d+)", inside)}
    return Declarations(int(version[1]) if version else 0, calls, faults)


def header_of(library: Path) -> Optional[Path]:
    """The header that comes with a library: beside it, or in ``include`` beside the folder ``lib`` that it lies below."""
    real = library.resolve()
    within = [folder.parent / "include" / "mizgaure.h" for folder in real.parents if folder.name in ("lib", "lib64")][:1]
    return next((path for path in (library.with_name("mizgaure.h"), real.with_name("mizgaure.h"), *within) if path.is_file()), None)
