#!/usr/bin/env python3
"""Compares the declarations of the Rust crate with mizgaure.h: each call with the types of its parameters and of its answer, and the version.

usage: declared.py HEADER c.rs lib.rs
"""

import re
import sys
from pathlib import Path

import edges

TYPES = {"bool": "bool", "size_t": "usize"} | {f"{sign}int{bits}_t": f"{sign or 'i'}{bits}" for sign in ("", "u") for bits in (8, 16, 32, 64)}


def named(kind):
    """The type of a header in Rust."""
    if kind.endswith("*"):
        word = "const" if kind.startswith("const ") else "mut"
        return f"*{word} {named(kind.removeprefix('const ').rstrip('* '))}"
    return TYPES.get(kind) or kind.removeprefix("mizgaure_").capitalize()


def main():
    header, crate, top = (Path(name).read_text(encoding="utf-8") for name in sys.argv[1:])
    wanted = {name: ([(word, named(kind)) for kind, word, _ in parameters], named(answer)) for name, answer, parameters in edges.calls(header)}
    found = {}
    for name, inside, answer in re.findall(r"pub fn mizgaure_(\w+)\(([^)]*)\) -> (\w+);", crate):
        found[name] = [tuple(part.strip().split(": ")) for part in inside.split(",") if part.strip()], answer
    wrong = [f"mizgaure_{name}: {wanted.get(name)} in the header, {found.get(name)} in Rust" for name in sorted(wanted.keys() | found.keys())
             if wanted.get(name) != found.get(name)]
    version = re.search(r"#define MIZGAURE_VERSION (\d+)", header)[1]
    if f"pub const VERSION: u32 = {version};" not in top:
        wrong.append(f"the version of the header is {version}, and that of Rust another")
    print("\n".join(wrong) or f"{len(wanted)} calls of version {version} are declared alike")
    return 1 if wrong or not wanted else 0


if __name__ == "__main__":
    sys.exit(main())
