#!/usr/bin/env python3
"""Reads the calls that mizgaure.h declares. As a program it prints a header by which calls.c makes each of them with each of its arrays
at the edge of what may be read: in pages of its own, inputs read-only, with pages that nobody may touch before the array, or
behind it."""

import re
import sys
from typing import NamedTuple


class Parameter(NamedTuple):
    """A parameter of a call: its type as it stands in the header, its name, and that of its length where it is an array."""

    type: str
    name: str
    length: str

    @property
    def is_pointer(self):
        return self.type.endswith("*")


def calls(header):
    """The calls of the header's text, each name with the type of its answer and its parameters; a pointer with a size_t behind it is an
    array of that length."""
    bare = re.sub(r"/\*.*?\*/", "", header, flags=re.DOTALL)
    for answer, name, inside in re.findall(r"^(uint32_t|uint64_t) mizgaure_(\w+)\(([^)]*)\);", bare, re.MULTILINE):
        parts = [part.split() for part in inside.replace("*", "* ").split(",")] if inside != "void" else []
        pairs = [(" ".join(words[:-1]), words[-1]) for words in parts] + [("", "")]
        sizes = [after[1] if kind.endswith("*") and after[0] == "size_t" else "" for (kind, _), after in zip(pairs, pairs[1:])]
        yield name, answer, [Parameter(kind, word, size) for (kind, word), size in zip(pairs, sizes)]


HEAD = r"""#define _DEFAULT_SOURCE
#include "mizgaure.h"
#include <stdlib.h>
#include <string.h>
#include <sys/mman.h>

enum { EDGE_PAGE = 4096, EDGES = 8 };
static struct { unsigned char *pages, *array; void *of; size_t all, n; bool written; } edges[EDGES];
static int edge_count;

/* The array once more, in pages of its own. Of one that can't be as long as it is said to be no octet may be touched. */
static void *edged(const void *of, size_t n, bool written) {
    if (n > 1 << 30) n = 0;
    size_t room = (n + EDGE_PAGE - 1) / EDGE_PAGE * EDGE_PAGE, all = room + 2 * EDGE_PAGE;
    unsigned char *pages = mmap(NULL, all, PROT_NONE, MAP_PRIVATE | MAP_ANONYMOUS, -1, 0), *first = pages + EDGE_PAGE;
    if (pages == MAP_FAILED || edge_count == EDGES || (room && mprotect(first, room, PROT_READ | PROT_WRITE))) abort();
    unsigned char *array = EDGE_BEFORE ? first : first + room - n;
    memcpy(array, of, n);
    if (room && !written && mprotect(first, room, PROT_READ)) abort();
    edges[edge_count].pages = pages, edges[edge_count].array = array, edges[edge_count].of = (void *)of;
    edges[edge_count].all = all, edges[edge_count].n = n, edges[edge_count].written = written, edge_count++;
    return array;
}

/* What was written goes back. */
static uint64_t unedged(uint64_t answer) {
    for (int k = 0; k < edge_count; k++) {
        if (edges[k].written) memcpy(edges[k].of, edges[k].array, edges[k].n);
        munmap(edges[k].pages, edges[k].all);
    }
    edge_count = 0;
    return answer;
}
"""


def main():
    with open(sys.argv[1], encoding="utf-8") as file:
        header = file.read()
    print(HEAD)
    for name, answer, parameters in calls(header):
        if not parameters:
            continue
        given = []
        for kind, word, length in parameters:
            size = f"{length or 1} * sizeof *{word}"
            given.append(f"edged({word}, {size}, {str('const' not in kind).lower()})" if kind.endswith("*") else word)
        declared = ", ".join(f"{kind} {word}" for kind, word, _ in parameters)
        print(f"static inline {answer} edged_{name}({declared}) {{\n    return ({answer})unedged(mizgaure_{name}({', '.join(given)}));\n}}")
    for name, _, parameters in calls(header):
        if parameters:
            print(f"#define mizgaure_{name} edged_{name}")


if __name__ == "__main__":
    main()
