"""A checker of certificates of one's own: `python3 examples/check.py FILE.htct`. docs/CERTIFICATES.md says what it follows."""

import struct, sys

LEVELS = [(-1, 1), (-1, 1), (-3, -1, 1, 3), (-7, -5, -3, -1, 1, 3, 5, 7)]

def holds(grid, triangle, samples, claim, distance, marks):
    """A vector is a list of I and Q of stream 1, I and Q of stream 2 ..; the grid has the levels of each."""
    def square(c, x):  # what coordinate c adds to the distance, once those behind it are chosen
        left = samples[c // 2] - sum(r * complex(x[2 * l], x[2 * l + 1]) for l, r in enumerate(triangle[c // 2], c // 2))
        return int(left.imag if c % 2 else left.real) ** 2
    def walk(c, x, reached):
        for x[c] in grid[c]:
            partial, mark = reached + square(c, x), next(marks, None)
            if mark is None or (partial <= distance if mark == 0 else not walk(c - 1, x, partial) if c else (partial, x) < (distance, claim)):
                return False
        return True
    return (all(level in grid[c] for c, level in enumerate(claim)) and sum(square(c, claim) for c in range(len(claim))) == distance
            and walk(len(claim) - 1, [0] * len(claim), 0) and next(marks, None) is None)

with open(sys.argv[1], "rb") as file:
    take = lambda form: struct.unpack(">" + form, file.read(struct.calcsize(">" + form)))
    magic, version, count = take("4sBQ")
    for number in range(count):
        modulation, n = take("BB")
        rows = [take("H" + "hh" * (n - row - 1)) for row in range(n)]
        triangle = [[diagonal, *map(complex, parts[::2], parts[1::2])] for diagonal, *parts in rows]
        parts, claim, distance = take("ii" * n), list(take("bb" * n)), int.from_bytes(file.read(16), "big")
        grid = [LEVELS[modulation], (0,) if modulation == 0 else LEVELS[modulation]] * n
        good = holds(grid, triangle, [*map(complex, parts[::2], parts[1::2])], claim, distance, iter(file.read(*take("I"))))
        print("job", number, "yes" if good else "no")
