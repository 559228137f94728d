"""A frame through the layers, cell by cell: Jupyter, VS Code and Spyder run a script with such marks as a notebook.

    PYTHONPATH=tools/src MIZGAURE_LIBRARY=library/out/lib/libmizgaure.so.0 python3 examples/notebook/tour.py
"""

# %% A frame of 200 octets at 20 MHz on two streams in 16-QAM: its points, symbol by symbol (clause 20.3.11).
import numpy as np

from mizgaure import Rate, library

rate, numbers = Rate(20, 11), np.random.default_rng(5)
octets = numbers.integers(0, 256, 200, np.uint8).tobytes()
points = library.transmit(rate, 93, octets)  # (symbols, subcarriers, streams, I and Q)
data = np.flatnonzero(~rate.is_pilot)
sent = points[:, data].astype(float) @ (1, 1j)
print(f"{len(octets)} octets are {sent.shape[0]} symbols of {sent.shape[1]} data subcarriers on {sent.shape[2]} streams")

# %% A random channel for each subcarrier, rotated to a triangle of whole numbers whose diagonal is real and positive.
paths = numbers.normal(size=(data.size, 2, 2)) + 1j * numbers.normal(size=(data.size, 2, 2))
triangle = np.linalg.qr(paths)[1]
triangle *= (triangle.diagonal(0, 1, 2).conj() / abs(triangle.diagonal(0, 1, 2)))[:, :, None]
triangle = np.round(100 * triangle)
channels = np.zeros(data.size, library.CHANNEL)
channels["diagonal"][:, :2] = triangle.diagonal(0, 1, 2).real
channels["above"]["re"][:, 0], channels["above"]["im"][:, 0] = triangle[:, 0, 1].real, triangle[:, 0, 1].imag

# %% What is received with noise.
clean = np.einsum("ckl,scl->sck", triangle, sent)
received = np.zeros((*clean.shape[:2], 4, 2), np.int32)
received[:, :, :2] = np.round(np.stack([clean.real, clean.imag], -1) + 50 * numbers.normal(size=(*clean.shape, 2)))

# %% The nearest vectors, beside those of zero forcing.
hits, labels, sums = library.detect_symbols(rate, channels, received)
found = hits["points"][:, :, :2].astype(int) @ (1, 1j)
y = received[:, :, :2] @ np.array((1, 1j))
forced = np.linalg.solve(triangle[None], y[..., None])[..., 0]
level = lambda part: np.clip(2 * np.floor(part / 2) + 1, -3, 3)  # noqa: E731
forced = level(forced.real) + 1j * level(forced.imag)
print(f"points in error: {np.mean(found != sent):.1%}, and {np.mean(forced != sent):.1%} by zero forcing")
print(f"squared distances of the symbols, added up: {library.distances(sums)}")

# %% The octets, by hard decisions and by the weights of the label bits.
weights = library.weigh_symbols(rate, channels, received)
for name, decode, given in (("hard decisions", library.decode_frame, labels), ("weights", library.soft_frame, weights)):
    answer, cost = decode(rate, given, len(octets))
    print(f"by {name}: {sum(a != b for a, b in zip(answer, octets))} octets wrong at cost {cost}")
assert answer == octets
