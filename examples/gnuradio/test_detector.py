"""Runs the block: in a flow graph where GNU Radio is installed, and else with a stand-in that calls it as GNU Radio does.

    PYTHONPATH=tools/src MIZGAURE_LIBRARY=library/out/lib/libmizgaure.so.0 python3 examples/gnuradio/test_detector.py
"""

import sys
import types

import numpy as np

try:
    from gnuradio import blocks, gr
except ImportError:
    gr = types.SimpleNamespace(sync_block=type("sync_block", (), {"__init__": lambda self, name, in_sig, out_sig: None}))
    sys.modules["gnuradio"] = types.SimpleNamespace(gr=gr)
    blocks = None

from detector import detector

from mizgaure import library


def run(block, received):
    """What comes out for symbols that go in."""
    items = received.reshape(len(received), -1)
    if blocks is None:
        given, put = items.copy(), np.zeros((len(items), 24 * block.carriers), np.uint8)
        given.flags.writeable = False  # as GNU Radio's buffers are
        assert [block.work([part], [into]) for part, into in ((given[:3], put[:3]), (given[3:], put[3:]))] == [3, len(items) - 3]
        return put
    flow, source, sink = gr.top_block(), blocks.vector_source_i(items.reshape(-1).tolist(), False, items.shape[1]), blocks.vector_sink_b(24 * block.carriers)
    flow.connect(source, block, sink)
    flow.run()
    return np.array(sink.data(), np.uint8).reshape(len(items), -1)


def main():
    block, numbers = detector(40, 31), np.random.default_rng(1)
    channels = np.zeros(block.carriers, library.CHANNEL)
    channels["diagonal"] = 1000
    block.set_channels(channels)
    points = 2 * numbers.integers(0, 8, (16, block.carriers, 4, 2)) - 7
    noise = numbers.integers(-99, 100, points.shape)
    hits = run(block, (1000 * points + noise).astype(np.int32)).view(library.HIT)
    assert (hits["points"].reshape(points.shape) == points).all()
    assert (hits["low"].reshape(points.shape[:2]) == (noise**2).sum((2, 3))).all() and not hits["high"].any()
    print(f"{hits.size} vectors of {len(points)} symbols", "in a flow graph" if blocks else "with a stand-in for GNU Radio")


main()
