"""A block for GNU Radio: a symbol's received samples in, its detected points and distances out, by the proved library.

Items are whole symbols of data subcarriers. GNU Radio's buffers are passed to the library as they are, so nothing is copied. The
channels hold until `set_channels` sets others, from the block's next call of `work` on: between frames, while no symbols flow.
"""

import numpy as np
from gnuradio import gr

from mizgaure import Rate, library


class detector(gr.sync_block):
    """Detects symbols of one rate: bandwidth in MHz, 20 or 40, and MCS index, 0 to 31."""

    def __init__(self, bandwidth=20, mcs=0):
        self.rate = Rate(bandwidth, mcs)
        self.carriers = self.rate.data_subcarriers
        items = (np.int32, 8 * self.carriers), (np.uint8, library.HIT.itemsize * self.carriers)
        gr.sync_block.__init__(self, name="802.11n detector", in_sig=[items[0]], out_sig=[items[1]])
        self.channels = np.zeros(self.carriers, library.CHANNEL)

    def set_channels(self, channels):
        """The triangular channels of the data subcarriers, as `library.CHANNEL`."""
        self.channels = np.ascontiguousarray(channels, library.CHANNEL)

    def work(self, input_items, output_items):
        hits = output_items[0].view(library.HIT)
        samples = input_items[0][: len(hits)].reshape(len(hits), self.carriers, 4, 2)
        library.detect_symbols(self.rate, self.channels, samples, hits=hits, labels=False, sums=False)
        return len(hits)
