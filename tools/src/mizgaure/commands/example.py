"""``mizgaure example``: a frame behind a random channel."""

from __future__ import annotations

import argparse

import numpy as np

from ..errors import InputError
from ..files import refuse_overwriting, writing
from ..formats import write_htsy
from ..sweep import random_symbols, received_frame
from .base import Command, add_setting, ratios, setting_of, write_arrays


def words(command: argparse.ArgumentParser) -> None:
    add_setting(command)
    command.add_argument("--snr", type=ratios, default=(25.0,), help="in dB (default 25)")
    command.add_argument("-o", "--output", metavar="FRAME.npz", required=True, help="the frame to write, as capture reads it")
    command.add_argument("--sent", metavar="FILE", help="write what was sent as a file of symbols (HTSY)")


def run(given: argparse.Namespace) -> None:
    setting = setting_of(given, 1)
    if len(setting.snr) != 1:
        raise InputError("an example has one signal-to-noise ratio")
    for path in (given.output, given.sent):
        if path:
            refuse_overwriting(path, given.force)
    generator = np.random.default_rng(setting.seed)
    sent = random_symbols(setting.rate, setting.length, generator)
    frame = received_frame(setting, setting.snr[0], sent, generator)
    with writing(given.output, given.force) as stream:
        write_arrays(stream, {"channel": frame.channel, "received": frame.received, "bandwidth": frame.bandwidth, "mcs": frame.mcs,
                              "length": frame.length})
    if given.sent:
        write_htsy(given.sent, [sent], force=given.force)


COMMAND = Command("example", "make a frame behind a random channel, to try capture on", words, run, writes=True)
