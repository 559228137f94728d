"""The transmitter tests drawn: the mask over the spectrum, flatness, errors over subcarriers and over symbols, constellations, the channel, and phases.

Legends stand below their panels, where they hide nothing.
"""

from __future__ import annotations

from typing import TYPE_CHECKING, Iterator, List, Optional, Sequence, Tuple

import numpy as np

from ..measures import decibels
from ..pictures import BLUE, INK, ORANGE, PALE, STREAM_STYLES, STYLE, matplotlib_of
from ..rates import Rate
from . import limits
from .transmitter import Measured, deviations, long_enough, mask_curve

if TYPE_CHECKING:
    from matplotlib.figure import Figure

SIZE = (4.6, 4.0)
SMALL = {**STYLE, "font.size": 9, "axes.titlesize": 10, "axes.labelsize": 9}
DASHED = (0, (5, 2))
MOST_POINTS = 20000  # of a stream that are drawn


def drawn(packets: Sequence[Measured], frequency: Optional[float], rate: float) -> Iterator[Tuple[str, "Figure"]]:
    """What each picture of packets of one channel shows, and the picture.

    Parameters
    ----------
    packets : sequence of Measured
        Of one channel.
    frequency : float, optional
        Of the carrier in Hz.
    rate : float
        Of the recording, in samples a second.
    """
    matplotlib, Figure = matplotlib_of()
    with matplotlib.rc_context(SMALL):
        for what, draw in (("the spectrum and the mask", _mask), ("spectral flatness", _flatness), ("errors over subcarriers", _over_subcarriers),
                           ("errors over symbols", _over_symbols), ("the channel over subcarriers", _channel), ("the channel over delays", _delays),
                           ("the phase of symbols", _phases)):
            figure = Figure(figsize=SIZE, layout="constrained")
            draw(figure.subplots(), packets, frequency, rate)
            yield what, figure
        for each in sorted({packet.rate for packet in packets}, key=lambda found: found.mcs):
            alike = [packet for packet in packets if packet.rate == each]
            for stream in range(each.streams):
                figure = Figure(figsize=SIZE, layout="constrained")
                _constellation(figure.subplots(), alike, each, stream)
                yield f"the constellation of MCS {each.mcs}, stream {stream + 1}", figure


def _mask(panel, packets: Sequence[Measured], frequency: Optional[float], rate: float) -> None:
    curve = mask_curve(packets, frequency, rate)
    middle = 0.0 if frequency is None else frequency + packets[0].middle
    places = (middle + curve.offsets) / 1e6
    panel.plot(places, curve.level, color=BLUE, linewidth=1, label=f"antenna {curve.antenna}, {curve.segments} segments")
    if np.isfinite(curve.noise).any() and curve.noise.max() > -200:
        panel.plot(places, curve.noise, color=PALE, linewidth=1, label="silence")
    panel.plot(places, curve.mask, color=INK, linewidth=1, linestyle=DASHED, label="mask")
    panel.set(xlabel="offset (MHz)" if frequency is None else "frequency (MHz)", ylabel="density in 100 kHz (dB beside the largest)", title="spectral mask",
              ylim=(max(-90.0, float(curve.level.min()) - 3), 5))
    panel.locator_params(axis="x", nbins=5)
    panel.secondary_yaxis("right", functions=(lambda level: level + curve.top, lambda level: level - curve.top)).set_ylabel("dB of full scale per Hz")
    _legend(panel)


def _legend(panel, size: int = 8) -> None:
    panel.legend(loc="upper center", bbox_to_anchor=(0.5, -0.15), ncol=2, fontsize=size)


def _limited(panel, packets: Sequence[Measured]) -> None:
    """The limit of each rate, which is that of all subcarriers and symbols together."""
    for limit in sorted({packet.rate.error_limit for packet in packets}):
        panel.axhline(limit, color=INK, linewidth=1, linestyle=DASHED, label=f"limit of all together, {limit} dB")


def _flatness(panel, packets: Sequence[Measured], frequency: Optional[float], rate: float) -> None:
    numbers, bandwidth = packets[0].rate.frequencies, packets[0].rate.bandwidth
    _, low, high = limits.flatness_limits(numbers, bandwidth)
    for antenna, values in enumerate(deviations(packets).mean(axis=0)):
        colour, marker, line = STREAM_STYLES[antenna % 4]
        panel.plot(numbers, values, color=colour, marker=marker, markersize=2.5, linestyle=line, linewidth=0.8, label=f"antenna {antenna}")
    for limit in (low, high):
        panel.step(numbers, limit, where="mid", color=INK, linewidth=1, linestyle=DASHED)
    panel.plot([], [], color=INK, linewidth=1, linestyle=DASHED, label="limits")
    panel.set(xlabel="subcarrier number", ylabel="energy beside the inner subcarriers' mean (dB)", title="spectral flatness")
    _legend(panel)


def _root_mean(errors: List[np.ndarray]) -> np.ndarray:
    return decibels(np.maximum(np.sqrt(np.mean(errors, axis=0)), 1e-10))


def _over_subcarriers(panel, packets: Sequence[Measured], frequency: Optional[float], rate: float) -> None:
    streams = max(packet.rate.streams for packet in packets)
    for stream in range(streams):
        colour, marker, line = STREAM_STYLES[stream]
        values = _root_mean([packet.errors[:, :, stream].mean(axis=0) for packet in packets if packet.rate.streams > stream])
        panel.plot(packets[0].rate.frequencies, values, color=colour, marker=marker, markersize=2.5, linestyle=line, linewidth=0.8,
                   label=f"stream {stream + 1}")
    panel.set(xlabel="subcarrier number", ylabel="r.m.s. error (dB)", title="constellation error over subcarriers")
    _limited(panel, packets)
    _legend(panel)


def _over_symbols(panel, packets: Sequence[Measured], frequency: Optional[float], rate: float) -> None:
    longest = max(packets, key=lambda packet: packet.symbols)
    values = [_root_mean([packet.errors[n].mean() for packet in packets if packet.symbols > n]) for n in range(longest.symbols)]
    panel.plot(np.arange(longest.symbols), values, color=BLUE, marker="o", markersize=2.5, linewidth=0.8, label=f"{len(packets)} frames")
    panel.set(xlabel="symbol", ylabel="r.m.s. error of all frames (dB)", title="constellation error over symbols")
    _limited(panel, packets)
    _legend(panel)


def _constellation(panel, packets: Sequence[Measured], rate: Rate, stream: int) -> None:
    """The points of data subcarriers, with the error that the test has: the mean over frames of that over all subcarriers."""
    received = np.concatenate([packet.values[:, ~rate.is_pilot, stream].reshape(-1) for packet in packets if packet.values is not None])
    shown, reach = received[:MOST_POINTS], rate.highest_level + 1.6
    counted = long_enough(packets) or packets
    of_stream, of_all = (float(decibels(np.mean([packet.error("all", which) for packet in counted]))) for which in (stream, None))
    panel.scatter(shown.real, shown.imag, s=float(np.clip(9000 / max(1, shown.size), 1.5, 16)), color=BLUE, alpha=0.5, linewidths=0, rasterized=True,
                  label=f"{shown.size} of {received.size} points")
    panel.scatter(rate.points.real, rate.points.imag, s=50, marker="+", color=INK, linewidths=1.2, zorder=3, label="the constellation")
    levels = np.arange(-rate.highest_level, rate.highest_level + 1, 2)
    panel.set(xlim=(-reach, reach), ylim=(-reach, reach), aspect="equal", xticks=levels, yticks=levels, xlabel="I (levels)", ylabel="Q (levels)",
              title=f"stream {stream + 1}: error {of_stream:.1f} dB" + (f", all streams {of_all:.1f} dB" if rate.streams > 1 else ""))
    _legend(panel)


def _channel(panel, packets: Sequence[Measured], frequency: Optional[float], rate: float) -> None:
    for antenna, values in enumerate(np.abs(packets[0].channel).transpose(1, 2, 0)):
        for stream, gains in enumerate(values):
            colour, _, line = STREAM_STYLES[(antenna * len(values) + stream) % 4]
            panel.plot(packets[0].rate.frequencies, decibels(np.maximum(gains, 1e-10)), color=colour, linestyle=line, linewidth=0.9,
                       label=f"stream {stream + 1}, antenna {antenna}")
    panel.set(xlabel="subcarrier number", ylabel="gain beside the noise (dB)", title="the channel of the first packet")
    _legend(panel, 7)


def _delays(panel, packets: Sequence[Measured], frequency: Optional[float], rate: float) -> None:
    numbers = packets[0].rate.frequencies
    delays = np.arange(-400, 801, 10.0)
    waves = np.exp(2j * np.pi * 312.5e-6 * np.outer(delays, numbers)) / len(numbers)
    powers = np.sum(np.abs(np.einsum("dk,kas->das", waves, packets[0].channel)) ** 2, axis=1)
    for stream, values in enumerate(powers.T):
        colour, _, line = STREAM_STYLES[stream]
        panel.plot(delays, 10 * np.log10(np.maximum(values, 1e-30) / max(float(powers.max()), 1e-30)), color=colour, linestyle=line, linewidth=0.9,
                   label=f"stream {stream + 1}")
    panel.set(xlabel="delay behind the window's guard interval (ns)", ylabel="power over all antennas (dB beside the largest)",
              title="the first packet's channel over delays", ylim=(-50, 3))
    _legend(panel)


def _phases(panel, packets: Sequence[Measured], frequency: Optional[float], rate: float) -> None:
    before, after = np.degrees(np.unwrap(packets[0].phases, axis=1))
    panel.plot(before, color=ORANGE, marker="s", markersize=2.5, linestyle="--", linewidth=0.8, label="before tracking")
    panel.plot(after, color=BLUE, marker="o", markersize=2.5, linewidth=0.8, label="after it")
    panel.set(xlabel="symbol", ylabel="common phase (degrees)", title="the phase of the first packet's symbols")
    _legend(panel)
