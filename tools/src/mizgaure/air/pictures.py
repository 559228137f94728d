"""Recordings drawn: the spectrum, a packet's preamble and what finds it, and the constellation before and after tracking."""

from __future__ import annotations

from typing import TYPE_CHECKING, List, Tuple

import numpy as np

from ..errors import InputError
from ..pictures import BLUE, INK, ORANGE, PALE, STREAM_STYLES, STYLE, _drawn, _legend, _titled, matplotlib_of
from ..rates import Rate
from . import standard
from .receive import Packet
from .record import oversampling_of, packets_in
from .recording import Recording
from .standard import SHORT_LAG, TRAINING_FIELDS, TRANSFORM
from .synchronise import FOUND, WINDOW, long_symbol

if TYPE_CHECKING:
    from matplotlib.figure import Figure

BINS, SHOWN = 512, 1 << 22  # frequencies of a spectrum, and how many samples it is made of at most
# The fields in front of the HT-LTFs, and in greenfield format in front of the second one, each with its beginning and its end in microseconds.
FIELDS = (("L-STF", 0, 8), ("L-LTF", 8, 16), ("L-SIG", 16, 20), ("HT-SIG", 20, 28), ("HT-STF", 28, 32))
GREENFIELD_FIELDS = (("HT-GF-STF", 0, 8), ("HT-LTF1", 8, 16), ("HT-SIG", 16, 24))


def frame_of(recording: Recording, number: int) -> Packet:
    """The packet with a number among those that can be in a capture.

    Raises
    ------
    InputError
        If there are fewer.
    """
    count = 0
    for packet in packets_in(recording, keep=True):
        if packet.left_out is None:
            if count == number:
                if packet.untracked is None:
                    raise InputError(f"packet {number} of {recording.name} has STBC, and isn't drawn")
                return packet
            count += 1
    frames = "1 packet" if count == 1 else f"{count} packets"
    raise InputError(f"{recording.name} has {frames} for a capture, and no packet {number} of them")


def spectrum(recording: Recording, number: int, name: str = "") -> "Figure":
    """The power density of a recording over frequency, a line for each channel; of a long one that of its beginning.

    Parameters
    ----------
    recording : Recording
    number : int
        Not looked at.
    name : str
        For the title.

    Returns
    -------
    matplotlib.figure.Figure
    """
    matplotlib, Figure = matplotlib_of()
    powers, segments = np.zeros((recording.layout.channels, BINS)), 0
    taper = np.hanning(BINS)
    for first in range(0, min(recording.length, SHOWN), 1 << 16):
        samples = recording.read(first, 1 << 16)
        whole = samples[:, : samples.shape[1] // BINS * BINS].reshape(len(samples), -1, BINS)
        powers += np.sum(np.abs(np.fft.fft(whole * taper, axis=-1)) ** 2, axis=1)
        segments += whole.shape[1]
    if not powers.any():
        raise InputError(f"{recording.name} has no {BINS} samples that aren't 0")
    rate = recording.layout.rate
    densities = np.fft.fftshift(powers, axes=-1) / (segments * rate * np.sum(taper**2))
    frequencies = ((np.arange(BINS) - BINS // 2) * rate / BINS + (recording.frequency or 0.0)) / 1e6
    with matplotlib.rc_context(STYLE):
        figure, (panel,) = _drawn(Figure, 1, 1, 7.6, 3.2)
        for channel, density in enumerate(densities):
            colour, _, line = STREAM_STYLES[channel % len(STREAM_STYLES)]
            panel.plot(frequencies, 10 * np.log10(np.maximum(density, 1e-12 * densities.max())), color=colour, linestyle=line, linewidth=1.1,
                       label=f"antenna {channel}")
        panel.set(xlabel="frequency from the middle (MHz)" if recording.frequency is None else "frequency (MHz)",
                  ylabel="power density (dB of full scale per Hz)", xlim=(frequencies[0], frequencies[-1]))
        _legend(figure, *panel.get_legend_handles_labels())
        part = f", the first {SHOWN:,} of them" if recording.length > SHOWN else ""
        _titled(figure, "Spectrum of a recording", f"{rate / 1e6:g} million samples a second{part}", name)
    return figure


def preamble(recording: Recording, number: int, name: str = "") -> "Figure":
    """The preamble of a packet: its amplitude, and the two correlations that find it; parameters as in `spectrum`.

    ``number`` counts packets that can be in a capture.
    """
    matplotlib, Figure = matplotlib_of()
    packet = frame_of(recording, number)
    assert packet.frame is not None
    rate, over = packet.frame.rate, oversampling_of(recording)
    front = 12 * 20 * over
    first = max(0, packet.sample - front)
    fields = _fields(rate, packet.is_greenfield)
    count = packet.sample - first + int((fields[-1][2] + 4) * 20 * over)
    samples = recording.read(first, count + 2 * TRANSFORM * over).astype(complex)
    times = (np.arange(count) + first - packet.sample) / (20 * over)
    lag, window = SHORT_LAG * over, SHORT_LAG * WINDOW * over
    short = _share(samples[:, lag:], samples[:, :-lag], window)[:count]
    straight = samples * np.exp(-2j * np.pi * packet.offset / recording.layout.rate * np.arange(samples.shape[1]))
    part = standard.halves(rate.bandwidth)[0] if rate.bandwidth == 40 else packet.middles[0]
    symbol = long_symbol(over, part)
    energy = np.convolve(np.sum(np.abs(straight) ** 2, axis=0), np.ones(symbol.size), "valid")
    heard = sum(np.abs(np.correlate(row, symbol, "valid")) ** 2 for row in straight)
    long = (heard / np.maximum(energy, 1e-300))[:count] * (rate.bandwidth // 20)
    with matplotlib.rc_context(STYLE):
        figure, panels = _drawn(Figure, 2, 1, 7.6, 2.0)
        panels[0].plot(times, np.abs(samples[0, :count]) / np.abs(samples[0, :count]).max(), color=BLUE, linewidth=0.8)
        panels[0].set(ylabel="amplitude", ylim=(0, 1.12), xlim=(times[0], times[-1]))
        for field, begin, end in fields:
            for panel in panels:
                panel.axvline(begin, color=PALE, linewidth=0.8)
            panels[0].text((begin + end) / 2, 1.05, field, ha="center", fontsize=7.5, color="#555555")
        panels[1].plot(times[: short.size], short, color=BLUE, linewidth=1.4, label="repeats after 0.8 µs")
        panels[1].plot(times[: long.size], long, color=ORANGE, linewidth=1.0, linestyle="-", label="agrees with a long training symbol")
        panels[1].axhline(FOUND / (SHORT_LAG * WINDOW * len(samples)), color=INK, linewidth=0.9, linestyle=(0, (4, 3)), label="from here on a packet may begin")
        panels[1].set(xlabel="microseconds from the packet's beginning", ylabel="share of the energy", ylim=(0, 1.05), xlim=(times[0], times[-1]))
        _legend(figure, *panels[1].get_legend_handles_labels())
        _titled(figure, "The preamble of a packet", rate, name)
    return figure


def _share(samples: np.ndarray, before: np.ndarray, window: int) -> np.ndarray:
    """The power of a correlation over windows, over all antennas, beside that of what is correlated."""
    ones = np.ones(window)
    products = np.convolve(np.sum(samples * before.conj(), axis=0), ones, "valid")
    energies = [np.convolve(np.sum(np.abs(part) ** 2, axis=0), ones, "valid") for part in (samples, before)]
    return np.abs(products) ** 2 / np.maximum(energies[0] * energies[1], 1e-300)


def _fields(rate: Rate, greenfield: bool) -> List[Tuple[str, float, float]]:
    fields = [*(GREENFIELD_FIELDS if greenfield else FIELDS)]
    for n in range(int(greenfield), TRAINING_FIELDS[rate.streams - 1]):
        fields.append((f"HT-LTF{n + 1}", fields[-1][2], fields[-1][2] + 4))
    return [*fields, ("data", fields[-1][2], fields[-1][2] + 4)]


def tracking(recording: Recording, number: int, name: str = "") -> "Figure":
    """The first stream's points before and after phase and timing are tracked; parameters as in `preamble`.

    The channel is taken off by its pseudo-inverse.
    """
    matplotlib, Figure = matplotlib_of()
    packet = frame_of(recording, number)
    frame = packet.frame
    assert frame is not None and packet.untracked is not None
    rate = frame.rate
    data = ~rate.is_pilot
    inverse = np.linalg.pinv(frame.channel[data] * rate.normalising_factor)
    reach = rate.highest_level + 1.6
    with matplotlib.rc_context(STYLE):
        figure, panels = _drawn(Figure, 1, 2, 3.7, 3.7)
        for panel, vectors, title in zip(panels, (packet.untracked, np.asarray(frame.received)), ("before tracking", "after tracking")):
            points = np.einsum("csa,nca->ncs", inverse, vectors[:, data])[..., 0].reshape(-1)
            panel.scatter(points.real, points.imag, s=float(np.clip(9000 / max(1, points.size), 1.5, 16)), color=BLUE, alpha=0.5,
                          linewidths=0, rasterized=True)
            panel.scatter(rate.points.real, rate.points.imag, s=50, marker="+", color=INK, linewidths=1.2, zorder=3)
            levels = np.arange(-rate.highest_level, rate.highest_level + 1, 2)
            panel.set(xlim=(-reach, reach), ylim=(-reach, reach), aspect="equal", xticks=levels, yticks=levels, xlabel="I (levels)",
                      ylabel="Q (levels)", title=title)
        line = matplotlib.lines.Line2D
        handles = [line([], [], color=BLUE, marker="o", linestyle="none", markersize=5),
                   line([], [], color=INK, marker="+", linestyle="none", markersize=9, markeredgewidth=1.4)]
        _legend(figure, handles, ["received, the channel taken off", "the constellation"])
        _titled(figure, "Stream 1 before and after tracking", rate, name)
    return figure


KINDS = {"spectrum": spectrum, "preamble": preamble, "tracking": tracking}
