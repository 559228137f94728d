"""Pictures: PNG, SVG or PDF, by the file's ending. They need matplotlib.

Colours are those of Okabe and Ito, which the colour-blind can tell apart, and nothing is told by colour alone: markers and
kinds of lines differ as well, so that a picture can be read in grey.
"""

from __future__ import annotations

import os
from typing import TYPE_CHECKING, List, Sequence, Tuple, Union

import numpy as np

from .answers import Jobs
from .distances import residuals
from .errors import InputError
from .files import Target, writing
from .formats import CaptureFrame
from .measures import FrameProportion, Proportion, check_jobs, decibels, evm, percent, residual_ratio
from .rates import Rate
from .sweep import Sweep

if TYPE_CHECKING:
    from matplotlib.figure import Figure

BLUE, ORANGE, GREEN, PURPLE, INK, PALE = "#0072B2", "#D55E00", "#009E73", "#CC79A7", "#222222", "#B8B8B8"
STREAM_STYLES = ((BLUE, "o", "-"), (ORANGE, "s", "--"), (GREEN, "^", "-."), (PURPLE, "D", ":"))
ENDINGS = (".png", ".svg", ".pdf")
STYLE = {
    "font.family": "DejaVu Sans", "font.size": 10, "axes.titlesize": 11, "axes.labelsize": 10, "axes.edgecolor": "#666666",
    "axes.linewidth": 0.8, "axes.spines.top": False, "axes.spines.right": False, "axes.titlelocation": "left",
    "xtick.color": "#444444", "ytick.color": "#444444", "axes.labelcolor": INK, "text.color": INK, "axes.grid": True,
    "grid.color": "#E4E4E4", "grid.linewidth": 0.7, "axes.axisbelow": True, "legend.frameon": False, "legend.fontsize": 9,
    "figure.dpi": 100, "savefig.dpi": 160, "svg.hashsalt": "mizgaure",
}
# Room round the panels, in inches.
LEFT, RIGHT, HEAD, FOOT, GAP = 0.75, 0.2, 1.0, 0.95, 0.75
LEGEND_LINE = 0.22


def matplotlib_of():
    """The module matplotlib and its Figure.

    Raises
    ------
    InputError
        If it isn't installed.
    """
    try:
        import matplotlib
    except ImportError:
        raise InputError("pictures need matplotlib; on Debian: apt install python3-matplotlib") from None
    from matplotlib.figure import Figure

    return matplotlib, Figure


def save(figure: "Figure", target: Target, force: bool = False) -> None:
    """Write a picture.

    Parameters
    ----------
    figure : matplotlib.figure.Figure
    target : path
        Ending in .png, .svg or .pdf.
    force : bool
        Whether a file that is there already is replaced.

    Raises
    ------
    InputError
        If the ending is another one, or the file is there already.
    """
    ending = check_ending(target)
    matplotlib, _ = matplotlib_of()
    undated = {"png": {}, "svg": {"Date": None}, "pdf": {"CreationDate": None}}[ending]
    with writing(target, force) as stream, matplotlib.rc_context(STYLE):
        figure.savefig(stream, format=ending, metadata=undated, facecolor="white")


def check_ending(target: Target) -> str:
    """The kind of picture that a file's name asks for: png, svg or pdf."""
    name = os.fspath(target) if isinstance(target, (str, os.PathLike)) else getattr(target, "name", "")
    ending = os.path.splitext(str(name))[1].lower()
    if ending not in ENDINGS:
        raise InputError(f"{name}: a picture's name ends in {', '.join(ENDINGS)}")
    return ending[1:]


def _drawn(Figure, rows: int, columns: int, width: float, height: float):
    """A figure with panels of a given size in inches, and room for its title and its legend."""
    across = LEFT + columns * width + (columns - 1) * GAP + RIGHT
    down = HEAD + rows * height + (rows - 1) * GAP + FOOT
    figure = Figure(figsize=(across, down))
    panels = figure.subplots(rows, columns, squeeze=False).reshape(-1)
    figure.subplots_adjust(left=LEFT / across, right=1 - RIGHT / across, top=1 - HEAD / down, bottom=FOOT / down,
                           wspace=GAP / width, hspace=GAP / height)
    return figure, panels


def _titled(figure: "Figure", what: str, rate: Rate, name: str) -> None:
    """A title that says what is seen, and under it the rate and the file."""
    across, down = figure.get_size_inches()
    figure.suptitle(what, x=0.15 / across, y=1 - 0.14 / down, ha="left", va="top", fontsize=12.5, fontweight="bold")
    figure.text(0.15 / across, 1 - 0.44 / down, f"{rate}{' · ' + name if name else ''}", ha="left", va="top", fontsize=9.5, color="#555555")


def _legend(figure: "Figure", handles: Sequence, labels: Sequence[str]) -> None:
    """A legend at the foot, in as few lines as the figure is wide enough for; the figure grows by the further ones."""
    from matplotlib.backends.backend_agg import FigureCanvasAgg

    renderer = FigureCanvasAgg(figure).get_renderer()
    columns = len(labels)
    while True:
        legend = figure.legend(handles, labels, loc="lower center", bbox_to_anchor=(0.5, 0.04 / figure.get_figheight()), ncol=columns)
        if columns == 1 or legend.get_window_extent(renderer).width <= 0.98 * figure.bbox.width:
            break
        legend.remove()
        columns -= 1
    lines = -(-len(labels) // columns)
    if lines > 1:
        legend.remove()
        _grow(figure, (lines - 1) * LEGEND_LINE)
        figure.legend(handles, labels, loc="lower center", bbox_to_anchor=(0.5, 0.04 / figure.get_figheight()), ncol=columns)


def _grow(figure: "Figure", inches: float) -> None:
    """Make a figure higher, with the room at its foot; its panels stay as large as they are."""
    across, down = figure.get_size_inches()
    foot, head = figure.subplotpars.bottom * down + inches, (1 - figure.subplotpars.top) * down
    figure.set_size_inches(across, down + inches)
    figure.subplots_adjust(bottom=foot / (down + inches), top=1 - head / (down + inches))


def rotated_points(frame: CaptureFrame, jobs: Jobs) -> np.ndarray:
    """Where the received vectors lie beside the points decided on.

    Each row, less what the decided points of the streams behind it account for, divided by its diagonal; so a stream's
    value is its decided point plus ``r_k / d_k``.

    Returns
    -------
    ndarray of complex128, shape (jobs, streams)
        NaN where the diagonal is 0.
    """
    check_jobs(frame, jobs)
    diagonal = np.einsum("cii->ci", frame.triangles).real[jobs.carrier]
    rest = residuals(frame, jobs.symbol, jobs.carrier, jobs.points)
    with np.errstate(divide="ignore", invalid="ignore"):
        return np.where(diagonal > 0, jobs.points + rest / diagonal, np.nan)


def constellation(frame: CaptureFrame, jobs: Jobs, name: str = "") -> "Figure":
    """The constellation after the rotation, with the decided points: a panel for each stream, data subcarriers only.

    Parameters
    ----------
    frame : CaptureFrame
    jobs : Jobs
        Answers to jobs of that frame.
    name : str
        What the picture is of, for its title, as the name of the file.

    Returns
    -------
    matplotlib.figure.Figure
    """
    matplotlib, Figure = matplotlib_of()
    rate = frame.rate
    data = ~rate.is_pilot[jobs.carrier]
    values = rotated_points(frame, jobs)[data]
    decided = jobs.points[data]
    with matplotlib.rc_context(STYLE):
        columns = min(2, rate.streams)
        figure, panels = _drawn(Figure, -(-rate.streams // columns), columns, 3.7, 3.7)
        for panel in panels[rate.streams :]:
            panel.set_visible(False)
        for stream, panel in enumerate(panels[: rate.streams]):
            _constellation_panel(panel, values[:, stream], np.unique(decided[:, stream]), rate, stream)
        line = matplotlib.lines.Line2D
        handles = [line([], [], color=BLUE, marker="o", linestyle="none", markersize=5),
                   line([], [], color=INK, marker="+", linestyle="none", markersize=9, markeredgewidth=1.4)]
        _legend(figure, handles, ["received, after the rotation", "decided on"])
        _titled(figure, "Received vectors and the points decided on", rate, name)
    return figure


def constellation_panel(panel, frame: CaptureFrame, jobs: Jobs, stream: int) -> None:
    """Draw the constellation of one stream, counted from 0, in a panel of matplotlib."""
    data = ~frame.rate.is_pilot[jobs.carrier]
    values = rotated_points(frame, jobs)[data][:, stream]
    _constellation_panel(panel, values, np.unique(jobs.points[data][:, stream]), frame.rate, stream)


def _constellation_panel(panel, values: np.ndarray, decided: np.ndarray, rate: Rate, stream: int) -> None:
    reach = rate.highest_level + 1.6
    shown = np.isfinite(values) & (np.abs(values.real) <= reach) & (np.abs(values.imag) <= reach)
    size = float(np.clip(9000 / max(1, values.size), 2, 16))
    panel.scatter(values[shown].real, values[shown].imag, s=size, color=BLUE, alpha=0.55, linewidths=0, rasterized=True)
    panel.scatter(decided.real, decided.imag, s=60, marker="+", color=INK, linewidths=1.4, zorder=3)
    levels = np.arange(-rate.highest_level, rate.highest_level + 1, 2)
    for level in levels[:-1] + 1:
        panel.axvline(level, color="#C9C9C9", linewidth=0.7, zorder=0)
        if rate.bits_per_point > 1:
            panel.axhline(level, color="#C9C9C9", linewidth=0.7, zorder=0)
    panel.grid(False)
    panel.set(xlim=(-reach, reach), ylim=(-reach, reach), aspect="equal", xticks=levels, yticks=levels if rate.bits_per_point > 1 else [0],
              xlabel="I (levels)", ylabel="Q (levels)", title=f"stream {stream + 1}")
    hidden = int(values.size - np.count_nonzero(shown))
    if hidden:
        panel.set_title(f"{hidden} of {values.size} outside", loc="right", fontsize=8.5, color="#666666")


def evm_over_subcarriers(frame: CaptureFrame, jobs: Jobs, name: str = "") -> "Figure":
    """The error vector magnitude of each stream over the subcarriers, in dB, with the standard's limit.

    Parameters as in `constellation`; the answers aren't looked at, since the magnitude is that of equalised points.
    """
    matplotlib, Figure = matplotlib_of()
    rate = frame.rate
    found = evm(frame)
    verdict = "within" if decibels(found.frame) <= rate.error_limit else "above"
    with matplotlib.rc_context(STYLE):
        figure, (panel,) = _drawn(Figure, 1, 1, 7.6, 3.2)
        over_subcarriers_panel(panel, frame, decibels(found.cells), [f"{decibels(value):.1f} dB" for value in found.streams])
        panel.axhline(rate.error_limit, color=INK, linewidth=1.2, linestyle=(0, (6, 2)), label=f"limit of {rate.error_limit} dB")
        panel.set_ylabel("error vector magnitude (dB)")
        panel.set_title(f"over all: {percent(found.frame)}, {verdict} the limit", loc="right", fontsize=9, color="#555555")
        _legend(figure, *panel.get_legend_handles_labels())
        _titled(figure, "Error vector magnitude of equalised points", rate, name)
    return figure


def residual_over_subcarriers(frame: CaptureFrame, jobs: Jobs, name: str = "") -> "Figure":
    """The detector's residuals beside each stream's own part, over the subcarriers, in percent; parameters as in `constellation`."""
    matplotlib, Figure = matplotlib_of()
    found = residual_ratio(frame, jobs)
    with matplotlib.rc_context(STYLE):
        figure, (panel,) = _drawn(Figure, 1, 1, 7.6, 3.2)
        over_subcarriers_panel(panel, frame, 100 * found.cells, [f"{100 * value:.1f} %" for value in found.streams])
        panel.set(ylabel="residual ratio (%)", ylim=(0, None))
        _legend(figure, *panel.get_legend_handles_labels())
        _titled(figure, "Residuals behind the detector", frame.rate, name)
    return figure


def over_subcarriers_panel(panel, frame: CaptureFrame, values: np.ndarray, sums: Sequence[str]) -> None:
    """A curve for each stream, and the places of pilots and erased subcarriers."""
    rate, frequencies = frame.rate, frame.rate.frequencies
    for stream in range(rate.streams):
        colour, marker, line = STREAM_STYLES[stream]
        cells = np.where(rate.is_pilot | ~np.isfinite(values[:, stream]), np.nan, values[:, stream])
        for half in (frequencies < 0, frequencies > 0):
            panel.plot(frequencies[half], cells[half], color=colour, marker=marker, linestyle=line, markersize=4, linewidth=1.2,
                       label=f"stream {stream + 1} ({sums[stream]})" if half[0] else None)
    for n, pilot in enumerate(frequencies[rate.is_pilot]):
        panel.axvline(pilot, color=PALE, linewidth=3.5, alpha=0.45, zorder=0, label="pilot" if n == 0 else None)
    for n, erased in enumerate(frequencies[frame.erased]):
        panel.axvline(erased, color=INK, linewidth=0.8, linestyle=(0, (1, 2)), zorder=0, label="erased" if n == 0 else None)
    panel.set(xlabel="subcarrier number, in ascending frequency")
    panel.margins(x=0.02)


def distance_histogram(frame: CaptureFrame, jobs: Jobs, name: str = "") -> "Figure":
    """The least distances of a frame as a histogram, data and pilots apart, with the law of known points; parameters as in `constellation`."""
    matplotlib, Figure = matplotlib_of()
    check_jobs(frame, jobs)
    rate = frame.rate
    values = jobs.distance.astype(float)
    pilot = rate.is_pilot[jobs.carrier]
    top = float(np.quantile(values, 0.995)) if values.size else 1.0
    top = top if top > 0 else 1.0
    bins = np.linspace(0, top, 41)
    with matplotlib.rc_context(STYLE):
        figure, (panel,) = _drawn(Figure, 1, 1, 7.6, 3.2)
        for part, colour, line, label in ((values[~pilot], BLUE, "-", "data subcarriers"), (values[pilot], ORANGE, "--", "pilots")):
            if part.size:
                share = np.full(part.size, 100 / part.size)
                panel.hist(part, bins=bins, weights=share, color=colour, alpha=0.18, linewidth=0)
                panel.hist(part, bins=bins, weights=share, histtype="step", color=colour, linewidth=1.5, linestyle=line,
                           label=f"{label}, {part.size} jobs, mean {part.mean():.4g}")
        chi_square_law(panel, rate.streams, values[pilot], bins)
        panel.set(xlabel="least distance (squared whole units of the capture)", ylabel="share of the jobs (% a bin)", xlim=(0, top))
        beyond = int(np.count_nonzero(values > top))
        if beyond:
            panel.set_title(f"{beyond} of {values.size} jobs beyond", loc="right", fontsize=8.5, color="#666666")
        panel.ticklabel_format(axis="x", style="sci", scilimits=(-3, 5), useMathText=True)
        _legend(figure, *panel.get_legend_handles_labels())
        _titled(figure, "Distances of the nearest vectors", rate, name)
    return figure


def chi_square_law(panel, streams: int, distances: np.ndarray, bins: np.ndarray) -> None:
    """Draw the law of distances to points that are known, in percent a bin, for noise of the mean of some such distances.

    Twice a distance beside the noise's mean power has two degrees of freedom for each stream. Nothing is drawn without
    distances, or where all are 0.

    Parameters
    ----------
    panel : matplotlib.axes.Axes
    streams : int
    distances : ndarray
        Those of pilots.
    bins : ndarray
        The edges of the histogram's bins.
    """
    from scipy.stats import chi2

    if not distances.size or not distances.mean() > 0:
        return
    law = chi2(2 * streams, scale=float(distances.mean()) / (2 * streams))
    panel.plot((bins[1:] + bins[:-1]) / 2, 100 * np.diff(law.cdf(bins)), color=INK, linewidth=0.9, linestyle=":",
               label=f"chi-square law, {2 * streams} degrees, by the pilots' mean")


def error_curves(sweep: Sweep, name: str = "") -> "Figure":
    """Symbol and frame error rates over the signal-to-noise ratio, with their intervals at 95 %.

    Parameters
    ----------
    sweep : Sweep
    name : str
        For the title, as the name of the file.
    """
    matplotlib, Figure = matplotlib_of()
    setting = sweep.setting
    curves: List[Tuple[str, Sequence[Union[Proportion, FrameProportion]], str, str, str]] = []
    for number, detector in enumerate(sweep.names):
        rates = sweep.rates_of(detector)
        front = f"{detector}: " if len(sweep.names) > 1 else ""
        colours = ((ORANGE, BLUE), (GREEN, GREEN), (PURPLE, PURPLE), (INK, INK), (PALE, PALE))[number % 5]
        marker = "s^DPX"[number % 5]
        if sweep.coded:
            curves.append((f"{front}PER, behind the decoder", [each.frames for each in rates], colours[0], marker, "--"))
        if any(each.symbols.trials for each in rates):
            curves.append((f"{front}SER, before the decoder", [each.symbols for each in rates], colours[1], "o" if number == 0 else marker, "-"))
    with matplotlib.rc_context(STYLE):
        figure, (panel,) = _drawn(Figure, 1, 1, 7.0, 3.7)
        floor = 1.0
        for label, shown, colour, marker, line in curves:
            floor = min(floor, _curve(panel, setting.snr, shown, colour, marker, line, label))
        panel.set_yscale("log")
        panel.set(xlabel="signal-to-noise ratio of one receive antenna (dB)", ylabel="error rate", ylim=(10 ** np.floor(np.log10(floor)), 1.3))
        panel.grid(True, which="minor", color="#F1F1F1", linewidth=0.5)
        if len(setting.snr) <= 16:
            panel.set_xticks(sorted(setting.snr))
        _legend(figure, *panel.get_legend_handles_labels())
        antennas = setting.antennas or setting.rate.streams
        known = {"perfect": "channel known", "ls": "channel estimated by least squares"}[setting.estimate]
        channel = f"channel {setting.channel}" + (f", decay {setting.decay:g} samples" if setting.channel == "exponential" else "")
        detail = f"{setting.frames} frames of {setting.length} octets a point, {antennas} antennas, {channel}, {known}, seed {setting.seed}"
        panel.set_title(detail, fontsize=9, color="#555555")
        what = "Error rates over the signal-to-noise ratio" + ("" if sweep.coded else ", points without a code")
        _titled(figure, what, setting.rate, name)
    return figure


def _curve(panel, snr: Sequence[float], rates: Sequence[Union[Proportion, FrameProportion]], colour: str, marker: str, line: str, label: str) -> float:
    """Draw a curve, and say where the lowest thing drawn is. Rates of 0 are drawn as what they are at most."""
    order = [n for n in np.argsort(snr) if rates[n].trials]
    if not order:
        return 1.0
    x = np.asarray(snr, float)[order]
    values = np.array([rates[n].value for n in order])
    low, high = np.array([rates[n].interval for n in order]).T
    seen = values > 0
    panel.errorbar(x[seen], values[seen], yerr=(values[seen] - low[seen], high[seen] - values[seen]), color=colour, marker=marker,
                   linestyle=line, markersize=6, linewidth=1.5, elinewidth=1.1, capsize=3.5, label=label)
    none = ~seen
    if none.any():
        # One larger than the other, since both may be at the same place.
        panel.plot(x[none], high[none], color=colour, marker="v", linestyle="none", markersize=11 if marker == "s" else 6, markerfacecolor="white",
                   label=f"{label.split(',')[0]} at most, no error seen")
    drawn = np.concatenate((low[seen], high[none] / 2))
    return float(drawn[drawn > 0].min()) if (drawn > 0).any() else 1.0
