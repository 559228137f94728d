"""One page on captures, recordings and sweeps, in HTML: a file that asks no net for anything, with its pictures inside. It needs matplotlib.

The pictures are drawn small and stand beside one another where there is room, so that the page is read on a screen of any
width.
"""

from __future__ import annotations

import base64
import html
import io
from contextlib import ExitStack
from dataclasses import dataclass, field
from typing import Dict, Iterable, Iterator, List, Optional, Sequence, Tuple

import numpy as np

from .answers import FrameAnswer, Jobs
from .errors import ProgramError
from .files import naming
from .formats import CaptureFrame, read_htcp
from .judge import Judgement, judge
from .air import verdict_pictures
from .air.limits import EDITION, REMARK
from .air.recording import Recording
from .air.transmitter import FAIL, PASS, Finding, Measured, channels_of, findings
from .measures import Magnitudes, constellation_tests, decibels, evm, percent, residual_ratio
from .packets import Psdu, take_apart
from .pictures import BLUE, INK, ORANGE, STYLE, chi_square_law, constellation_panel, error_curves, matplotlib_of, over_subcarriers_panel
from .program import Radio
from .rates import Rate
from .sweep import Sweep
from .tracing import digest_of

DOTS_PER_INCH = 170


@dataclass(eq=False)
class FrameReport:
    """What the page says of a frame.

    Parameters
    ----------
    number : int
    rate : Rate
    length, symbols, erased : int
        Octets, symbols, and subcarriers that weren't received.
    standard, residual : Magnitudes
        The error vector magnitude and the detector's residuals.
    answer : FrameAnswer or None
    psdu : Psdu or None
        What its octets carry.
    pictures : list of (str, str)
        Each with what it shows, as PNG in base64.
    """

    number: int
    rate: Rate
    length: int
    symbols: int
    erased: int
    standard: Magnitudes
    residual: Magnitudes
    answer: Optional[FrameAnswer] = None
    psdu: Optional[Psdu] = None
    pictures: List[Tuple[str, str]] = field(default_factory=list)


@dataclass(eq=False)
class CaptureReport:
    """What the page says of a capture.

    Parameters
    ----------
    name : str
    octets : int
    digest : str
        SHA-256.
    frames : list of FrameReport
    theirs : str
        The name of another receiver's answers, empty where there are none.
    judgement : Judgement or None
        On these.
    """

    name: str
    octets: int
    digest: str
    frames: List[FrameReport] = field(default_factory=list)
    theirs: str = ""
    judgement: Optional[Judgement] = None


def examine(path: str, radio: Radio, theirs: Optional[str] = None, pictured: int = 2) -> CaptureReport:
    """Detect, decode, measure and draw a capture.

    Parameters
    ----------
    path : str
        A capture.
    radio : Radio
    theirs : str, optional
        Another receiver's answers, as `judge` reads them.
    pictured : int
        How many frames have pictures, from the first on.

    Returns
    -------
    CaptureReport

    Raises
    ------
    FormatError, InputError
        If the capture or the answers can't be used.
    ProgramError
        If the program fails.
    """
    made = CaptureReport(path, *digest_of(path))
    with naming(path), ExitStack() as stack:
        detected = stack.enter_context(radio.answers("detect", path))
        decoded = stack.enter_context(radio.answers("rx", path))
        for number, frame in enumerate(read_htcp(path)):
            jobs, answer = next(detected, None), next(decoded, None)
            if not isinstance(jobs, Jobs) or not isinstance(answer, FrameAnswer):
                raise ProgramError(f"{radio.path} gave no answers to frame {number}")
            report = FrameReport(number, frame.rate, frame.length, frame.samples.shape[0], int(frame.erased.sum()), evm(frame),
                                 residual_ratio(frame, jobs), answer, None if answer.octets is None else take_apart(answer.octets))
            if number < pictured:
                report.pictures = list(_pictures(frame, jobs, report.standard))
            made.frames.append(report)
    if theirs is not None:
        made.theirs, made.judgement = theirs, judge(path, theirs, radio=radio)
    return made


@dataclass(eq=False)
class RecordingReport:
    """What the page says of a recording.

    Parameters
    ----------
    name : str
    facts : list of (str, str)
    findings : list of Finding
        Of the standard's transmitter tests.
    pictures : list of (str, str)
        As in `FrameReport`.
    """

    name: str
    facts: List[Tuple[str, str]]
    findings: List[Finding]
    pictures: List[Tuple[str, str]] = field(default_factory=list)


def examine_recording(recording: Recording, name: str, packets: Sequence[Measured], frequency: Optional[float],
                      reference: Optional[float], said: Sequence[Tuple[str, str]] = (), unmeasured: str = "") -> RecordingReport:
    """Hold the packets of a recording beside the standard's limits, and draw them.

    Parameters
    ----------
    recording : Recording
    name : str
    packets : sequence of Measured
    frequency : float, optional
        Of the carrier in Hz.
    reference : float, optional
        By how many parts per million the recorder's own clock may be wrong.
    said : sequence of (str, str)
        What the recording's metadata say of how it was made.
    unmeasured : str
        How many other packets there are, and why they aren't measured.
    """
    rate = recording.layout.rate
    found = findings(packets, frequency, reference, rate)
    offsets, noises = [packet.offset / 1e3 for packet in packets], [packet.noise for packet in packets]
    antennas = "1 antenna" if recording.layout.channels == 1 else f"{recording.layout.channels} antennas"
    facts = [("samples", f"{recording.length:,} instants of {antennas}, {recording.layout.datatype}, "
                         f"{rate / 1e6:g} million a second, {recording.seconds(recording.length):.6f} s"),
             ("carrier", "not known" if frequency is None else f"{frequency / 1e6:g} MHz"),
             ("packets", f"{len(packets)} measured" + (f"; {unmeasured}" if unmeasured else "")),
             ("offset of the carrier", f"{np.mean(offsets):+.3f} kHz in the mean, {min(offsets):+.3f} to {max(offsets):+.3f} kHz"),
             ("noise of a subcarrier", f"{np.mean(noises):.1f} dB beside the signal in the mean, {min(noises):.1f} to {max(noises):.1f} dB"),
             ("the recorder's own clock",
              "by how much it may be wrong isn't said" if reference is None else f"wrong by at most {reference:g} ppm, as was said"),
             *said]
    made = RecordingReport(name, [("tests", _summed_up(found)), *facts], found)
    for channel, alike in channels_of(packets):
        made.pictures += [(f"{what}, {channel}", _png(figure)) for what, figure in verdict_pictures.drawn(alike, frequency, rate)]
    return made


def _summed_up(found: Sequence[Finding]) -> str:
    """How many tests have which verdict, and the names of those that don't pass."""
    asked = [finding for finding in found if not finding.is_for_show]
    parts = [f"{sum(finding.verdict == PASS for finding in asked)} of {len(asked)} pass"]
    for verdict, word in ((FAIL, "fail"), (None, "without a verdict")):
        names = [finding.limit.test for finding in asked if finding.verdict == verdict]
        if names:
            parts.append(f"{len(names)} {word} ({', '.join(dict.fromkeys(names))})")
    return "; ".join(parts)


# pictures

def _pictures(frame: CaptureFrame, jobs: Jobs, standard: Magnitudes) -> Iterator[Tuple[str, str]]:
    """What each picture shows, and the picture."""
    matplotlib, Figure = matplotlib_of()
    with matplotlib.rc_context({**STYLE, "font.size": 9, "axes.titlesize": 10, "axes.labelsize": 9}):
        for stream in range(frame.rate.streams):
            figure = Figure(figsize=(3.6, 3.7), layout="constrained")
            panel = figure.subplots()
            constellation_panel(panel, frame, jobs, stream)
            panel.set_title(f"stream {stream + 1}: error {percent(float(standard.streams[stream]))}")
            yield f"stream {stream + 1}: received, after the rotation, and the points decided on", _png(figure)
        figure = Figure(figsize=(4.6, 3.7), layout="constrained")
        _magnitude_panel(figure.subplots(), frame, standard)
        yield "error vector magnitude over the subcarriers", _png(figure)
        figure = Figure(figsize=(4.6, 3.7), layout="constrained")
        _distance_panel(figure.subplots(), frame, jobs)
        yield "least distances", _png(figure)


def _magnitude_panel(panel, frame: CaptureFrame, standard: Magnitudes) -> None:
    limit = frame.rate.error_limit
    over_subcarriers_panel(panel, frame, decibels(standard.cells), [f"{decibels(value):.1f} dB" for value in standard.streams])
    panel.axhline(limit, color=INK, linewidth=1, linestyle=(0, (5, 2)), label=f"limit {limit} dB")
    panel.set(xlabel="subcarrier number", ylabel="error vector magnitude (dB)", title="error vector magnitude")
    panel.legend(loc="upper center", bbox_to_anchor=(0.5, -0.16), ncol=2, fontsize=8)


def _distance_panel(panel, frame: CaptureFrame, jobs: Jobs) -> None:
    values, pilot = jobs.distance.astype(float), frame.rate.is_pilot[jobs.carrier]
    top = float(np.quantile(values, 0.995)) if values.size else 1.0
    bins = np.linspace(0, top if top > 0 else 1.0, 41)
    for part, colour, line, label in ((values[~pilot], BLUE, "-", "data"), (values[pilot], ORANGE, "--", "pilots")):
        if part.size:
            panel.hist(part, bins=bins, weights=np.full(part.size, 100 / part.size), histtype="step", color=colour, linewidth=1.4, linestyle=line,
                       label=f"{label}, {part.size} jobs")
    chi_square_law(panel, frame.rate.streams, values[pilot], bins)
    panel.set(xlabel="least distance (squared units of the capture)", ylabel="share of the jobs (% a bin)", title="distances of the nearest vectors")
    panel.ticklabel_format(axis="x", style="sci", scilimits=(-3, 4), useMathText=True)
    panel.legend(loc="upper right", fontsize=8)


def _png(figure) -> str:
    made = io.BytesIO()
    figure.savefig(made, format="png", dpi=DOTS_PER_INCH, metadata={"Software": None}, facecolor="white")
    return base64.b64encode(made.getvalue()).decode()


# the page

SIGNED = ("device under test", "recorder, with the date of its calibration", "tested by", "date", "signature")
STYLES = """
:root { color-scheme: light; }
* { box-sizing: border-box; }
body { margin: 0 auto; max-width: 78rem; padding: 1rem 1.25rem 3rem; font: 15px/1.5 system-ui, "DejaVu Sans", sans-serif; color: #222; background: #fff; }
h1 { font-size: 1.5rem; line-height: 1.25; margin: .5rem 0 .25rem; }
h2 { font-size: 1.15rem; margin: 2.25rem 0 .5rem; padding-top: .75rem; border-top: 1px solid #ddd; overflow-wrap: anywhere; }
h3 { font-size: 1rem; margin: 1.5rem 0 .5rem; }
p, dl { margin: .4rem 0; }
.quiet { color: #555; }
.facts { display: grid; grid-template-columns: max-content 1fr; gap: .15rem 1rem; }
.facts dt { color: #555; }
.facts dd { margin: 0; overflow-wrap: anywhere; }
.wide { overflow-x: auto; border: 1px solid #ddd; border-radius: 4px; }
table { border-collapse: collapse; width: 100%; font-variant-numeric: tabular-nums; }
th, td { padding: .35rem .7rem; text-align: left; border-bottom: 1px solid #eee; vertical-align: top; }
th { background: #f6f6f6; font-weight: 600; }
tr:last-child td { border-bottom: 0; }
td.number, th.number { text-align: right; }
td.number { white-space: nowrap; }
.good::before { content: "\\2713\\00a0"; } .good { color: #00664b; }
.open::before { content: "?\\00a0"; } .open { color: #555; }
.sign td { height: 2.5rem; }
.bad::before { content: "\\2717\\00a0"; } .bad { color: #a63c00; font-weight: 600; }
table { font-size: .875rem; }
.one td:nth-child(5), .one td:nth-child(7) { white-space: nowrap; }
figcaption { padding: .15rem .35rem; font-size: .8rem; color: #555; }
.pictures { display: flex; flex-wrap: wrap; gap: .75rem; align-items: flex-start; }
figure { margin: 0; border: 1px solid #ddd; border-radius: 4px; padding: .25rem; max-width: 100%; width: min-content; }
figure img { display: block; max-width: calc(100vw - 3rem); height: auto; }
@media (max-width: 45rem) {
  .facts { grid-template-columns: 1fr; gap: 0; }
  .facts dd { margin-bottom: .35rem; }
  thead { display: none; }
  tr { display: block; padding: .4rem .7rem; border-bottom: 1px solid #ddd; }
  td, td.number { display: grid; grid-template-columns: 8rem 1fr; padding: .1rem 0; border: 0; text-align: left; overflow-wrap: anywhere; }
  td::before { content: attr(data-name); color: #555; }
}
@media print { .wide { overflow: visible; } figure, tr { break-inside: avoid; } body { max-width: none; padding: 0; font-size: 12px; } }
@page { margin: 15mm; }
"""


def page(captures: Sequence[CaptureReport], title: str, facts: Sequence[Tuple[str, str]] = (),
         recordings: Sequence[RecordingReport] = (), sweeps: Sequence[Tuple[str, Sweep]] = ()) -> str:
    """The page.

    Parameters
    ----------
    captures : sequence of CaptureReport
    title : str
    facts : sequence of (str, str)
        When and by what it was made, as from `tracing.facts`.
    recordings : sequence of RecordingReport
    sweeps : sequence of (str, Sweep)
        Each with its name.

    Returns
    -------
    str
        A whole document of HTML.
    """
    parts = ["<!DOCTYPE html>", '<html lang="en">', "<head>", '<meta charset="utf-8">',
             '<meta name="viewport" content="width=device-width, initial-scale=1">', f"<title>{_text(title)}</title>", f"<style>{STYLES}</style>",
             "</head>", "<body>", f"<h1>{_text(title)}</h1>",
             f'<p class="quiet">{_text(_origin(bool(captures), bool(recordings), bool(sweeps)))}</p>']
    if facts:
        parts += ['<dl class="facts">', *(f"<dt>{_text(name)}</dt><dd><code>{_text(value)}</code></dd>" for name, value in facts), "</dl>"]
    figures = _Figures()
    for recording in recordings:
        parts += _recording_parts(recording, figures)
    if len(captures) > 1:
        parts += _table(("capture", "#frames", "MPDUs with a good FCS", "EVM"), (_overview(each) for each in captures))
    for each in captures:
        parts += _capture_parts(each, figures)
    for name, found in sweeps:
        parts += _sweep_parts(name, found, figures)
    if recordings:
        parts += ["<h2>Signed</h2>", *_table(SIGNED, [["&nbsp;"] * len(SIGNED)], "sign")]
    return "\n".join([*parts, "</body>", "</html>", ""])


def _origin(captures: bool, recordings: bool, sweeps: bool) -> str:
    """By what the page's values were found, in words."""
    parts = (("Nearest vectors and octets of captures are those that Mizgaure's program radio found, which is proved.", captures),
             ("What is said of recordings is found by these tools alone: the program takes no part in it.", recordings),
             ("Sweeps are shown as they were kept.", sweeps), ("This page and its measures are tested and not proved.", True))
    return " ".join(sentence for sentence, said in parts if said)


def _text(text: object) -> str:
    return html.escape(str(text))


def _verdict(good: Optional[bool], text: object) -> str:
    """A text as good, as bad, or as undecided where None."""
    return f'<span class="{"open" if good is None else "good" if good else "bad"}">{_text(text)}</span>'


def _table(names: Sequence[str], rows: Iterable[Sequence[str]], kind: str = "") -> List[str]:
    """A table; names that begin with # are of numbers, and cells are HTML. Of the kind ``one`` magnitudes stand on one line each."""
    kinds = [' class="number"' if name.startswith("#") else "" for name in names]
    head = "".join(f"<th{kind}>{_text(name.lstrip('#'))}</th>" for kind, name in zip(kinds, names))
    told = [_text(name.lstrip("#")) for name in names]
    lines = ["<tr>" + "".join(f'<td{kind} data-name="{name}"><span>{cell}</span></td>' for kind, name, cell in zip(kinds, told, row)) + "</tr>"
             for row in rows]
    shape = f' class="{kind}"' if kind else ""
    return [f'<div class="wide"><table{shape}>', f"<thead><tr>{head}</tr></thead>", "<tbody>", *lines, "</tbody>", "</table></div>"]


def _mpdus(capture: CaptureReport) -> Tuple[int, int]:
    psdus = [frame.psdu for frame in capture.frames if frame.psdu is not None]
    return sum(psdu.good for psdu in psdus), sum(len(psdu.mpdus) for psdu in psdus)


def _overview(capture: CaptureReport) -> Sequence[str]:
    good, count = _mpdus(capture)
    return _text(capture.name), str(len(capture.frames)), _verdict(good == count, f"{good} of {count}"), "<br>".join(_tests(capture)) or "none"


def _tests(capture: CaptureReport) -> List[str]:
    tests = constellation_tests((frame.rate, frame.symbols, frame.standard.frame) for frame in capture.frames)
    return [_verdict(test.is_within if test.is_full else None, test) for test in tests]


def _capture_parts(capture: CaptureReport, figures: "_Figures") -> List[str]:
    good, count = _mpdus(capture)
    facts = [("octets", f"{capture.octets:,}"), ("SHA-256", f"<code>{capture.digest}</code>"), ("frames", str(len(capture.frames))),
             ("MPDUs", _verdict(good == count, f"{good} of {count} with a good FCS")), ("EVM", "<br>".join(_tests(capture)) or "none")]
    if capture.judgement is not None:
        facts.append(("the other receiver", f"<code>{_text(capture.theirs)}</code><br>{_judged(capture.judgement)}"))
    parts = [f"<h2>{_text(capture.name)}</h2>", '<dl class="facts">', *(f"<dt>{_text(name)}</dt><dd>{what}</dd>" for name, what in facts), "</dl>"]
    names = ["#frame", "rate", "#octets", "#symbols", "EVM", "#limit", "residual ratio", "#code distance", "MPDUs"]
    theirs = _theirs(capture.judgement)
    names += ["the other receiver"] if theirs is not None else []
    parts += ["<h3>Frames</h3>", *_table(names, (_row(frame, theirs) for frame in capture.frames), "one")]
    carried = (row for frame in capture.frames for row in _mpdu_rows(frame))
    parts += ["<h3>What they carry</h3>", *_table(("#frame", "#MPDU", "#octets", "FCS", "MAC header"), carried)]
    for frame in capture.frames:
        if frame.pictures:
            parts += [f"<h3>Frame {frame.number}</h3>", *figures.beside((f"frame {frame.number}, {what}", picture) for what, picture in frame.pictures)]
    return parts


class _Figures:
    """The figures of a page, numbered from 1."""

    def __init__(self) -> None:
        self.count = 0

    def beside(self, pictures: Iterable[Tuple[str, str]]) -> List[str]:
        """Pictures beside one another, each with its number and what it shows."""
        parts = ['<div class="pictures">']
        for what, picture in pictures:
            self.count += 1
            name = _text(what)
            parts.append(f'<figure><img alt="{name}" src="data:image/png;base64,{picture}" width="{_width(picture)}">'
                         f"<figcaption>Figure {self.count}: {name}</figcaption></figure>")
        return [*parts, "</div>"]


def _recording_parts(recording: RecordingReport, figures: _Figures) -> List[str]:
    names = ("test", "clause", "about", "limit", "#value", "95 %", "frames", "verdict")
    parts = [f"<h2>{_text(recording.name)}</h2>", '<dl class="facts">', *(f"<dt>{_text(name)}</dt><dd>{_text(what)}</dd>" for name, what in recording.facts),
             "</dl>", f"<h3>Transmitter tests of {_text(EDITION)}</h3>", *_table(names, map(_finding_row, recording.findings)),
             f'<p class="quiet">{_text(REMARK)}</p>']
    return [*parts, *figures.beside(recording.pictures)]


def _finding_row(finding: Finding) -> List[str]:
    where = f" at {finding.where}" if finding.where else ""
    good = None if finding.verdict is None else finding.verdict == PASS
    asked = f"{finding.frames}, {finding.limit.frames} asked for" + ("" if finding.limit.named else "; the clause names no number")
    verdict = f'<span class="quiet">{_text(finding.unsure)}</span>' if finding.is_for_show else _verdict(good, finding.outcome)
    return [_text(finding.limit.test), finding.limit.clause, _text(finding.subject + where), _text(finding.bounds), f"{finding.value:.2f} {finding.unit}",
            finding.spread, asked, verdict]


def _sweep_parts(name: str, found: Sweep, figures: _Figures) -> List[str]:
    matplotlib_of()
    curves = ("error rates over the signal-to-noise ratio", _png(error_curves(found)))
    return [f"<h2>{_text(name)}</h2>", f"<p>{_text(found.title())}</p>", *figures.beside([curves])]


def _judged(judgement: Judgement) -> str:
    """What another receiver's answers add up to, in HTML."""
    kinds = (("jobs", judgement.job_counts), ("frames", judgement.frame_counts), ("lines that are passed over", judgement.fault_counts))
    said = "; ".join(f"{what}: " + ", ".join(f"{number} {verdict}" for verdict, number in counts.items()) for what, counts in kinds if any(counts.values()))
    parts = [f"{_verdict(judgement.is_clean, said)}; {judgement.unanswered} jobs and {len(judgement.missing)} frames without an answer"]
    if judgement.misstated:
        parts.append(f"misstated: {judgement.misstated}")
    return "<br>".join([*parts, *(f"cause: {_text(cause)}" for cause in judgement.causes)])


def _width(picture: str) -> int:
    """The width of a PNG on the page, in CSS pixels of 1/96 inch."""
    across = int.from_bytes(base64.b64decode(picture[:32])[16:20], "big")
    return round(across * 96 / DOTS_PER_INCH)


def _row(frame: FrameReport, theirs: Optional[Dict[int, str]]) -> List[str]:
    limit = frame.rate.error_limit
    erased = f", {frame.erased} subcarriers erased" if frame.erased else ""
    magnitude = _text(percent(frame.standard.frame))  # the limit is that of many frames, so one has no verdict
    psdu = frame.psdu
    if psdu is None:
        carries = _verdict(False, "no octets")
    else:
        count = len(psdu.mpdus)
        what = "A-MPDU" if psdu.aggregated else "MPDU"
        carries = _verdict(psdu.good == count > 0, f"{what}, {psdu.good} of {count} good")
    code = "" if frame.answer is None else str(frame.answer.code)
    cells = [str(frame.number), _text(f"{frame.rate}{erased}"), str(frame.length), str(frame.symbols), magnitude, f"{limit} dB",
             _text(percent(frame.residual.frame)), code, carries]
    return cells + ([theirs.get(frame.number, "no answer")] if theirs is not None else [])


def _mpdu_rows(frame: FrameReport) -> Iterator[List[str]]:
    if frame.psdu is None:
        yield [str(frame.number), "", "", "", _verdict(False, "no octets: the scrambler's seed is zero")]
        return
    for number, mpdu in enumerate(frame.psdu.mpdus):
        header = "none" if mpdu.header is None else str(mpdu.header)
        yield [str(frame.number), str(number), str(len(mpdu.octets)), _verdict(mpdu.good, "good" if mpdu.good else "bad"), _text(header)]
    if frame.psdu.lost:
        yield [str(frame.number), "", str(frame.psdu.lost), "", _verdict(False, "without a delimiter")]


def _theirs(judgement: Optional[Judgement]) -> Optional[Dict[int, str]]:
    """What is said of another receiver's answers to each frame, in HTML."""
    if judgement is None:
        return None
    counts: Dict[int, Dict[str, int]] = {}
    for part in judgement.jobs:
        for verdict, number in zip(*np.unique(part.verdict, return_counts=True)):
            of_frame = counts.setdefault(part.frame, {})
            of_frame[str(verdict)] = of_frame.get(str(verdict), 0) + int(number)
    said: Dict[int, List[str]] = {frame: [_verdict(not {"worse", "outside"} & set(found), "jobs: " + ", ".join(f"{n} {v}" for v, n in found.items()))]
                                  for frame, found in counts.items()}
    for verdict in judgement.frames:
        said.setdefault(verdict.frame, []).append(_verdict(verdict.verdict != "wrong", f"octets: {verdict.verdict}"))
    return {frame: "<br>".join(lines) for frame, lines in said.items()}
