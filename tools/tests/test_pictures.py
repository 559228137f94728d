"""Pictures: made, not empty, with named axes."""

import re
from dataclasses import replace

import numpy as np
import pytest
from conftest import octets_of, random_frame
from test_verdict import CARRIER, of_scene

from mizgaure import InputError, Jobs, Rate
from mizgaure.air import limits
from mizgaure.air.simulate import Scene
from mizgaure.air.transmitter import deviations, findings
from mizgaure.commands.verdict import measured
from mizgaure.detectors import Detector
from mizgaure.distances import zero_forcing
from mizgaure.measures import ErrorRates, FrameProportion, Proportion, decibels, evm, residual_ratio
from mizgaure.sweep import Chunk, Setting, Sweep

pytest.importorskip("matplotlib")
pictures = pytest.importorskip("mizgaure.pictures")
air_pictures = pytest.importorskip("mizgaure.air.pictures")
verdict_pictures = pytest.importorskip("mizgaure.air.verdict_pictures")

KINDS = {
    "constellation": (pictures.constellation, "I (levels)", "Q (levels)"),
    "evm": (pictures.evm_over_subcarriers, "subcarrier number, in ascending frequency", "error vector magnitude (dB)"),
    "residual": (pictures.residual_over_subcarriers, "subcarrier number, in ascending frequency", "residual ratio (%)"),
    "distances": (pictures.distance_histogram, "least distance (squared whole units of the capture)", "share of the jobs (% a bin)"),
}


def texts(figure):
    return [figure._suptitle.get_text(), *[text.get_text() for text in figure.texts]]


@pytest.mark.parametrize("kind", KINDS)
@pytest.mark.parametrize("rate", [Rate(20, 0), Rate(40, 12), Rate(20, 24)], ids=str)
def test_pictures_of_a_frame(kind, rate, radio, tmp_path):
    frame = random_frame(rate, 40, seed=1)
    frame.erased[[1, 20]] = True
    (jobs,) = radio.detect(octets_of([frame]))
    draw, across, up = KINDS[kind]
    figure = draw(frame, jobs, "some.htcp")
    panels = [panel for panel in figure.axes if panel.get_visible()]
    assert len(panels) == (rate.streams if kind == "constellation" else 1)
    if kind == "distances":
        assert [line.get_label().partition(",")[0] for line in panels[0].lines] == ["chi-square law"]
    for panel in panels:
        assert (panel.get_xlabel(), panel.get_ylabel()) == (across, up) and panel.has_data()
    assert any("some.htcp" in text and str(rate) in text for text in texts(figure))
    for ending in ("png", "svg", "pdf"):
        path = tmp_path / f"picture.{ending}"
        pictures.save(figure, path)
        assert path.stat().st_size > 2000
    assert drawn(tmp_path / "picture.png") > 0.01
    with pytest.raises(InputError, match="is there already"):
        pictures.save(figure, tmp_path / "picture.png")
    with pytest.raises(InputError, match="a picture's name ends in"):
        pictures.save(figure, tmp_path / "picture.jpg")


def test_the_law_of_known_points():
    """Of distances of mean 3 with one stream the law is 1 - exp(-x / 3), and with two 1 - (1 + x / 1.5) exp(-x / 1.5): in percent a bin."""
    from matplotlib.figure import Figure

    bins = np.array([0.0, 1.0, 2.5, 7.0])
    for streams, law in ((1, lambda x: 1 - np.exp(-x / 3)), (2, lambda x: 1 - (1 + x / 1.5) * np.exp(-x / 1.5))):
        panel = Figure().subplots()
        pictures.chi_square_law(panel, streams, np.array([1.0, 5.0]), bins)
        (line,) = panel.lines
        assert line.get_ydata() == pytest.approx(100 * np.diff(law(bins))) and line.get_label() == f"chi-square law, {2 * streams} degrees, by the pilots' mean"
        pictures.chi_square_law(panel, streams, np.zeros(3), bins)
        assert len(panel.lines) == 1


def test_points_of_the_constellation_by_hand():
    """Two streams over the triangle (10, 20 + 30i; 40) with the decided points 1 - i and -1 + i: what was received stands beside them.

    The rows are the triangle's of the points, and 2 + i and -8i more, so the values are 0.2 + 0.1i and -0.2i beside the points.
    """
    rate = Rate(20, 9)
    frame = random_frame(rate, 1, seed=1)
    frame.triangles[3] = [[10, 20 + 30j], [0, 40]]
    points = np.array([[1 - 1j, -1 + 1j]])
    frame.samples[0, 3] = frame.triangles[3] @ points[0] + [2 + 1j, -8j]
    jobs = Jobs(0, np.array([0]), np.array([3]), np.array([69]), points)
    assert pictures.rotated_points(frame, jobs) == pytest.approx(np.array([[1.2 - 0.9j, -1 + 0.8j]]))
    frame.triangles[3, 1, 1] = 0
    assert np.isnan(pictures.rotated_points(frame, jobs)[0, 1])


def drawn(path):
    """The share of a picture that isn't white."""
    from matplotlib.image import imread

    return float((imread(path)[..., :3] < 0.9).any(axis=-1).mean())


def test_curves_with_intervals(tmp_path):
    setting = Setting(snr=(0.0, 10.0, 20.0), frames=40)
    spread = [{(22, 100): 20, (23, 100): 20}, {(0, 100): 20, (3, 100): 20}, {(0, 100): 38, (1, 100): 2}]
    rates = [ErrorRates(symbols=FrameProportion(by_frame), frames=Proportion(f, 40)) for by_frame, f in zip(spread, (40, 7, 0))]
    chunks = [Chunk(point, 0, 40, {"reference": each}) for point, each in enumerate(rates)]
    figure = pictures.error_curves(Sweep(setting, True, chunks=chunks), "some.json")
    (panel,) = figure.axes
    assert panel.get_yscale() == "log" and panel.get_xlabel() == "signal-to-noise ratio of one receive antenna (dB)" and panel.get_ylabel() == "error rate"
    labels = panel.get_legend_handles_labels()[1]
    assert sorted(labels) == ["PER at most, no error seen", "PER, behind the decoder", "SER, before the decoder"]
    low, high = panel.get_ylim()
    assert low <= rates[-1].symbols.interval[0] * 1.01 and high >= 1
    lines = [line for line in panel.lines if len(line.get_xdata()) == 3 and line.get_linestyle() == "-"]
    assert any(np.allclose(line.get_ydata(), [0.225, 0.015, 0.0005]) for line in lines)
    pictures.save(figure, tmp_path / "curves.png")
    assert drawn(tmp_path / "curves.png") > 0.01
    chunks = [Chunk(point, 0, 40, {"reference": ErrorRates(symbols=each.symbols)}) for point, each in enumerate(rates)]
    without = pictures.error_curves(Sweep(setting, False, chunks=chunks[1:]))
    assert len(without.axes[0].get_legend_handles_labels()[1]) == 1 and "points without a code" in texts(without)[0]


def crowded():
    """Pictures whose legends have more to say than fits into a line."""
    setting = Setting(snr=(0.0, 10.0, 20.0), frames=40)
    none = ErrorRates(symbols=FrameProportion({(0, 100): 40}), frames=Proportion(0, 40))
    some = ErrorRates(symbols=FrameProportion({(9, 100): 40}), frames=Proportion(9, 40))
    names = ("reference", "zero-forcing", "mine")
    detectors = tuple(Detector(name, "zero-forcing") for name in names[1:])
    for kept in ((), detectors):
        chunks = [Chunk(point, 0, 40, dict.fromkeys(names[: 1 + len(kept)], rates)) for point, rates in enumerate((some, none, none))]
        yield pictures.error_curves(Sweep(setting, True, kept, chunks=chunks), "some.json")
    frame = random_frame(Rate(20, 24), 4, seed=1)
    frame.erased[3] = True
    jobs = zero_forcing(frame)
    yield pictures.evm_over_subcarriers(frame, jobs, "some.htcp")
    yield pictures.residual_over_subcarriers(frame, jobs, "some.htcp")
    yield pictures.constellation(frame, jobs, "some.htcp")


def test_legends_are_inside_their_pictures():
    from matplotlib.backends.backend_agg import FigureCanvasAgg

    for figure in crowded():
        canvas = FigureCanvasAgg(figure)
        canvas.draw()
        (legend,) = figure.legends
        box, whole = legend.get_window_extent(canvas.get_renderer()), figure.bbox
        assert box.x0 >= whole.x0 and box.x1 <= whole.x1 and box.y0 >= whole.y0
        for panel in figure.axes:
            assert not panel.get_visible() or box.y1 < panel.get_tightbbox(canvas.get_renderer()).y0 + 1


def test_streams_can_be_told_apart_in_grey():
    """Streams differ in marker and kind of line, not in colour alone."""
    styles = pictures.STREAM_STYLES
    assert len({marker for _, marker, _ in styles}) == len({line for _, _, line in styles}) == 4


def test_the_spectrum_of_noise_has_its_density():
    """Noise of mean power -40 dB of full scale in 20 MHz, round a carrier that is known and round none."""
    pytest.importorskip("matplotlib")
    from air import octets_in, recording_of
    from mizgaure.air.pictures import spectrum
    from mizgaure.air.recording import Layout

    parts = np.random.default_rng(1).standard_normal((2, 1, 1 << 17)) * 0.01 / np.sqrt(2)
    for carrier, label in ((5.18e9, "frequency (MHz)"), (None, "frequency from the middle (MHz)")):
        panel = spectrum(recording_of(octets_in(parts[0] + 1j * parts[1]), Layout("cf32_le", 20e6, 1), carrier), 0).axes[0]
        line = panel.lines[0]
        assert 10 * np.log10(np.mean(10 ** (line.get_ydata() / 10))) == pytest.approx(-40 - 10 * np.log10(20e6), abs=0.1)
        assert line.get_xdata()[256] == (5180 if carrier else 0)
        assert (panel.get_xlabel(), panel.get_ylabel()) == (label, "power density (dB of full scale per Hz)")


def test_the_data_behind_pictures_of_a_frame():
    """The curves of errors and residuals have the numbers that `measure` prints, and the bars of distances are percents of all jobs."""
    frame = random_frame(Rate(20, 9), 40, seed=1)
    jobs = zero_forcing(frame)
    data = ~frame.rate.is_pilot
    numbers = frame.rate.frequencies[data]
    for draw, cells in ((pictures.evm_over_subcarriers, decibels(evm(frame).cells)),
                        (pictures.residual_over_subcarriers, 100 * residual_ratio(frame, jobs).cells)):
        curves = [line for line in draw(frame, jobs).axes[0].lines if len(line.get_xdata()) > 2]
        for stream in range(2):
            halves = [(line.get_xdata(), line.get_ydata()) for line in curves if line.get_color() == pictures.STREAM_STYLES[stream][0]]
            places, values = (np.concatenate(part) for part in zip(*halves))
            seen = np.isfinite(values)
            assert np.array_equal(places[seen], numbers) and values[seen] == pytest.approx(cells[data, stream])
    (panel,) = pictures.distance_histogram(frame, jobs).axes
    pilot = frame.rate.is_pilot[jobs.carrier]
    (shares,) = (patch.get_xy()[:, 1] for patch in panel.patches if patch.get_label().startswith("data subcarriers"))
    counts, _ = np.histogram(jobs.distance[~pilot], np.linspace(0, np.quantile(jobs.distance, 0.995), 41))
    assert shares.max() == pytest.approx(100 / np.count_nonzero(~pilot) * counts.max())


def test_the_data_behind_pictures_of_a_report():
    """The panels of a capture's frame: points where they were received, errors with the rate's limit, and distances in percent of their jobs."""
    from matplotlib.figure import Figure

    from mizgaure import report

    frame = random_frame(Rate(20, 9), 40, seed=1)
    jobs, data = zero_forcing(frame), ~frame.rate.is_pilot
    for stream in range(2):
        panel = Figure().subplots()
        pictures.constellation_panel(panel, frame, jobs, stream)
        values = pictures.rotated_points(frame, jobs)[data[jobs.carrier]][:, stream]
        reach = max(panel.get_xlim())
        inside = values[(np.abs(values.real) <= reach) & (np.abs(values.imag) <= reach)]
        assert np.asarray(panel.collections[0].get_offsets()) == pytest.approx(np.stack((inside.real, inside.imag), axis=-1))
        assert (panel.get_xlabel(), panel.get_ylabel()) == ("I (levels)", "Q (levels)")
    panel, found = Figure().subplots(), evm(frame)
    report._magnitude_panel(panel, frame, found)
    halves = [line for line in panel.lines if line.get_color() == pictures.STREAM_STYLES[1][0] and len(line.get_xdata()) > 2]
    values = np.concatenate([line.get_ydata() for line in halves])
    assert values[np.isfinite(values)] == pytest.approx(decibels(found.cells)[data, 1]) and panel.get_ylabel() == "error vector magnitude (dB)"
    assert any(set(line.get_ydata()) == {frame.rate.error_limit} and line.get_label() == f"limit {frame.rate.error_limit} dB" for line in panel.lines)
    panel = Figure().subplots()
    report._distance_panel(panel, frame, jobs)
    of_data = jobs.distance[data[jobs.carrier]]
    counts, _ = np.histogram(of_data, np.linspace(0, np.quantile(jobs.distance, 0.995), 41))
    (steps,) = (patch.get_xy()[:, 1] for patch in panel.patches if patch.get_label() == f"data, {of_data.size} jobs")
    assert steps.max() == pytest.approx(100 * counts.max() / of_data.size) and panel.get_xlabel() and panel.get_ylabel() == "share of the jobs (% a bin)"


def verdict_packets(count=4):
    """Packets of two streams, wired, with errors of -18 dB and a slope of 6 dB over all subcarriers."""
    return list(measured(of_scene(Scene(error=-18.0, gains=((-28, -3.0), (28, 3.0)), offset=2.0), Rate(20, 9), 1, count, 300), shown=False))


def test_the_data_behind_pictures_of_verdicts(tmp_path):
    """Each picture of the transmitter tests has its axes named, and its curves are the numbers that were put in or that the verdict has."""
    packets = verdict_packets()
    rate, number = packets[0].rate, packets[0].rate.frequencies
    made = dict(verdict_pictures.drawn(packets, CARRIER, 20e6))
    assert list(made) == ["the spectrum and the mask", "spectral flatness", "errors over subcarriers", "errors over symbols", "the channel over subcarriers",
                          "the channel over delays", "the phase of symbols", "the constellation of MCS 9, stream 1", "the constellation of MCS 9, stream 2"]
    curves = {}
    for what, figure in made.items():
        panel = figure.axes[0]
        assert panel.get_xlabel() and panel.get_ylabel() and panel.get_title(loc="left") and panel.has_data() and panel.get_legend() is not None
        figure.savefig(tmp_path / "it.png")
        assert drawn(tmp_path / "it.png") > 0.01
        curves[what] = {line.get_label(): (np.asarray(line.get_xdata(), float), np.asarray(line.get_ydata(), float)) for line in panel.lines}
    outcomes = findings(packets, CARRIER, 0.1, 20e6)
    of = {each.limit.test: each for each in reversed(outcomes)}
    # The mask over absolute frequency, and the spectrum beside it: its least distance is near to that of the test, which is read in halves.
    places, mask = curves["the spectrum and the mask"]["mask"]
    offsets = places * 1e6 - CARRIER
    assert mask == pytest.approx(limits.mask_at(offsets, 20, "5 GHz")) and -9.9e6 < offsets[0] < -9.7e6 and 9.7e6 < offsets[-1] < 9.9e6
    level = next(values for label, (_, values) in curves["the spectrum and the mask"].items() if label.startswith("antenna"))
    assert np.min((mask - level)[mask < 0]) == pytest.approx(of["spectral mask"].value, abs=1.5) and np.median(level[np.abs(offsets) < 8e6]) < 0
    assert made["the spectrum and the mask"].axes[0].child_axes[0].get_ylabel() == "dB of full scale per Hz"
    # Flatness: 6 dB from one end to the other, of either antenna; the limits step at 16.
    for antenna in range(2):
        places, values = curves["spectral flatness"][f"antenna {antenna}"]
        assert np.array_equal(places, number) and values[-1] - values[0] == pytest.approx(6, abs=0.2)
        assert values == pytest.approx(deviations(packets).mean(axis=0)[antenna])
    steps = [line.get_ydata() for line in made["spectral flatness"].axes[0].lines if line.get_drawstyle() == "steps-mid"]
    assert [sorted(set(step)) for step in steps] == [[-6, -4], [4]] and [step[number.tolist().index(n)] for n in (-17, -16) for step in steps] == [-6, 4, -4, 4]
    # Errors over subcarriers and symbols have the mean that was put in, and the limit of the rate; symbols are those of the longest frame.
    for what, places in (("errors over subcarriers", number), ("errors over symbols", np.arange(packets[0].symbols))):
        found = [curve for label, curve in curves[what].items() if not label.startswith("limit")]
        assert all(np.array_equal(curve[0], places) for curve in found) and len(found) == (2 if what == "errors over subcarriers" else 1)
        assert 10 * np.log10(np.mean([10 ** (curve[1] / 10) for curve in found])) == pytest.approx(-18, abs=0.3)
        assert set(curves[what][f"limit of all together, {rate.error_limit} dB"][1]) == {rate.error_limit}
    # The channel: each stream is heard on its own antenna, by the slope; on the other one there is next to nothing.
    for stream in range(2):
        own, other = (curves["the channel over subcarriers"][f"stream {stream + 1}, antenna {antenna}"][1] for antenna in (stream, 1 - stream))
        assert own[-1] - own[0] == pytest.approx(6, abs=1) and np.mean(own) - np.mean(other) > 20
    # The constellation: received points of data subcarriers, the first ones as they are, and the error of the test.
    for stream in range(2):
        panel = made[f"the constellation of MCS 9, stream {stream + 1}"].axes[0]
        received, known = (collection.get_offsets() for collection in panel.collections)
        first = packets[0].values[:, ~rate.is_pilot, stream].reshape(-1)
        assert len(received) == 4 * first.size and np.array_equal(np.asarray(received[: first.size]), np.stack((first.real, first.imag), axis=-1).astype(float))
        assert {tuple(point) for point in np.asarray(known)} == {(i, q) for i in (-1, 1) for q in (-1, 1)}
        said = [float(text) for text in re.findall(r"(-[\d.]+) dB", panel.get_title(loc="left"))]
        assert said == pytest.approx([-18, of["constellation error"].value], abs=0.3) and said[1] == pytest.approx(of["constellation error"].value, abs=0.051)


def test_delays_and_phases_of_verdicts():
    """A channel 200 ns late has its largest power there, and phases are in degrees, without jumps, of each symbol."""
    packet = verdict_packets(1)[0]
    late = np.exp(-2j * np.pi * 312.5e3 * 200e-9 * packet.rate.frequencies)[:, None, None] * np.eye(2)
    turned = np.stack((np.angle(np.exp(0.3j * np.arange(packet.symbols))), np.zeros(packet.symbols)))
    made = dict(verdict_pictures.drawn([replace(packet, channel=late, phases=turned)], CARRIER, 20e6))
    for line in made["the channel over delays"].axes[0].lines:
        assert line.get_xdata()[np.argmax(line.get_ydata())] == 200 and max(line.get_ydata()) == pytest.approx(0)
    before, after = (line.get_ydata() for line in made["the phase of symbols"].axes[0].lines)
    assert before == pytest.approx(np.degrees(0.3) * np.arange(packet.symbols)) and not after.any()


@pytest.mark.parametrize("greenfield", [False, True])
def test_the_data_behind_pictures_of_a_recording(greenfield, tmp_path):
    """The preamble's correlations are large where its fields repeat, and nowhere else, and points stand where they were sent once they are tracked."""
    recording = of_scene(Scene(greenfield=greenfield, offset=5.0, clock=-20.0), Rate(20, 3), 1, 1, 1500)
    figure = air_pictures.preamble(recording, 0, "air")
    amplitude, correlations = figure.axes
    times, values = amplitude.lines[0].get_data()
    assert values.max() == 1 and values[times < -1].max() < 0.05 < np.median(values[times > 1]) and amplitude.get_ylabel() == "amplitude"
    fields = ["HT-GF-STF", "HT-LTF1", "HT-SIG", "data"] if greenfield else ["L-STF", "L-LTF", "L-SIG", "HT-SIG", "HT-STF", "HT-LTF1", "data"]
    assert [text.get_text() for text in amplitude.texts] == fields
    curves = {line.get_label(): line.get_data() for line in correlations.lines}
    times, short = curves["repeats after 0.8 µs"]
    assert short[(times > 0) & (times < 0.6)].min() > 0.85 and short[(times > 18) & (times < 19)].max() < 0.7
    times, long = curves["agrees with a long training symbol"]
    assert set(np.round(times[long > 0.5], 1)) == ({9.6, 12.8} if greenfield else {9.6, 12.8, 32.8})  # where symbols of a training begin
    figure = air_pictures.tracking(recording, 0, "air")
    apart = []
    for panel in figure.axes:
        received = np.asarray(panel.collections[0].get_offsets())
        assert panel.get_xlabel() == "I (levels)" and panel.get_ylabel() == "Q (levels)" and len(received) == Rate(20, 3).symbols(1500) * 52
        apart.append(np.sqrt(np.mean((received - (2 * np.round((received - 1) / 2) + 1)) ** 2)))
    assert apart[1] < 0.05 and apart[0] > 3 * apart[1]
    for name, each in (("preamble", figure), ("tracking", figure)):
        pictures.save(each, tmp_path / f"{name}.png")
        assert drawn(tmp_path / f"{name}.png") > 0.01
