"""Error rates over random channels."""

from dataclasses import replace

import numpy as np
import pytest
from conftest import vectors

from mizgaure import InputError, ProgramError, Radio, read_htsy
from mizgaure.detectors import Detector
from mizgaure.sweep import Journal, Setting, least_squares, merged, rayleigh, read_sweep, sweep

SMALL = Setting(mcs=0, length=5, snr=(2.0, 8.0), frames=34, channel="awgn")


def test_a_sweep_is_the_same_in_one_process_and_in_two(radio):
    setting = Setting(mcs=9, length=30, snr=(4.0, 12.0, 30.0), frames=12, estimate="ls", seed=3)
    one, two = sweep(setting, radio, processes=1), sweep(setting, radio, processes=2)
    assert one.rates == two.rates
    values = [rates.symbols.value for rates in one.rates]
    assert values == sorted(values, reverse=True) and values[0] > 0.2 and values[-1] < 0.01
    assert one.rates[0].symbols.trials == 12 * 3 * 52 * 2
    assert sweep(Setting(mcs=9, length=30, snr=(4.0,), frames=12, estimate="perfect", seed=3), radio, 1).rates[0].symbols.value < values[0]
    kept = read_sweep(one.to_json().encode())
    assert (kept.setting, kept.coded, kept.rates) == (one.setting, one.coded, one.rates)
    assert one.coded == (radio.knows("tx") and radio.knows("rx"))
    assert one.coded == (one.rates[0].frames.trials == 12)


def test_a_sweep_runs_the_program_three_times_for_ten_frames(radio, tmp_path):
    """No call but those for work, two that ask for the commands left out; and the tasks share the processors, so one worker is enough."""
    counting = tmp_path / "radio"
    counting.write_text(f'#!/bin/sh\necho "$*" >>"{tmp_path}/calls"\nexec "{radio.path}" "$@"\n')
    counting.chmod(0o755)
    found = sweep(Setting(mcs=0, length=5, snr=(20.0,), frames=20), Radio(str(counting), progress=False), processes=1)
    assert found.rates[0].symbols.count == 20
    calls = (tmp_path / "calls").read_text().splitlines()
    for word in ("tx", "rx"):
        calls.remove(word)
    assert calls == ["tx", "detect --workers 1", "rx --workers 1"] * 2 if found.coded else ["detect --workers 1"] * 2


class Stopped(Exception):
    """What breaks a sweep off here."""


def broken_off(setting, radio, path, chunks, **options):
    """A sweep whose journal gets this number of chunks, and then half of a line."""
    journal = Journal(str(path), **options)
    write, written = journal.write, []

    def stopping(chunk):
        if len(written) == chunks:
            raise Stopped
        written.append(chunk)
        write(chunk)

    journal.write = stopping
    with pytest.raises(Stopped):
        sweep(setting, radio, 1, journal=journal)
    journal.close()
    with path.open("ab") as stream:
        stream.write(b'{"point": 1, "fir')


def test_a_sweep_that_was_broken_off_goes_on(radio, tmp_path):
    whole = sweep(SMALL, radio, 1)
    kept = tmp_path / "kept.json"
    broken_off(SMALL, radio, kept, 3)
    assert len(read_sweep(kept).chunks) == 3
    broken_off(SMALL, radio, kept, 2, resume=True)
    assert [(chunk.point, chunk.first) for chunk in read_sweep(kept).chunks] == [(0, 0), (0, 10), (0, 20), (0, 30), (1, 0)]
    journal, told, done = Journal(str(kept), resume=True), [], []
    found = sweep(SMALL, radio, 2, lambda count, _: done.append(count), journal=journal, point_done=lambda _, point: told.append(point))
    journal.close()
    assert found == whole and kept.read_text() == whole.to_json() and read_sweep(kept) == whole
    assert told == [0, 1] and done[0] == 44 and done[-1] == 68 and done == sorted(done)
    journal = Journal(str(kept), resume=True)  # nothing is left
    assert sweep(SMALL, radio, 1, journal=journal) == whole and kept.read_text() == whole.to_json()
    journal.close()


def test_a_journal_is_of_one_sweep(radio, tmp_path):
    kept = tmp_path / "kept.json"
    kept.write_text(sweep(Setting(mcs=0, length=5, snr=(2.0,), frames=1), radio, 1).to_json())
    for changes, said in (({"seed": 2}, "the seed differs"), ({"frames": 2}, "the frames differ"), ({"channel": "flat"}, "the channel differs")):
        with pytest.raises(InputError, match=f"it is another sweep: {said}"):
            sweep(Setting(**{**dict(mcs=0, length=5, snr=(2.0,), frames=1), **changes}), radio, 1, journal=Journal(str(kept), resume=True))
    with pytest.raises(InputError, match="is there already, and only --force overwrites it"):
        Journal(str(kept))
    (tmp_path / "empty").touch()
    assert Journal(str(tmp_path / "empty"), resume=True).known is None
    (tmp_path / "other").write_text("something\n")
    with pytest.raises(InputError, match="this isn't the output of a sweep"):
        Journal(str(tmp_path / "other"), resume=True)


def test_parts_are_merged(radio):
    whole = sweep(SMALL, radio, 1)
    parts = [sweep(SMALL, radio, 1, part=(k, 3)) for k in (1, 2, 3)]
    assert [len(part.chunks) for part in parts] == [3, 3, 2]
    assert merged(parts) == whole and merged([*parts[::-1], parts[0]]) == whole
    assert merged(parts[:2]).missing() == sum(chunk.frames for chunk in parts[2].chunks) and whole.missing() == 0
    with pytest.raises(InputError, match="it is another sweep: the seed differs"):
        merged([whole, sweep(replace(SMALL, seed=2), radio, 1, part=(1, 8))])
    spoiled = read_sweep(whole.to_json().encode())
    spoiled.chunks[1] = type(spoiled.chunks[1])(0, 10, 10, spoiled.chunks[2].rates)
    if spoiled.chunks[1] != whole.chunks[1]:
        with pytest.raises(InputError, match="frames from 10 on at 2 dB stand in two files with different numbers"):
            merged([whole, spoiled])
    with pytest.raises(InputError, match="part 4 of 3 isn't one of them"):
        sweep(SMALL, radio, 1, part=(4, 3))


def test_a_point_ends_with_its_errors(radio):
    if not (radio.knows("tx") and radio.knows("rx")):
        with pytest.raises(InputError, match="there are no frame errors to end a point by"):
            sweep(Setting(errors=3), radio, 1)
        return
    setting = Setting(mcs=7, length=20, snr=(0.0, 40.0), frames=40, channel="awgn", errors=12)
    one, two = sweep(setting, radio, 1), sweep(setting, radio, 3)
    assert one == two and one.missing() == 0
    assert [one.frames(point) for point in (0, 1)] == [20, 40] and [rates.frames.events for rates in one.rates] == [20, 0]
    part = sweep(setting, radio, 1, part=(1, 2))  # its share is 6 errors
    assert [part.frames(point) for point in (0, 1)] == [10, 20]


def test_a_detector_beside_the_reference(radio):
    """Zero forcing errs more often than the nearest vector, and with one stream and one antenna as often."""
    found = sweep(Setting(mcs=9, length=30, snr=(12.0,), frames=20, seed=5), radio, 1, detectors=[Detector("zf", "zero-forcing")])
    reference, other = found.rates[0], found.rates_of("zf")[0]
    assert reference.symbols.events < other.symbols.events and reference.symbols.trials == other.symbols.trials
    assert found.coded == (other.frames.trials == 20) and reference.frames.events <= other.frames.events
    alone = sweep(Setting(mcs=3, length=30, snr=(9.0,), frames=10), radio, 1, detectors=[Detector("zf", "zero-forcing")])
    assert alone.rates_of("zf") == alone.rates and [row["detector"] for row in alone.records()] == ["reference", "zf"]
    assert read_sweep(alone.to_json().encode()) == alone and len(alone.table().splitlines()) == 3
    with pytest.raises(InputError, match="two detectors have the same name"):
        sweep(SMALL, radio, 1, detectors=[Detector("a", "zero-forcing"), Detector("a", "false")])


def test_awgn_is_what_theory_says(radio):
    """QPSK on one antenna errs with the probability 2 q - q**2, where q is that of a Gaussian number beyond the root of the ratio."""
    from math import erfc, sqrt

    (rates,) = sweep(Setting(mcs=1, length=100, snr=(7.0,), frames=30, channel="awgn"), radio, 2).rates
    q = erfc(sqrt(10**0.7 / 2)) / 2
    assert rates.symbols.value == pytest.approx(2 * q - q * q, rel=0.08) and rates.symbols.trials > 20000


def test_least_squares_are_off_by_the_noise():
    """The error's power is that of the noise by the number of training symbols."""
    random = np.random.default_rng(4)
    for streams, count in ((1, 1), (2, 2), (3, 4), (4, 4)):
        rate = Setting(mcs=8 * (streams - 1)).rate
        errors = []
        for _ in range(40):
            channel = rayleigh(rate, 2, 2.0, random)
            errors.append(abs(least_squares(channel, 0.3, random) - channel) ** 2)
        assert np.mean(errors) == pytest.approx(0.09 / count, rel=0.1)


@pytest.mark.parametrize("changes", [{"frames": 0}, {"snr": ()}, {"length": 0}, {"mcs": 32}, {"estimate": "best"}, {"decay": -1.0},
                                     {"errors": -1}, {"chunk": 0}, {"channel": "none"}, {"channel": "tapped"}])
def test_settings_that_mean_nothing(changes, radio):
    with pytest.raises(InputError):
        sweep(Setting(**changes), radio, 1)


@pytest.mark.parametrize("text", [b"", b"{}", b"[]", b'{"sweep": {"mcs": 9}, "coded": false, "points": []}', b'{"sweep": 1}', b"\xff"])
def test_texts_that_are_no_sweep(text):
    with pytest.raises(InputError, match="this isn't the output of a sweep"):
        read_sweep(text)


@pytest.mark.parametrize("path", vectors(".httx")[::9])
def test_tx_makes_the_symbols_of_the_vectors(path, radio):
    if not radio.knows("tx"):
        with pytest.raises(ProgramError, match="has no command tx"):
            radio.tx(path.read_bytes())
        return
    assert [f.points.tolist() for f in read_htsy(radio.tx(path.read_bytes()))] == [f.points.tolist() for f in read_htsy(path.with_suffix(".htsy"))]


@pytest.mark.parametrize("path", vectors(".rx")[::9])
def test_rx_decodes_the_vectors(path, radio):
    if not radio.knows("rx"):
        with pytest.raises(ProgramError, match="has no command rx"):
            radio.rx(path.with_suffix(".htcp"))
        return
    from mizgaure import read_answers

    assert radio.rx(path.with_suffix(".htcp")) == list(read_answers(path))
