"""The proved library over numpy: values that the standard and arithmetic say, the program's own texts, layouts and faults."""

import ctypes
import functools
import importlib.util
import itertools
import os
import subprocess
import sys

import numpy as np
import pytest
from conftest import TOP, VECTORS

from mizgaure import InputError, Rate, read_answers, read_htcp
from mizgaure.inside import detected

try:
    from mizgaure import library
except ImportError as missing:
    pytest.skip(f"library/build hasn't built the library: {missing}", allow_module_level=True)


def one_job():
    """Two QPSK streams, received exactly: the points (1, -1) and (-1, 1) through 10, 1 + 2i and 10."""
    channel = np.zeros((), library.CHANNEL)
    channel["diagonal"][:2] = 10
    channel["above"]["re"][0], channel["above"]["im"][0] = 1, 2
    received = np.zeros((4, 2), np.int32)
    received[:2] = (7, -11), (-10, 10)
    return channel, received


def test_the_scrambler_has_the_sequence_of_the_standard():
    bits = library.scramble(127, np.zeros(127, np.bool_))
    assert "".join(map(str, bits[:32].astype(int))) == "00001110111100101100100100000010"  # clause 18.3.5.5
    assert library.recover(bits[:7]) == 127
    assert library.scramble(127, bits, out=bits) is bits and not bits.any()


def test_a_job_and_symbols_of_it():
    channel, received = one_job()
    rate = Rate(20, 9)
    hit = library.nearest(rate, channel, received)
    assert hit["points"].tolist() == [[1, -1], [-1, 1], [0, 0], [0, 0]] and hit["low"] == 0
    moved = np.broadcast_to(received, (3, 2, 4, 2)).copy()
    moved[:, :, 1, 0] += 3
    hits, labels, sums = library.detect_symbols(rate, np.repeat(channel[None], 2), moved)
    assert library.distances(hits) == [9] * 6 and (hits["points"] == hit["points"]).all()
    assert labels.shape == (3, 2, 2) and (labels == (2, 1)).all()  # QPSK: the first bit is 1 where I is, the second where Q is
    assert sums.shape == (3,) and library.distances(sums) == [18] * 3
    weights = library.weigh_symbols(rate, np.repeat(channel[None], 2), moved)
    assert weights.shape == (3, 2, 2, 2) and ((weights > 0) == [[True, False], [False, True]]).all()


def test_a_distance_of_66_bits_is_whole():
    channel, received = np.zeros((), library.CHANNEL), np.full((4, 2), -(2**31), np.int32)
    hit = library.nearest(Rate(40, 31), channel, received)
    assert library.distances(hit) == [2**65] and (hit["points"] == -7).all()
    found = library.detect_symbols(Rate(40, 31), np.repeat(channel[None], 3), np.broadcast_to(received, (1, 3, 4, 2)))
    assert library.distances(found.sums) == [3 * 2**65] and not found.labels.any()


@pytest.mark.parametrize("mcs", range(32))
def test_symbols_are_jobs_one_by_one(mcs):
    """Labels are those of the points, and sums those of the distances, whichever outputs are wanted."""
    rate, numbers = Rate(20 * (1 + mcs % 2), mcs), np.random.default_rng(mcs)
    channels, received = np.zeros(11, library.CHANNEL), numbers.integers(-2000, 2000, (3, 11, 4, 2)).astype(np.int32)
    channels["diagonal"] = numbers.integers(64, 256, (11, 4))
    for part in ("re", "im"):
        channels["above"][part] = numbers.integers(-64, 65, (11, 6))
    due = np.array([[library.nearest(rate, channel, sample) for channel, sample in zip(channels, symbol)] for symbol in received], library.HIT)
    labels = library.labels(rate.bits_per_point, np.ascontiguousarray(due["points"][:, :, : rate.streams]))
    sums = [sum(library.distances(symbol)) for symbol in due]
    for wanted in itertools.product((False, True), repeat=3):
        found = library.detect_symbols(rate, channels, received, **dict(zip(library.Detected._fields, wanted)))
        assert [array.size > 0 for array in found] == list(wanted)
        assert not wanted[0] or (found.hits == due).all()
        assert not wanted[1] or (found.labels == labels).all()
        assert not wanted[2] or library.distances(found.sums) == sums


@pytest.mark.parametrize("path", sorted((VECTORS / "rates").glob("*.htcp")), ids=lambda path: path.stem)
def test_labels_and_sums_are_those_of_another_program(path):
    """The octets that a frame's labels decode to, and the sum of its symbols' sums, stand in its line of vectors/, which no library wrote."""
    for frame, line in zip(read_htcp(path), read_answers(path.with_suffix(".rx"))):
        data = ~frame.rate.is_pilot
        found = detected(frame.rate, frame.triangles[data], frame.samples[:, data])
        assert sum(library.distances(found.sums)) == line.data
        assert library.decode_frame(frame.rate, found.labels, frame.length) == (line.octets, line.code)


def test_outputs_go_into_arrays_that_are_given():
    channel, received = one_job()
    channels, samples = np.repeat(channel[None], 2), np.broadcast_to(received, (3, 2, 4, 2)).copy()
    made = np.full((3, 2), 85, library.HIT), np.full((3, 2, 2), 85, np.uint8), np.full(3, 85, library.DISTANCE)
    due = library.detect_symbols(Rate(20, 9), channels, samples)
    found = library.detect_symbols(Rate(20, 9), channels, samples, **dict(zip(library.Detected._fields, made)))
    assert all(one is other for one, other in zip(found, made)) and all((one == other).all() for one, other in zip(found, due))
    shared = np.zeros(144, np.uint8)
    with pytest.raises(InputError, match="shares memory"):
        library.detect_symbols(Rate(20, 9), channels, samples, hits=shared.view(library.HIT).reshape(3, 2), labels=shared[132:].reshape(3, 2, 2))
    with pytest.raises(InputError, match="shares memory"):
        library.detect_symbols(Rate(20, 9), channels, samples, labels=samples.view(np.uint8).reshape(-1)[:12].reshape(3, 2, 2))
    for name, wrong in (
        ("hits", made[0][:2]), ("hits", made[0].view(np.uint8)), ("hits", None), ("hits", 1), ("labels", made[1][:, :, :1]),
        ("labels", made[1].view(np.int8)), ("labels", made[1].reshape(-1)), ("sums", made[2][:2]), ("sums", np.zeros(3, np.uint64)), ("sums", np.zeros(6, library.DISTANCE)[::2]),
    ):
        with pytest.raises(InputError):
            library.detect_symbols(Rate(20, 9), channels, samples, **{name: wrong})
    assert not shared.any() and all((one == other).all() for one, other in zip(made, due))


def test_samples_that_are_no_whole_symbols_have_no_sums():
    """What is received has a last axis of subcarriers, as many as channels."""
    channels = np.ones(2, library.CHANNEL)
    for shape in ((6,), (2, 3), (3, 1), (1, 6), ()):
        with pytest.raises(library.BadLength):
            library.detect_symbols(Rate(20, 0), channels, np.zeros(shape, library.RECEIVED))
    found = library.detect_symbols(Rate(20, 0), channels, np.zeros((0, 2), library.RECEIVED))
    assert [array.shape for array in found] == [(0, 2), (0, 2, 1), (0,)]
    assert library.detect_symbols(Rate(20, 0), channels, np.zeros(2, library.RECEIVED)).sums.shape == ()


@pytest.mark.parametrize("pattern", range(4))
def test_codewords_come_back(pattern):
    bits = np.arange(606) ** 2 % 7 < 3
    bits[600:] = False
    coded = library.encode(pattern, bits)
    received = coded.astype(np.uint8)
    received[100] ^= 1
    received[300] = 255
    found, distance = library.decode(pattern, received, 606)
    assert (found == bits).all() and distance == 1
    weights = np.where(coded, 10, -10).astype(np.int32)
    weights[100] *= -1
    found, cost = library.soft_decode(pattern, weights, 606)
    assert (found == bits).all() and cost == 10


@pytest.mark.parametrize("bandwidth, mcs, stream", [(20, 0, 1), (20, 13, 2), (40, 31, 4)])
def test_places_and_origins_are_inverse(bandwidth, mcs, stream):
    rate = Rate(bandwidth, mcs)
    places, origins = library.places(rate, stream), library.origins(rate, stream)
    assert (places[origins] == np.arange(places.size)).all()


def test_frames_come_back():
    rate, octets = Rate(40, 15), bytes(range(200))
    sent = library.transmit(rate, 93, octets)
    assert sent.shape == (rate.symbols(200), 114, 2, 2)
    labels = library.labels(6, sent[:, ~rate.is_pilot])
    assert library.decode_frame(rate, labels, 200) == (octets, 0)
    assert (library.points(6, labels) == sent[:, ~rate.is_pilot]).all()
    bits = (labels[..., None] >> np.arange(5, -1, -1)) & 1
    assert library.soft_frame(rate, np.where(bits == 1, 5, -5).astype(np.int32), 200) == (octets, 0)
    assert (sent[0, rate.is_pilot, :, 0] == np.stack([library.pilots(rate, 0, k) for k in (1, 2)], 1)).all()


COMMANDS = {command: getattr(library, command) for command in ("detect", "rx", "soft", "many", "lrx", "tx", "channel", "upgrade", "certify", "check")}
COMMANDS["lchannel"] = library.legacy_channel


@functools.cache
def rows():
    """What .ci/vectors runs: for each command its inputs, each with what the library has to answer, a text and a refusal of which one is
    empty, and with the seed and the noise where these are words of the call. Workers and windows change no text, so they are left out."""
    names = {"--seed": "seed", "--noise": "noise"}
    listed = subprocess.run([str(TOP / ".ci" / "vectors"), "--list"], capture_output=True, text=True, check=True).stdout
    made = {}
    for command, status, given, wanted, *words in map(str.split, listed.splitlines()):
        text = (TOP / wanted).read_bytes()
        last = text.splitlines()[-1].decode("latin-1")
        due = (b"", last) if status == "1" and last.startswith("refused ") else (text, "")
        options = {names[name]: int(value) for name, value in zip(words[::2], words[1::2]) if command in ("channel", "lchannel")}
        made.setdefault(command, {})[given, wanted] = due, options
    return made


def test_all_commands_of_the_vectors_are_calls():
    assert set(rows()) == set(COMMANDS)


@pytest.mark.parametrize("command", COMMANDS)
def test_texts_are_those_of_the_vectors(command):
    wrong, call = [], COMMANDS[command]
    for (given, _), (due, options) in rows()[command].items():
        capture, said, refusal = (TOP / given).read_bytes(), b"", ""
        try:
            said = call(capture, **options)
        except library.Refused as refused:
            refusal = str(refused)
        if (said, refusal) != due:
            wrong.append(given)
    assert not wrong and rows()[command]


def test_a_bundle_of_one_capture_has_its_text():
    """Of each capture of the vectors that rx has a text for, as .ci/vectors makes them."""
    wrong = []
    for given, wanted in rows()["rx"]:
        capture, due = (TOP / given).read_bytes(), (TOP / wanted).read_bytes()
        if library.many(b"HTMB\x01\x01" + len(capture).to_bytes(4, "big") + capture) != b"capture 0\n" + due:
            wrong.append(given)
    assert not wrong and rows()["rx"]


def test_sizes_suffice_for_clause_18_bundles_and_checks():
    captures = [path.read_bytes() for path in sorted((VECTORS / "legacy").glob("*.lgcp"))]
    assert captures
    for capture in captures:
        try:
            assert len(library.lrx(capture)) <= library.lrx_size(capture)
        except library.Refused:
            pass
    capture = (TOP / "examples" / "z.htcp").read_bytes()
    bundle = b"HTMB\x01\x02" + 2 * (len(capture).to_bytes(4, "big") + capture)
    assert len(library.many(bundle, out=np.empty(library.many_size(bundle), np.uint8))) <= 2 * (library.rx_size(capture) + 12)
    file = library.certify(capture)
    text = library.check(file, out=np.empty(library.check_size(file), np.uint8))
    assert bytes(text) == library.check(file) and len(text) <= library.check_size(file)
    spoiled = bytearray(file)
    spoiled[13 + 2 + 2 + 8 + 2 + 15] ^= 1  # the claimed distance of the first record
    assert library.check(spoiled).startswith(b"job 0 no WrongDistance at ")


@pytest.mark.parametrize("rate, n", [(Rate(20, 13), 1), (Rate(40, 31), 2)])
def test_bits_that_are_laid_are_gathered(rate, n):
    assert rate.encoders == n
    bits = np.arange(rate.coded_bits) ** 2 % 11 < 4
    first, second = (bits, ()) if n == 1 else np.split(bits, 2)
    laid = library.lay(rate, first, second)
    assert laid.shape == (rate.streams, rate.coded_bits_per_stream)
    # The streams get s = 3 bits at a time in turn, from the encoders in turn (clause 20.3.11.8.2).
    for k in range(rate.coded_bits):
        turn, stream, bit = k // (3 * rate.streams), k // 3 % rate.streams, k % 3
        source = (first, second)[turn % n]
        assert laid[stream, 3 * turn + bit] == source[3 * (turn // n * rate.streams + stream) + bit]
    back = library.gather(rate, laid)
    assert (back[0] == first).all() and back[1].size == (n - 1) * back[0].size and (n == 1 or (back[1] == second).all())
    with pytest.raises(library.BadLength):
        library.lay(rate, first[1:], second)
    with pytest.raises(library.BadLength):
        library.lay(rate, first, np.ones(3, np.bool_))
    with pytest.raises(library.BadLength):
        library.gather(rate, laid[:, 1:])


@pytest.mark.parametrize("command", ["detect", "rx", "soft"])
def test_a_size_suffices_for_each_capture_of_the_vectors(command):
    size, captures = getattr(library, f"{command}_size"), 0
    for text in VECTORS.glob(f"*/*.{command}"):
        capture = text.with_suffix(".htcp")
        if capture.exists() and not text.read_bytes().splitlines()[-1].startswith(b"refused"):
            captures += 1
            assert text.stat().st_size <= size(capture.read_bytes()), text
    assert captures > 10


def test_a_size_is_what_the_header_says():
    capture = (TOP / "examples" / "z.htcp").read_bytes()
    newer = library.upgrade(capture)
    assert library.detect_size(capture) == 6 * 1019
    assert library.rx_size(capture) == library.soft_size(capture) == 32 + 1019 // 2
    assert library.rx_size(newer) == library.soft_size(newer) == 32 + 17 * 1075
    assert library.rx_size(newer + bytes(10000)) == 32 + 131177
    assert library.rx_size(b"") == 32 and library.rx_size(b"HTCP\x02\x01") == 32 + 17 * 6
    assert library.lrx_size(bytes(101)) == 32 + 50 and library.many_size(bytes(101)) == 17 * 101 and library.check_size(bytes(101)) == 218


def test_certificates_and_the_channel_are_those_of_the_program():
    capture = (TOP / "examples" / "z.htcp").read_bytes()
    assert library.check(library.certify(capture)).endswith(b"end 104 jobs yes 104\n")
    assert library.channel(b"HTSY\x01\x00\x00") == b"HTCP\x01\x00\x00"
    with pytest.raises(library.Refused, match="refused Truncated at 3"):
        library.channel(b"HTS", seed=7, noise=3)


def test_clause_18():
    assert library.legacy_pilots(0).tolist() == [1, 1, 1, -1]
    for rate in range(8):
        places, origins = library.legacy_places(rate), library.legacy_origins(rate)
        assert (places[origins] == np.arange(places.size)).all()
    assert library.legacy_transmit(0, 127, b"\xa5")[0, :4].tolist() == [[-1, 0], [1, 0], [1, 0], [-1, 0]]
    with pytest.raises(library.NoRate):
        library.legacy_places(8)


def test_a_text_goes_into_an_array_that_is_given():
    capture = (TOP / "examples" / "z.htcp").read_bytes()
    text, room = library.detect(capture), np.full(4096, 85, np.uint8)
    said = library.detect(capture, out=room)
    assert bytes(said) == text and np.shares_memory(said, room) and (room[len(text) :] == 85).all()
    short = np.full(len(text) - 1, 85, np.uint8)
    with pytest.raises(library.NoRoom):
        library.detect(capture, out=short)
    assert (short == 85).all()
    for wrong in (np.empty(4096, np.int8), np.empty(8192, np.uint8)[::2], bytearray(4096)):
        with pytest.raises(InputError):
            library.rx(capture, out=wrong)
    both = np.frombuffer(bytearray(capture) + bytes(4096), np.uint8)
    with pytest.raises(InputError, match="shares memory"):
        library.rx(both[: len(capture)], out=both[8:])


def test_a_refusal_says_what_and_where():
    capture = bytearray((TOP / "examples" / "z.htcp").read_bytes())
    with pytest.raises(library.Refused) as caught:
        library.rx(capture[:100])
    assert (caught.value.kind, caught.value.offset) == ("Truncated", 100)
    capture[7] = 2
    with pytest.raises(library.Refused, match="refused BadBandwidth at 7"):
        library.detect(capture)


@pytest.mark.parametrize("call, fault", [
    (lambda: library.scramble(0, np.zeros(3, np.bool_)), library.NoSeed),
    (lambda: library.recover(np.zeros(7, np.bool_)), library.NoSeed),
    (lambda: library.recover(np.ones(6, np.bool_)), library.BadLength),
    (lambda: library.encode(4, np.zeros(9, np.bool_)), library.NoPattern),
    (lambda: library.decode(0, np.zeros(13, np.uint8), 7), library.BadLength),
    (lambda: library.decode(0, np.zeros(10, np.uint8), 5), library.BadLength),
    (lambda: library.places(Rate(20, 0), 2), library.NoStream),
    (lambda: library.points(3, np.zeros(1, np.uint8)), library.NoModulation),
    (lambda: library.points(4, np.full(1, 16, np.uint8)), library.NoLabel),
    (lambda: library.labels(2, np.full((1, 2), 3, np.int8)), library.NoPoint),
    (lambda: library.decode_frame(Rate(20, 1), np.zeros(104, np.uint8), 10), library.NoSeed),
    (lambda: library.decode_frame(Rate(20, 1), np.zeros(103, np.uint8), 10), library.BadLength),
])
def test_faults_are_exceptions_by_name(call, fault):
    with pytest.raises(fault):
        call()


def test_nothing_is_cut_or_written_past_its_array():
    channel, received = one_job()
    channels = np.repeat(channel[None], 2)
    for call in (
        lambda: library.scramble(257, np.zeros(3, np.bool_)),
        lambda: library.decode(0, np.array([0.5] * 12), 6),
        lambda: library.soft_decode(0, np.full(12, 2**40), 6),
        lambda: library.detect_symbols(Rate(20, 9), channels, np.zeros((2, 4), np.int32)),
        lambda: library.detect_symbols(Rate(20, 9), np.zeros((2, 8), np.int16), received[None]),
        lambda: library.detect_symbols(Rate(20, 9), channels, np.zeros((2, 4, 2), np.int32), hits=np.empty(1, library.HIT)),
        lambda: library.detect_symbols(Rate(20, 9), channels, np.zeros((2, 4, 2), np.int32), hits=np.empty(4, library.HIT)[::2]),
        lambda: library.encode(0, np.zeros(7, np.bool_), out=np.empty(14, np.uint8)),
        lambda: library.decode_frame(Rate(20, 1), np.zeros(104, np.uint8), 10, erased=1 << 128),
    ):
        with pytest.raises(InputError):
            call()
    shared = np.zeros(20, np.bool_)
    with pytest.raises(InputError, match="shares memory"):
        library.encode(0, shared[:7], out=shared[:14])
    fixed = np.zeros(7, np.bool_)
    fixed.flags.writeable = False
    with pytest.raises(InputError, match="writeable"):
        library.scramble(1, fixed, out=fixed)
    assert not library.scramble(1, np.zeros(9, np.bool_)[::3]).all()


RECEIVED = np.arange(48, dtype=np.int32).reshape(3, 2, 4, 2)


def unaligned(array):
    """The same numbers at an odd address."""
    room = np.zeros(array.nbytes + 1, np.uint8)
    made = room[1:].view(array.dtype).reshape(array.shape)
    made[...] = array
    assert not made.flags.aligned
    return made


@pytest.mark.parametrize("laid", [
    unaligned, np.asfortranarray, lambda array: array.astype(">i4"), lambda array: array[::-1].copy()[::-1],
    lambda array: np.repeat(array, 2, 0)[::2], lambda array: array.astype(np.int64), lambda array: array.tolist(),
    lambda array: np.frombuffer(array.tobytes(), np.int32).reshape(array.shape),
])
def test_arrays_of_any_layout_have_the_same_hits(laid):
    """What doesn't fit is copied, and read-only arrays are read where they are."""
    channels = np.ones(2, library.CHANNEL)
    wanted, found = (library.detect_symbols(Rate(20, 27), channels, received) for received in (RECEIVED, laid(RECEIVED)))
    assert all((one == other).all() for one, other in zip(found, wanted))


def test_arrays_that_fit_are_not_copied(monkeypatch):
    """Their own addresses go to the library."""
    channels, samples, given = np.ones(2, library.CHANNEL), np.ones((3, 2), library.RECEIVED), []
    hits, labels, sums = np.empty((3, 2), library.HIT), np.empty((3, 2, 4), np.uint8), np.empty(3, library.DISTANCE)
    monkeypatch.setattr(library, "_detect_symbols", lambda *words: given.extend(words) or 0)
    for received in (samples, RECEIVED):
        found = library.detect_symbols(Rate(20, 27), channels, received, hits=hits, labels=labels, sums=sums)
        assert found.hits is hits and found.labels is labels and found.sums is sums
        assert given[2::2] == [array.ctypes.data for array in (channels, received, hits, labels, sums)]
        given.clear()


@pytest.mark.parametrize("received", [
    RECEIVED.astype(float), RECEIVED.astype(complex), RECEIVED.astype(str), RECEIVED.astype(object), RECEIVED + 2**31, RECEIVED[..., 0],
    np.zeros((3, 2), np.dtype([("samples", ">i4", (4, 2))])), np.zeros((3, 2), library.HIT),
])
def test_other_samples_are_refused_and_nothing_is_written(received):
    out = np.full((3, 2, 24), 85, np.uint8)
    with pytest.raises(InputError):
        library.detect_symbols(Rate(20, 27), np.ones(2, library.CHANNEL), received, hits=out.view(library.HIT)[..., 0])
    assert (out == 85).all()


@pytest.mark.parametrize("out", [
    np.zeros(12, np.uint8), np.zeros(13, np.bool_), np.zeros((1, 12), np.bool_), np.zeros(24, np.bool_)[::2], [False] * 12,
    np.frombuffer(bytes(12), np.bool_), None,
])
def test_an_out_is_of_its_type_and_shape_or_refused(out):
    bits = np.ones(6, np.bool_)
    if out is None:  # the one that fits
        out = np.zeros(12, np.bool_)
        assert library.encode(0, bits, out=out) is out and out.any()
        return
    with pytest.raises(InputError):
        library.encode(0, bits, out=out)
    assert not np.any(out)


def test_structs_at_odd_places_are_copied_or_refused():
    """A type that compares equal, but asks for no alignment, is no way around it."""
    rate, channels = Rate(20, 27), np.ones(2, library.CHANNEL)
    due = library.detect_symbols(rate, channels, RECEIVED)
    for loose in (library.HIT, np.dtype([(name, library.HIT[name]) for name in library.HIT.names])):
        assert loose == library.HIT
        out = np.zeros(6 * 24 + 1, np.uint8)[1:].view(loose).reshape(3, 2)
        with pytest.raises(InputError, match="aligned"):
            library.detect_symbols(rate, channels, RECEIVED, hits=out)
        assert not out.view(np.uint8).any()
    for loose in (library.CHANNEL, np.dtype([(name, library.CHANNEL[name]) for name in library.CHANNEL.names])):
        odd = np.zeros(2 * 32 + 1, np.uint8)[1:].view(loose)
        odd[...] = channels
        assert odd.ctypes.data % 2 == 1
        found = library.detect_symbols(rate, odd, RECEIVED)
        assert all((one == other).all() for one, other in zip(found, due))


def test_an_unaligned_out_is_refused():
    out = unaligned(np.zeros((2, 2, 2, 2), np.int32))
    with pytest.raises(InputError, match="aligned"):
        library.weigh_symbols(Rate(20, 9), np.ones(2, library.CHANNEL), RECEIVED[:2], out=out)
    assert not out.any()


@pytest.mark.parametrize("call, fault", [
    (lambda out: library.detect_symbols(Rate(20, 0), np.ones(4, library.CHANNEL), RECEIVED, hits=out((3, 2), library.HIT)), library.BadLength),
    (lambda out: library.detect_symbols(Rate(20, 8), np.ones(4, library.CHANNEL), RECEIVED, labels=out((3, 2, 2), np.uint8)), library.BadLength),
    (lambda out: library.detect_symbols(Rate(20, 8), np.ones(1, library.CHANNEL), RECEIVED, sums=out(3, library.DISTANCE)), library.BadLength),
    (lambda out: library.weigh_symbols(Rate(20, 0), np.ones(4, library.CHANNEL), RECEIVED, out=out((3, 2, 1, 1), np.int32)), library.BadLength),
    (lambda out: library.scramble(0, np.ones(9, np.bool_), out=out(9, np.bool_)), library.NoSeed),
    (lambda out: library.decode(4, np.zeros(12, np.uint8), 6, out=out(6, np.bool_)), library.NoPattern),
    (lambda out: library.decode(0, np.zeros(11, np.uint8), 6, out=out(6, np.bool_)), library.BadLength),
    (lambda out: library.soft_decode(0, np.zeros(13, np.int32), 6, out=out(6, np.bool_)), library.BadLength),
])
def test_a_fault_leaves_its_out_as_it_was(call, fault):
    made = []

    def out(shape, dtype):
        made.append(np.ones(shape, dtype))
        return made[0]

    with pytest.raises(fault):
        call(out)
    assert (made[0] == np.ones_like(made[0])).all()


def test_the_declarations_are_those_of_the_header():
    """Each call of the header is declared here, with the types that it has there."""
    source = importlib.util.spec_from_file_location("edges", TOP / "library" / "tests" / "edges.py")
    edges = importlib.util.module_from_spec(source)
    source.loader.exec_module(edges)
    types = {f"uint{bits}_t": getattr(ctypes, f"c_uint{bits}") for bits in (8, 16, 32, 64)} | {"size_t": ctypes.c_size_t}
    for name, answer, parameters in edges.calls((TOP / "library" / "mizgaure.h").read_text()):
        call = getattr(library._library, f"mizgaure_{name}")
        wanted = [ctypes.c_void_p if parameter.is_pointer else types[parameter.type] for parameter in parameters]
        assert list(call.argtypes or ()) == wanted and call.restype is types[answer], name


def test_the_layouts_are_those_of_the_header():
    """Sizes and places that mizgaure.h says."""
    assert [dtype.itemsize for dtype in (library.TAP, library.CHANNEL, library.RECEIVED, library.HIT, library.DISTANCE)] == [4, 32, 32, 24, 16]
    assert library.CHANNEL.fields["above"][1] == 8 and library.HIT.fields["low"][1] == 8 and library.HIT.fields["high"][1] == 16


@pytest.mark.parametrize("given, said", [("/nowhere/libmizgaure.so.0", "there is no proved library"), ("libm.so.6", "there is no proved library")])
def test_without_the_library_the_import_says_so(given, said):
    words = [sys.executable, "-c", "from mizgaure import library"]
    variables = {**os.environ, "MIZGAURE_LIBRARY": given, "PYTHONPATH": str(TOP / "tools" / "src")}
    run = subprocess.run(words, env=variables, capture_output=True, text=True, check=False)
    assert run.returncode == 1 and "ImportError" in run.stderr and said in run.stderr


@pytest.mark.parametrize("old, new, said", [
    ("", "", ""),
    ("#define MIZGAURE_VERSION 5\n", "#define MIZGAURE_VERSION 6\n", "its calls are those of version 6, and not 5"),
    ("MIZGAURE_NO_SEED = 4", "MIZGAURE_NO_SEED = 13", "MIZGAURE_NO_SEED is another"),
    ("MIZGAURE_NOT_CERTIFIED = 12", "MIZGAURE_NOT_CERTIFIED = 12, MIZGAURE_NO_TIME = 13", "MIZGAURE_NO_TIME is more"),
    ("uint32_t mizgaure_origins(", "uint32_t mizgaure_sources(", "mizgaure_origins isn't there"),
    ("uint32_t mizgaure_points(uint8_t bits,", "uint32_t mizgaure_points(uint16_t bits,", "mizgaure_points is another"),
    ("uint64_t mizgaure_rx_size(", "uint32_t mizgaure_rx_size(", "mizgaure_rx_size is another"),
    ("uint8_t *octets, size_t octets_n, mizgaure_cost *cost", "uint8_t *octets, mizgaure_cost *cost", "mizgaure_soft_frame is another"),
])
def test_another_header_beside_the_library_is_refused(tmp_path, old, new, said):
    """In each place where packages have it. Only the first difference is told."""
    header = (TOP / "library" / "mizgaure.h").read_text()
    assert old in header
    header = header.replace(old, new, 1)
    for place in ("lib/mizgaure.h", "include/mizgaure.h"):
        folder = tmp_path / place.replace("/", "-")
        for name in ("lib", "include"):
            (folder / name).mkdir(parents=True)
        copied = folder / "lib" / "libmizgaure.so.0"
        copied.write_bytes(library.path().read_bytes())
        (folder / place).write_text(header)
        run = subprocess.run(
            [sys.executable, "-c", "from mizgaure import library; print(library.path())"], capture_output=True, text=True, check=False,
            env={**os.environ, "MIZGAURE_LIBRARY": str(copied), "PYTHONPATH": str(TOP / "tools" / "src")},
        )
        assert (run.stdout.strip() == str(copied)) is not bool(said), run.stderr
        assert not said or ("ImportError" in run.stderr and run.stderr.rstrip().endswith(said))


def test_the_version_is_that_of_the_header():
    header = (TOP / "library" / "mizgaure.h").read_text()
    assert f"#define MIZGAURE_VERSION {library.version()}\n" in header
    names = [name.replace("_", "").lower() for name in _names(header)]
    assert names == ["done", *(fault.__name__.lower() for fault in library.FAULTS[1:])]


def _names(header):
    body = header.partition("enum mizgaure_fault {")[2].partition("};")[0]
    return [line.split()[0].removeprefix("MIZGAURE_") for line in body.splitlines() if "=" in line]


def test_a_certificate_holds_or_says_what_is_wrong():
    channel, received = np.zeros((), library.CHANNEL), np.zeros((4, 2), np.int32)
    channel["diagonal"][0], received[0] = 10, (3, -4)  # the job of docs/CERTIFICATES.md
    hit, marks = library.certify_job(Rate(20, 0), channel, received)
    assert hit["low"] == 65 and marks.tolist() == [True, False, True]
    library.check_job(Rate(20, 0), channel, received, hit, marks)
    with pytest.raises(library.NotCertified) as short:
        library.check_job(Rate(20, 0), channel, received, hit, marks[:2])
    assert (short.value.kind, short.value.at) == ("Short", 2)
    far = np.full((4, 2), -(2**31), np.int32)
    hit, marks = library.certify_job(Rate(40, 23), np.zeros((), library.CHANNEL), far)
    assert marks.size > 256 and marks.all() and library.distances(hit) == [3 * 2**63]
    library.check_job(Rate(40, 23), np.zeros((), library.CHANNEL), far, hit, marks)


def test_encoders_and_frames_of_clause_18():
    first, second = library.split(Rate(40, 31), np.array([0, 1, 1, 0], np.bool_))
    assert first.tolist() == [False, True] and second.tolist() == [True, False]
    assert library.join(Rate(40, 31), first, second).tolist() == [False, True, True, False]
    assert library.split(Rate(20, 0), first)[1].size == 0
    with pytest.raises(library.BadLength):
        library.split(Rate(40, 31), np.zeros(3, np.bool_))
    points = np.delete(library.legacy_transmit(0, 127, b"\xa5"), (5, 19, 32, 46), axis=1)
    labels = (points[..., 0] == 1).astype(np.uint8)
    assert library.legacy_decode_frame(0, labels, 1) == (b"\xa5", 0)


def test_files_of_the_commands():
    frames = bytes.fromhex("4854545801 0001 00000001 7fa5")
    symbols = library.tx(frames)
    assert symbols[:13] == bytes.fromhex("4854535901 0001 00000001 ff00") and len(symbols) == 235  # docs/FORMATS.md
    capture = library.channel(symbols)
    assert library.upgrade(capture)[:5] == b"HTCP\x02"
    assert library.rx(library.upgrade(capture)) == library.rx(capture)
    bundle = b"HTMB\x01\x01" + len(capture).to_bytes(4, "big") + capture
    assert library.many(bundle) == b"capture 0\n" + library.rx(capture)
    assert library.legacy_channel(b"LGTX\x01\x00\x00") == b"LGCP\x01\x00\x00"
    passed = library.legacy_channel(b"LGTX\x01\x00\x01\x00\x00\x01\x7f\xa5")
    assert library.lrx(passed) == b"frame 0 data 0 pilot 0 code 0 octets a5\nend 1 frames\n"  # docs/LEGACY.md
