"""The three formats: every vector read and written back equal, and faults where the program finds them."""

import io

import numpy as np
import pytest
from conftest import VECTORS, octets_of, random_frame, vectors

from mizgaure import (FormatError, InputError, Rate, SentFrame, SymbolsFrame, read_htcp, read_htsy, read_httx, write_htcp, write_htsy,
                      write_httx)
from mizgaure.formats import read_any

WRITERS = {"htcp": write_htcp, "httx": write_httx, "htsy": write_htsy}
HTTX = bytes.fromhex("48545458 01 0001 00 00 0001 7f a5")


@pytest.mark.parametrize("path", vectors(".htcp") + vectors(".httx") + vectors(".htsy"))
def test_read_and_written_back(path):
    octets = path.read_bytes()
    name, frames = read_any(octets)
    assert name == path.suffix[1:]
    version = {"version": frames.version} if name == "htcp" else {}
    written = io.BytesIO()
    WRITERS[name](written, list(frames), **version)
    assert written.getvalue() == octets


@pytest.mark.parametrize("path", [p for p in sorted(VECTORS.glob("*/*-bad-*")) if p.read_bytes()[:2] == b"HT"], ids=lambda path: path.name)
def test_vectors_at_fault(path):
    """The refused line stands in the place of the file's output."""
    wanted = path.with_suffix({".httx": ".htsy", ".htsy": ".channel", ".htcp": ".upgraded"}[path.suffix]).read_text()
    with pytest.raises(FormatError) as caught:
        list(read_any(path)[1])
    assert f"{caught.value}\n" == wanted


def test_values_of_the_worked_example():
    path = next(p.values[0] for p in vectors(".htcp") if p.values[0].stem == "a5")
    (frame,) = read_htcp(path)
    assert frame.rate == Rate(20, 0) and frame.length == 1
    assert frame.triangles[:4, 0, 0].tolist() == [247, 73, 240, 83]
    assert frame.samples[0, 0, 0] == -247


def test_extremes_are_exact():
    frame = random_frame(Rate(20, 24), 1, seed=1)
    frame.triangles[0] = np.triu(np.full((4, 4), -32768 + 32767j), 1) + 65535 * np.eye(4)
    frame.samples[0, 0] = [-(2**31) + (2**31 - 1) * 1j] * 4
    frame.erased[[3, 55]] = True
    (read,) = read_htcp(octets_of([frame]))
    present = ~frame.erased
    assert np.array_equal(read.erased, frame.erased)
    assert np.array_equal(read.triangles[present], frame.triangles[present])
    assert np.array_equal(read.samples[:, present], frame.samples[:, present])


def refusal_of(octets, reader=read_htcp):
    """What is said of octets, in the program's words."""
    try:
        frames = reader(octets)
        for _ in frames:
            pass
    except FormatError as error:
        return str(error)
    return f"end {frames.frames} frames"


def corrupted():
    """Captures with one octet changed, cut short, or longer, of both versions."""
    random = np.random.default_rng(7)
    marked = random_frame(Rate(20, 8), 9, seed=3)
    marked.erased[[0, 5, 40]] = True
    wholes = [octets_of([random_frame(Rate(20, 0), 1, seed=1), random_frame(Rate(40, 9), 3, seed=2)]), octets_of([marked, marked])]
    yield from (b"", b"H", b"HX", b"HTCP", b"HTCP\3\0\0", b"HTCP\1\0\0", b"HTCP\1\0\0\0", b"HTCP\2\0\1\0\0\0\1" + b"\1" * 56)
    for whole in wholes:
        yield from (whole[:-1], whole + b"\0", whole + whole)
        head = [*range(14), *random.integers(0, len(whole), 30).tolist()]
        for place in head:
            changed = bytearray(whole)
            changed[place] ^= int(random.integers(1, 256))
            yield bytes(changed)
            yield whole[:place]


def test_captures_are_refused_where_the_program_refuses_them(radio):
    for octets in corrupted():
        with radio.text("detect", octets) as lines:
            said = lines.read().splitlines()[-1].decode()
        assert refusal_of(octets) == said, octets[:20].hex()


def changed(octets, place, value):
    return octets[:place] + bytes([value]) + octets[place + 1 :]


HTSY = bytes.fromhex("48545359 01 0001 00 00 0001")


def symbols_file():
    path = next(p.values[0] for p in vectors(".httx") if p.values[0].stem == "bw0-mcs09")
    return path.with_suffix(".htsy").read_bytes()


@pytest.mark.parametrize("octets, said", [
    (HTTX, "end 1 frames"),
    (changed(HTTX, 2, 0x50), "refused BadMagic at 2"),
    (changed(HTTX, 4, 2), "refused BadVersion at 4"),
    (changed(HTTX, 7, 2), "refused BadBandwidth at 7"),
    (changed(HTTX, 8, 32), "refused BadMcs at 8"),
    (changed(HTTX, 10, 0), "refused BadLength at 9"),
    (changed(HTTX, 11, 0), "refused BadSeed at 11"),
    (changed(HTTX, 11, 128), "refused BadSeed at 11"),
    (HTTX[:-1], "refused Truncated at 12"),
    (HTTX + b"\0", "refused Trailing at 13"),
])
def test_refused_frames(octets, said):
    assert refusal_of(octets, read_httx) == said


def test_refused_symbols():
    whole = symbols_file()
    pilot = 11 + 2 * 2 * 7  # two streams of two octets, and pilot 7 of symbol 0
    assert refusal_of(whole, read_htsy) == "end 1 frames"
    assert refusal_of(changed(whole, 13, 0), read_htsy) == "refused BadPoint at 13"
    assert refusal_of(changed(whole, 14, 3), read_htsy) == "refused BadPoint at 13"
    assert refusal_of(changed(whole, pilot, whole[pilot] ^ 0xFE), read_htsy) == f"refused BadPilot at {pilot}"
    assert refusal_of(changed(whole, pilot + 3, 1), read_htsy) == f"refused BadPilot at {pilot + 2}"
    assert refusal_of(whole[:14], read_htsy) == "refused Truncated at 14"
    assert refusal_of(changed(whole, 13, 0)[:14], read_htsy) == "refused Truncated at 14"
    assert refusal_of(changed(whole, 13, 0)[:15], read_htsy) == "refused BadPoint at 13"
    assert refusal_of(whole + b"\1", read_htsy) == f"refused Trailing at {len(whole)}"


def test_frames_come_one_at_a_time():
    """The second frame isn't read before it is asked for, so its fault comes then."""
    octets = octets_of([random_frame(Rate(20, 0), 1, seed=1)] * 2)
    frames = read_htcp(changed(octets, 7 + (len(octets) - 7) // 2, 9))
    assert next(frames).length == 1
    with pytest.raises(FormatError) as caught:
        next(frames)
    assert (caught.value.kind, caught.value.offset) == ("BadBandwidth", 1019)


@pytest.mark.parametrize("spoil, said", [
    (lambda f: f.triangles.__setitem__((5, 0, 0), 70000), "frame 0, subcarrier 5: entry (1, 1) is 70000, and has to be a whole number from 0 to 65535"),
    (lambda f: f.triangles.__setitem__((5, 0, 1), 0.5), "frame 0, subcarrier 5: entry (1, 2) is 0.5, and has to be of whole parts from -32768 to 32767"),
    (lambda f: f.triangles.__setitem__((6, 1, 0), 1), "frame 0, subcarrier 6: entry (2, 1) is 1, and has to be 0, below the diagonal"),
    (lambda f: f.samples.__setitem__((1, 6, 1), 2.0**31),
     "frame 0, symbol 1, subcarrier 6: sample 2 is 2147483648, and its parts have to be whole and from -2^31 to 2^31 - 1"),
    (lambda f: f.samples.__setitem__((1, 6, 1), np.nan),
     "frame 0, symbol 1, subcarrier 6: sample 2 is nan, and its parts have to be whole and from -2^31 to 2^31 - 1"),
    (lambda f: f.erased.__setitem__(slice(None), True), "frame 0: all subcarriers are erased, and a frame has a present one"),
])
def test_what_has_no_place_in_a_capture(spoil, said):
    frame = random_frame(Rate(20, 8), 9, seed=4)
    spoil(frame)
    with pytest.raises(InputError) as caught:
        octets_of([frame], version=2)
    assert str(caught.value) == said


def test_what_has_no_place_in_the_other_files():
    with pytest.raises(InputError, match="frame 0: the seed is 0"):
        write_httx(io.BytesIO(), [SentFrame(Rate(20, 0), b"a", 0)])
    (frame,) = read_htsy(symbols_file())
    frame.points[0, 7, 1] *= -1
    with pytest.raises(InputError, match="frame 0, symbol 0, subcarrier 7: stream 2 has .* which isn't the pilot's value"):
        write_htsy(io.BytesIO(), [frame])
    with pytest.raises(InputError, match="points has the shape"):
        write_htsy(io.BytesIO(), [SymbolsFrame(frame.rate, 60, frame.points)])


def test_a_file_appears_whole_or_not_at_all(tmp_path):
    path = tmp_path / "made.htcp"
    good, bad = random_frame(Rate(20, 0), 1, seed=1), random_frame(Rate(20, 0), 1, seed=1)
    bad.samples[0, 0, 0] = 0.5
    with pytest.raises(InputError):
        write_htcp(path, [good, bad])
    assert list(tmp_path.iterdir()) == []
    write_htcp(path, iter([good]), count=1, version=1)
    with pytest.raises(InputError, match="is there already"):
        write_htcp(path, [good, good])
    assert len(path.read_bytes()) == 1019
    write_htcp(path, [good, good], force=True)
    assert len(path.read_bytes()) == 7 + 2 * 1012
    assert [p.name for p in tmp_path.iterdir()] == ["made.htcp"]
