"""Where coded bits land: what was sent by the vectors, and what their receiver found."""

import numpy as np
import pytest
from conftest import vectors

from mizgaure import read_answers, read_htcp, read_htsy, read_httx
from mizgaure.chain import ERASED, encode, least_hamming, received_bits, steps
from mizgaure.rates import scrambling_sequence


@pytest.mark.parametrize("path", vectors(".httx"))
def test_coded_bits_land_where_they_were_sent(path):
    (frame,) = read_httx(path)
    (symbols,) = read_htsy(path.with_suffix(".htsy"))
    rate = frame.rate
    bits = np.concatenate((np.zeros(16, np.uint8), np.unpackbits(np.frombuffer(frame.octets, np.uint8), bitorder="little")))
    scrambled = bits ^ np.resize(scrambling_sequence(frame.seed), bits.size)
    received = received_bits(rate, frame.length, symbols.points, np.zeros(rate.subcarriers, bool))
    for encoder in range(rate.encoders):
        inputs = np.concatenate((scrambled[encoder :: rate.encoders], np.zeros(6, np.uint8)))
        assert inputs.size == steps(rate, frame.length)
        assert np.array_equal(encode(rate, inputs), received[encoder])
    assert least_hamming(rate, frame.octets, received) == 0


ONE_FRAME = [p for p in vectors(".rx") if "seed zero" not in p.values[0].read_text() and "end 1 frames" in p.values[0].read_text()]


@pytest.mark.parametrize("path", ONE_FRAME[::4])
def test_the_least_hamming_distance_is_the_receivers(path):
    """The octets of a receiver's answer are carried by a codeword at the distance that it says, erasures left out."""
    (answer,) = read_answers(path)
    (frame,) = read_htcp(path.with_suffix(".htcp"))
    (jobs,) = read_answers(path.with_suffix(".detect"))
    points = np.zeros(frame.samples.shape, complex)
    points[jobs.symbol, jobs.carrier] = jobs.points
    received = received_bits(frame.rate, frame.length, points, frame.erased)
    assert (received == ERASED).any() == bool((frame.erased & ~frame.rate.is_pilot).any())
    assert least_hamming(frame.rate, answer.octets, received) == answer.code


def test_coder_by_hand():
    """The response to a single one, 11 01 11 11 00 10 11, at rate 1/2, and punctured at 3/4."""
    from mizgaure import Rate

    one = np.array([1, 0, 0, 0, 0, 0, 0], np.uint8)
    assert "".join(map(str, encode(Rate(20, 0), one))) == "11011111001011"
    assert "".join(map(str, encode(Rate(20, 2), one))) == "1101110011"
