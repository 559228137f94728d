"""The limits of transmitters and receivers, in one table: those of IEEE Std 802.11-2012, clauses 20.3.20 and 20.3.21.

The text of that edition wasn't at hand when the table was written, so no number here, of a limit or of a clause, was compared
with it. All are from memory of the standard. ``checked`` says what else they were held against: two forms of one limit, sums that
have to agree, or another table of this repository; a test does so.
"""

from __future__ import annotations

from dataclasses import dataclass
from typing import Optional, Tuple

import numpy as np

from ..rates import ERROR_LIMITS

EDITION = "IEEE Std 802.11-2012"
HIGH_BAND = 4.9e9  # Hz, from which on a carrier is in the 5 GHz band
SEVERAL = 2  # frames from which on there is an interval, where a clause names no number
NOT_CHECKED = "nothing"
REMARK = ("The limits and the numbers of clauses are from memory of the standard, and weren't compared with its text: "
          "compare them with your copy before you sign.")


@dataclass(frozen=True)
class Limit:
    """A test of the standard.

    Parameters
    ----------
    test : str
    clause : str
        Its number in the edition.
    words : str
        The limit in words.
    frames : int
        How many frames are asked for.
    named : bool
        Whether the clause names that number; it is `SEVERAL` otherwise.
    checked : str
        What the numbers, which are from memory of the standard, were compared with.
    """

    test: str
    clause: str
    words: str
    frames: int = SEVERAL
    named: bool = False
    checked: str = NOT_CHECKED


# Offsets from the channel's middle in MHz at 20 MHz, and dBr there, between which the mask is straight; at 40 MHz by `MASK_WIDE`. From the last
# offset on the mask is level, at `FLOOR`.
MASK = ((9.0, 0.0), (11.0, -20.0), (20.0, -28.0))
MASK_WIDE = ((19.0, 0.0), (21.0, -20.0), (40.0, -28.0))
LEVEL_FROM = {20: 30.0, 40: 60.0}  # MHz
FLOOR = {"2.4 GHz": -45.0, "5 GHz": -40.0}  # dBr
FLAT = {20: (16, 28), 40: (42, 58)}  # the last inner subcarrier and the last one
INNER, OUTER = (-4.0, 4.0), (-6.0, 4.0)  # dB beside the mean of the inner subcarriers
TOLERANCE = {"2.4 GHz": 25.0, "5 GHz": 20.0}  # parts per million
LEAKAGE = {20: -15.0, 40: -20.0}  # dB of the overall power
LEAKAGE_BETWEEN = -17.0  # the same in the middle of 40 MHz, of a packet of 20 MHz in one half

SPECTRAL_MASK = Limit("spectral mask", "20.3.20.1", "0 dB below the mask")
FLATNESS = Limit("spectral flatness", "20.3.20.2", "-4 to +4 dB inside, -6 to +4 dB at the edges")
FREQUENCY = Limit("centre frequency", "20.3.20.4", "20 ppm in the 5 GHz band, 25 ppm in the 2.4 GHz band")
CLOCK = Limit("symbol clock", "20.3.20.6", "20 ppm in the 5 GHz band, 25 ppm in the 2.4 GHz band")
CENTRE_LEAKAGE = Limit("centre frequency leakage", "20.3.20.7.2", "-15 dB of the power at 20 MHz, -20 dB at 40 MHz, -17 dB at 20 MHz in one half of 40",
                       checked="its other form, +2, 0 and 0 dB of a subcarrier's mean power (from memory, too), agrees within 0.6 dB")
CONSTELLATION = Limit("constellation error", "20.3.20.7.3", f"{', '.join(map(str, ERROR_LIMITS))} dB for MCS 0 to 7 of a stream", frames=20, named=True,
                      checked="nothing; editions differ in MCS 7, -28 or -27, and the stricter number is taken")
# Of receivers (clause 20.3.21): dBm by the modulation and coding of a stream, and by how many dB a neighbour may be above the packets.
SENSITIVITY_LEVELS = {20: (-82, -79, -77, -74, -70, -66, -65, -64), 40: (-79, -76, -74, -71, -67, -63, -62, -61)}
REJECTION = (16, 13, 11, 8, 4, 0, -1, -2)
REJECTION_FAR = (32, 29, 27, 24, 20, 16, 15, 14)  # of a neighbour in a nonadjacent channel
SENSITIVITY = Limit("minimum sensitivity", "20.3.21.1", "one packet in ten of 4,096 octets wrong at -82 to -64 dBm, at 40 MHz 3 dB higher",
                    checked="the ratios of docs/RECORDINGS.md; level and adjacent channel rejection sum up to -66 dBm at each MCS")
ADJACENT = Limit("adjacent channel rejection", "20.3.21.2", "the same, 3 dB above, beside a neighbour 16, 13, 11, 8, 4, 0, -1, -2 dB stronger",
                 checked="the neighbour's level is the same, -63 dBm, at each MCS")
NONADJACENT = Limit("nonadjacent channel rejection", "20.3.21.3", "the same beside a neighbour two channels away, 32, 29, 27, 24, 20, 16, 15, 14 dB stronger",
                    checked="each is 16 dB above the adjacent one")
LIMITS = (SPECTRAL_MASK, FLATNESS, FREQUENCY, CLOCK, CENTRE_LEAKAGE, CONSTELLATION, SENSITIVITY, ADJACENT, NONADJACENT)
SYMBOLS_ASKED = 16  # of each frame, by clause 20.3.20.7.4


def band_of(frequency: Optional[float]) -> Optional[str]:
    """The band of a carrier, as the keys of `TOLERANCE`; None where its frequency isn't known."""
    return None if frequency is None else "5 GHz" if frequency >= HIGH_BAND else "2.4 GHz"


def mask_at(offsets: np.ndarray, bandwidth: int, band: Optional[str]) -> np.ndarray:
    """The mask in dBr at offsets from the channel's middle in Hz; that of the stricter band where none is known."""
    places, levels = zip(*(MASK if bandwidth == 20 else MASK_WIDE), (LEVEL_FROM[bandwidth], FLOOR[band or "2.4 GHz"]))
    return np.interp(np.abs(offsets) / 1e6, places, levels)


def reach_of(bandwidth: int) -> float:
    """The offset in Hz from which on the mask is level, and up to which a recording has to show it."""
    return 1e6 * LEVEL_FROM[bandwidth]


def flatness_limits(numbers: np.ndarray, bandwidth: int) -> Tuple[np.ndarray, np.ndarray, np.ndarray]:
    """Which subcarriers are inner ones, and the lowest and the highest deviation of each in dB."""
    inner = np.abs(numbers) <= FLAT[bandwidth][0]
    return inner, np.where(inner, INNER[0], OUTER[0]), np.where(inner, INNER[1], OUTER[1])
