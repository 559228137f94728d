"""A part of a recording, by the times that the lines of packets have: what is received of it is what is received of all of it."""

from __future__ import annotations

import math
from dataclasses import dataclass
from typing import Optional, Tuple

from ..errors import InputError
from .samples import ENDLESS, Recording

DIGITS = 6  # of a second behind the point, which lines have


@dataclass(frozen=True)
class Part:
    """The packets whose lines have a time from ``begin`` on and before ``end``, in seconds, or the first ones of these.

    Parameters
    ----------
    begin, end : float
    packets : int, optional
        How many of them at most.
    """

    begin: float = 0.0
    end: float = math.inf
    packets: Optional[int] = None

    def check(self, recording: Recording) -> None:
        """Refuse what has no samples.

        Raises
        ------
        InputError
        """
        if not self.begin < self.end:
            raise InputError(f"there is nothing from {self.begin:g} s on and before {self.end:g} s")
        low, high = self.instants(recording)
        if recording.length != ENDLESS and low >= high:
            first, last = (recording.place_of(sample)[1] for sample in (0, recording.length))
            raise InputError(f"{recording.name} is from {first:.6f} to {last:.6f} s, and has nothing from {self.begin:g} s on")

    def instants(self, recording: Recording) -> Tuple[int, int]:
        """The instants at which its packets begin, at most a microsecond more: the first one and the one behind the last one."""
        more = 10**-DIGITS
        low = max(0, recording.instant_at(self.begin - more))
        return low, recording.length if math.isinf(self.end) else max(0, min(recording.length, recording.instant_at(self.end + more)))

    def is_in_front(self, recording: Recording, sample: int) -> bool:
        """Whether an instant is in front of it."""
        return round(recording.place_of(sample)[1], DIGITS) < self.begin

    def is_behind(self, recording: Recording, sample: int) -> bool:
        """Whether an instant is behind it."""
        return round(recording.place_of(sample)[1], DIGITS) >= self.end


WHOLE = Part()
