"""Packets of a recording counted against those that were sent: right, wrong and lost ones."""

from __future__ import annotations

from collections import Counter
from typing import List, Optional, Sequence, Tuple, Union

from ..errors import InputError
from ..formats import SentFrame
from ..measures import Proportion
from ..rates import Rate

RIGHT, WRONG, OTHER = "right", "wrong", "other"


class Tally:
    """How many packets of a number that was sent were received.

    Where only their number is known, a packet is right if all of its MPDUs have a good FCS, and wrong otherwise. Where it is
    known what was sent, a packet is right if its octets are those of a frame that wasn't met yet; with other octets it is wrong
    if it has the rate and the length of such a frame, and otherwise a packet of others, which doesn't count.

    Parameters
    ----------
    sent : int or sequence of SentFrame
    """

    def __init__(self, sent: Union[int, Sequence[SentFrame]]) -> None:
        self.sent = sent if isinstance(sent, int) else len(sent)
        if not self.sent:
            raise InputError("no packet was sent, so there is nothing to count")
        self._octets: Optional[Counter] = None if isinstance(sent, int) else Counter(_key(frame.rate, frame.octets) for frame in sent)
        self._heads: Counter = Counter() if isinstance(sent, int) else Counter(_head(frame.rate, len(frame.octets)) for frame in sent)
        self._missed: List[Tuple[int, int, int]] = []
        self.right = self.other = 0
        self._bad = 0

    def add(self, head: Optional[Tuple[int, int, int]], octets: Optional[bytes], good: bool) -> Optional[str]:
        """Count a packet.

        Parameters
        ----------
        head : (int, int, int) or None
            Its bandwidth, MCS and length; None where it has no HT-SIG.
        octets : bytes or None
            None where it has none.
        good : bool
            Whether all MPDUs in it have a good FCS.

        Returns
        -------
        str or None
            `RIGHT`, `WRONG` or `OTHER`.
        """
        if self._octets is None:
            self.right += good
            self._bad += not good
            return RIGHT if good else WRONG
        key = None if head is None or octets is None else (*head[:2], octets)
        if head is not None and self._octets[key] > 0:
            self._octets[key] -= 1
            self._heads[head] -= 1
            self.right += 1
            return RIGHT
        if head is not None and head in self._heads:
            self._missed.append(head)
            return WRONG
        self.other += 1
        return OTHER

    @property
    def wrong(self) -> int:
        """Packets that were found, but not received right; as many at most as were sent and aren't right."""
        found = self._bad if self._octets is None else sum(min(count, self._heads[head]) for head, count in Counter(self._missed).items())
        return min(found, max(0, self.sent - self.right))

    @property
    def lost(self) -> int:
        """Packets that weren't found."""
        return max(0, self.sent - self.right - self.wrong)

    @property
    def error_rate(self) -> Proportion:
        """Of packets: wrong and lost ones of those that were sent."""
        return Proportion(self.wrong + self.lost, self.sent)

    def __str__(self) -> str:
        more = f"; {self.other} of others" if self.other else ""
        if self.right > self.sent:
            more += f"; {self.right - self.sent} more than that were received"
        sent = "1 packet was sent" if self.sent == 1 else f"{self.sent} packets were sent"
        return f"{sent}: {min(self.right, self.sent)} right, {self.wrong} wrong, {self.lost} lost{more}; packet error rate {self.error_rate}"


def _head(rate: Rate, length: int) -> Tuple[int, int, int]:
    return rate.bandwidth, rate.mcs, length


def _key(rate: Rate, octets: bytes) -> Tuple[int, int, bytes]:
    return rate.bandwidth, rate.mcs, bytes(octets)
