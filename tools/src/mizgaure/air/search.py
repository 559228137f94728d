"""The packets of a recording: looked for in each channel of each piece, and received."""

from __future__ import annotations

import os
from dataclasses import replace
from functools import partial
from itertools import islice, takewhile
from tempfile import TemporaryDirectory, gettempdir
from typing import Dict, Iterable, Iterator, List, Optional, Tuple

import numpy as np

from ..errors import InputError
from ..workers import Workers
from .channels import LOWER, UPPER, Channel
from .headers import CLAUSE_18
from .part import WHOLE, Part
from .pieces import Piece, pieces_of
from .receive import MISTAKE, Hearing, Packet, fault_of, hear
from .recording import Recording
from .spectra import FRONT
from .synchronise import Candidate, Correlation, agreement, correlations_of, find_training

Middles = Tuple[int, ...]

# The channels in which packets are looked for, by the oversampling. The middle comes last: it lies over both halves.
CHANNELS: Dict[int, Tuple[Middles, ...]] = {1: ((0,),), 2: ((LOWER, UPPER), (LOWER,), (UPPER,), (0,))}
MARGIN = 160  # samples at 20 MHz in front of a piece's beginning and behind its end in which candidates are looked for, too
COLLISION = "begun while another packet lasted"
LATER, BEFORE_END = 200, 32  # samples at 20 MHz behind a packet's beginning, and before its end, between which another one's is told
SECOND = (430, 505, 635)  # where a packet's own second training looks like that of another one, to the second with one field, else to the third
ANEW = 1200  # samples at 20 MHz behind a collision within which none is told again
CLEARLY = 16.0  # as `synchronise.AGREED`, of a packet that begins while another one lasts
TOGETHER = 96  # samples within which candidates in several channels may be one packet


def packets(recording: Recording, over: int, keep: bool = False, processes: int = 1, part: Part = WHOLE) -> Iterator[Packet]:
    """The packets of a part of a recording, in the order in which they begin.

    They are those that begin there of the whole recording.

    Parameters
    ----------
    recording : Recording
    over : int
        1 for 20 million samples a second, 2 for 40 million.
    keep : bool
        Whether the packets' ``untracked`` vectors are kept.
    processes : int
        How many look for them; what they find doesn't depend on it.
    part : Part
    """
    found = _found(pieces_of(recording, over, *part.instants(recording)), over, keep, processes)
    before = takewhile(lambda packet: not part.is_behind(recording, packet.sample), found)
    return islice((packet for packet in before if not part.is_in_front(recording, packet.sample)), part.packets)


def _found(pieces: Iterator[Piece], over: int, keep: bool, processes: int) -> Iterator[Packet]:
    """The packets of pieces that stand one behind the other."""
    if processes == 1:
        yield from apart(map(partial(packets_of, keep=keep), pieces), over)  # which keeps no piece while the next one is read
        return
    with TemporaryDirectory(prefix="mizgaure-") as folder:
        tasks = ((_kept(piece, f"{folder}/{number}.npy"), keep) for number, piece in enumerate(pieces))
        yield from apart((_taken(task, found) for task, found in Workers(processes).run(_packets_of_kept, tasks)), over)


def _kept(piece: Piece, path: str) -> Tuple[str, Piece]:
    """A piece whose samples are in a file: they would be too much for the pipe to a process."""
    try:
        np.save(path, piece.samples)
    except OSError as error:
        raise InputError(f"the folder of temporary files, {gettempdir()}, can't be written: {error.strerror}") from error
    return path, replace(piece, samples=piece.samples[:, :0])


def _packets_of_kept(task: Tuple[Tuple[str, Piece], bool]) -> List[Packet]:
    """The packets of a piece whose samples are in a file."""
    (path, piece), keep = task
    return packets_of(replace(piece, samples=np.load(path)), keep)


def _taken(task: Tuple[Tuple[str, Piece], bool], found: List[Packet]) -> List[Packet]:
    """What was found in a piece whose file isn't needed any more."""
    (path, _), _ = task
    os.unlink(path)
    return found


def apart(pieces: Iterable[List[Packet]], over: int) -> Iterator[Packet]:
    """The packets of pieces. What begins while another packet of the same channel lasts has no more than its line."""
    lasting: Dict[int, Packet] = {}
    for piece in pieces:
        for packet in piece:
            if all(place not in lasting or packet.sample >= lasting[place].end for place in packet.middles):
                yield packet
                if packet.has_header:
                    lasting.update((place, packet) for place in covered(packet.middles))
            elif packet.left_out == COLLISION:
                yield packet
            elif packet.has_header and collides(packet.sample, packet.middles, lasting.get(packet.middles[0]), over):
                yield collision(packet.sample, packet.middles, packet.offset, packet.noise)


def collides(sample: int, middles: Middles, other: Optional[Packet], over: int) -> bool:
    """Whether what begins at a sample is clearly within another packet of the same channel, and none of its own trainings."""
    if other is None or middles != other.middles or not other.sample + LATER * over <= sample < other.end - BEFORE_END * over:
        return False
    second = other.left_out != CLAUSE_18 and not other.is_greenfield
    one = other.signal is not None and other.signal.mcs < 8 and not other.signal.stbc
    return not (second and SECOND[0] * over <= sample - other.sample < SECOND[1 if one else 2] * over)


def collision(sample: int, middles: Middles, offset: float, noise: float) -> Packet:
    """The line of a packet that begins while another one lasts; nothing is read of it."""
    return Packet(sample, sample + FRONT, offset, noise, COLLISION, middles=middles)


def covered(middles: Middles) -> Middles:
    """The places in the band where nothing else can be received beside a packet: each half, and the middle over both."""
    return (LOWER, 0, UPPER) if middles in ((0,), (LOWER, UPPER)) else (*middles, 0)


def packets_of(piece: Piece, keep: bool = False) -> List[Packet]:
    """The packets that begin in a piece, in the order in which they begin."""
    search = _Search(piece, keep)
    search.run()
    return sorted((packet for packet in search.found if piece.begin <= packet.sample < piece.end), key=lambda packet: (packet.sample, packet.middles))


class _Search:
    """The search of a piece; instants are those of the channels."""

    def __init__(self, piece: Piece, keep: bool) -> None:
        self.piece, self.keep = piece, keep
        self.channels = {middles: Channel(piece, middles) for middles in CHANNELS[piece.over]}
        begin = max(piece.first, piece.begin - MARGIN * piece.over) // piece.over
        middles = tuple(middles[0] for middles in self.channels if len(middles) == 1)
        found = correlations_of(piece, middles, begin, piece.end // piece.over + MARGIN)
        single = {(middle,): correlation for middle, correlation in found.items()}
        both = {(LOWER, UPPER): single[LOWER,].together(single[UPPER,])} if piece.over == 2 else {}
        self.correlations: Dict[Middles, Correlation] = {**both, **single}
        self.free = {place: 0 for place in (LOWER, 0, UPPER)}  # from which instant on something may begin there
        self.lasting: Dict[int, Packet] = {}  # what lasts there until then
        self.found: List[Packet] = []

    def run(self) -> None:
        """Go through all candidates, those of one instant together."""
        waiting = sorted(((candidate.instant, number, middles, candidate) for number, (middles, correlation) in enumerate(self.correlations.items())
                          for candidate in correlation.candidates()), key=lambda entry: entry[:2])
        while waiting:
            until = waiting[0][0] + TOGETHER
            count = next((n for n, entry in enumerate(waiting) if entry[0] > until), len(waiting))
            here = {middles: candidate for _, _, middles, candidate in reversed(waiting[:count])}
            del waiting[:count]
            try:
                self._try(here)
            except MemoryError:
                raise
            except Exception as error:  # the other packets go on
                sample = min(candidate.instant for candidate in here.values()) * self.piece.over
                self._add(Packet(sample, sample + FRONT, 0.0, 0.0, MISTAKE, middles=next(iter(here)), fault=fault_of(error)))

    def _try(self, here: Dict[Middles, Candidate]) -> None:
        """Receive what begins at an instant."""
        alone = {middles: self._heard(middles, candidate) for middles, candidate in here.items() if len(middles) == 1 and middles != (0,)}
        readable = [hearing is not None and hearing.is_readable and not hearing.says_wide for hearing in alone.values()]
        if (LOWER, UPPER) in here and not (len(readable) == 2 and all(readable)):
            both = self._heard((LOWER, UPPER), here[LOWER, UPPER])
            if both is not None and both.is_whole:
                return self._add(both.packet(self.keep))
        for hearing in alone.values():
            if hearing is not None:
                self._add(hearing.packet(self.keep))
        if (0,) in here:
            hearing = self._heard((0,), here[0,])
            if hearing is not None:
                self._add(hearing.packet(self.keep))

    def _heard(self, middles: Middles, candidate: Candidate) -> Optional[Hearing]:
        """What is heard in a channel where a packet may begin, unless another one lasts there."""
        if any(candidate.instant < self.free[place] for place in middles):
            self._tell_collision(middles, candidate)
            return None
        return hear(self.channels[middles], candidate, self.correlations[middles].noise)

    def _tell_collision(self, middles: Middles, candidate: Candidate) -> None:
        """Give a packet that begins while another one lasts its line, where its training is heard."""
        over, other = self.piece.over, self.lasting.get(middles[0])
        if not collides(candidate.instant * over, middles, other, over):
            return
        training = find_training(self.channels[middles], candidate, self.correlations[middles].noise)
        if training is None or agreement(training.channel / np.sqrt(self.correlations[middles].noise)[:, None]) < CLEARLY:
            return
        sample = (training.begin - FRONT) * over
        if not collides(sample, middles, other, over):
            return
        if all(packet.left_out != COLLISION or packet.middles != middles or sample >= packet.sample + ANEW * over for packet in self.found[-2:]):
            self.found.append(collision(sample, middles, training.offset * 20e6, training.noise_ratio))

    def _add(self, packet: Packet) -> None:
        if packet.fault or all(packet.sample >= self.free[place] * self.piece.over for place in packet.middles):
            self.found.append(packet)
            if packet.has_header:
                for place in covered(packet.middles):
                    if packet.end // self.piece.over > self.free[place]:
                        self.free[place], self.lasting[place] = packet.end // self.piece.over, packet
