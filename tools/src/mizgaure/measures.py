"""Error vector magnitude, the detector's residuals, and error rates.

**Error vector magnitude** (`evm`) is the standard's relative constellation error, by the test of clause 20.3.20.7.4: each
symbol is turned back by the phase that its pilots have in common, each subcarrier is equalised by the inverse of its
channel, and each value of a data subcarrier is compared with the point of the constellation nearest to it. With e the
differences and P the mean squared length of the points, the magnitude of any set of values is

    sqrt( mean of |e|**2 / P )

so every subcarrier and symbol weighs the same, and what the inverse does to noise on a faded subcarrier is in it.

**The residual ratio** (`residual_ratio`) is what the detector leaves. On a subcarrier with the triangle R, row k of a
detected vector x has the residual ``r_k = y_k - d_k x_k - (sum over l > k of r_kl x_l)``; the distance is the sum of their
squared lengths. The ratio of any set of rows is

    sqrt( sum of |r_k|**2 / sum of d_k**2 P )

with P = 1 on a pilot: the error's energy beside that of the stream's own part of the row. Being a ratio of sums it isn't
dominated by faded subcarriers, and a row whose diagonal is 0 adds no reference energy. No phase is tracked.

In both, where points are wrong the difference is shorter than the true error, so the magnitude is too small then, as with
every measure that takes decided points.

**Error rates** are proportions with intervals at 95 %. Frames are independent of one another, so a frame error rate has
Wilson's interval (`Proportion`). Points and bits of one frame share its channel and aren't, so their rates keep how many
frames had how many errors, and their interval comes from the spread over frames (`FrameProportion`).
"""

from __future__ import annotations

from collections import Counter
from dataclasses import dataclass, field
from typing import Dict, Iterable, List, Mapping, Optional, Sequence, Tuple, Union

import numpy as np

from .answers import Jobs
from .distances import nearest_points, residuals
from .errors import InputError
from .formats import CaptureFrame, SymbolsFrame
from .rates import Rate, labels_of

CONFIDENCE = 0.95


def _statistics():
    """The module of scipy, which takes a while to load and is needed only where an interval is asked for."""
    try:
        from scipy import stats
    except ImportError:
        raise InputError("intervals need scipy; on Debian: apt install python3-scipy") from None
    return stats


@dataclass(frozen=True)
class Proportion:
    """A number of events in a number of independent trials.

    Parameters
    ----------
    events, trials : int
    """

    events: int
    trials: int

    @property
    def value(self) -> float:
        """The proportion, NaN where nothing was tried."""
        return self.events / self.trials if self.trials else float("nan")

    @property
    def interval(self) -> Tuple[float, float]:
        """Wilson's interval at 95 %; from 0 to 1 where nothing was tried."""
        if not self.trials:
            return 0.0, 1.0
        low, high = _statistics().binomtest(self.events, self.trials).proportion_ci(CONFIDENCE, method="wilson")
        return (0.0 if self.events == 0 else float(low)), (1.0 if self.events == self.trials else float(high))

    def __add__(self, other: "Proportion") -> "Proportion":
        return Proportion(self.events + other.events, self.trials + other.trials)

    def __str__(self) -> str:
        return _rate_in_words(self.events, self.trials, "" if not self.trials else _interval_in_words(self.interval))


@dataclass(frozen=True)
class FrameProportion:
    """A number of events in trials that come by frames; trials of one frame needn't be independent.

    Parameters
    ----------
    frames : mapping from (events, trials) to int
        How many frames had this number of events in this number of trials.
    """

    frames: Mapping[Tuple[int, int], int] = field(default_factory=dict)

    @classmethod
    def of(cls, events: int, trials: int) -> "FrameProportion":
        """That of one frame; of none where nothing was tried."""
        return cls({(events, trials): 1} if trials else {})

    @classmethod
    def from_rows(cls, rows: Sequence[Sequence[int]]) -> "FrameProportion":
        """From what `rows` gives.

        Raises
        ------
        ValueError
            If a row isn't three whole numbers, of at least 0 and no more events than trials, with a frame at least.
        """
        frames: Counter = Counter()
        for events, trials, count in rows:
            if not all(type(number) is int for number in (events, trials, count)) or not 0 <= events <= trials or trials < 1 or count < 1:
                raise ValueError("no row of events, trials and frames")
            frames[events, trials] += count
        return cls(dict(frames))

    def rows(self) -> List[List[int]]:
        """Events, trials and the number of frames that had them, ascending: as it stands in a file."""
        return [[events, trials, count] for (events, trials), count in sorted(self.frames.items())]

    @property
    def events(self) -> int:
        """The number of events in all frames."""
        return sum(events * count for (events, _), count in self.frames.items())

    @property
    def trials(self) -> int:
        """The number of trials in all frames."""
        return sum(trials * count for (_, trials), count in self.frames.items())

    @property
    def count(self) -> int:
        """The number of frames."""
        return sum(self.frames.values())

    @property
    def value(self) -> float:
        """The proportion, NaN where nothing was tried."""
        trials = self.trials
        return self.events / trials if trials else float("nan")

    @property
    def interval(self) -> Tuple[float, float]:
        """An interval at 95 % from the spread over frames; from 0 to 1 where there are fewer than two frames.

        With e_i events in the n_i trials of frame i of m, p the proportion and N the trials in all, the variance of p is
        m / (m - 1) times the sum of (e_i - p n_i)**2 / N**2, and no less than p (1 - p) / N. The interval is symmetric
        about the logarithm of the odds p / (1 - p), with the quantile of Student's distribution. Its degrees of freedom are
        Satterthwaite's, 2 m / (kurtosis - 1) by the kurtosis of the e_i - p n_i and m - 1 at most: where few frames have
        nearly all events, the variance itself is badly known. Without an event the upper end is that of the proportion of
        frames that have one, by Clopper and Pearson.
        """
        count, events, trials = self.count, self.events, self.trials
        if count < 2:
            return 0.0, 1.0
        unseen = float(1 - ((1 - CONFIDENCE) / 2) ** (1 / count))
        if events in (0, trials):
            return (0.0, unseen) if events == 0 else (1 - unseen, 1.0)
        p = events / trials
        table = np.array(self.rows(), float)  # in one order, so that the same frames give the same digits
        squares = (table[:, 0] - p * table[:, 1]) ** 2
        spread, fourth = (float(np.sum(table[:, 2] * squares**power)) for power in (1, 2))
        freedom = count - 1.0
        if spread > 0 and count * fourth > spread**2:
            freedom = min(freedom, max(1.0, 2 * count / (count * fourth / spread**2 - 1)))
        variance = max(count / (count - 1) * spread / trials**2, p * (1 - p) / trials)
        half = _statistics().t.ppf((1 + CONFIDENCE) / 2, freedom) * variance**0.5 / (p * (1 - p))
        odds = np.log(p / (1 - p)) + np.array([-half, half])
        low, high = 1 / (1 + np.exp(-np.clip(odds, -700, 700)))
        return float(low), float(high)

    def __add__(self, other: "FrameProportion") -> "FrameProportion":
        return FrameProportion(dict(Counter(self.frames) + Counter(other.frames)))

    def __str__(self) -> str:
        said = "" if not self.count else "one frame gives no interval" if self.count == 1 else _interval_in_words(self.interval)
        return _rate_in_words(self.events, self.trials, said)


def _interval_in_words(interval: Tuple[float, float]) -> str:
    return "95 %: {:.3g} to {:.3g}".format(*interval)


def _rate_in_words(events: int, trials: int, interval: str) -> str:
    return f"{events} of {trials} = {events / trials:.3g} ({interval})" if trials else "none"


@dataclass(eq=False)
class Magnitudes:
    """Magnitudes of errors in a frame, each as a ratio; NaN where nothing was received.

    Parameters
    ----------
    frame : float
        Over all data subcarriers and streams.
    streams : ndarray of float64, shape (streams,)
        Over all data subcarriers.
    subcarriers : ndarray of float64, shape (subcarriers,)
        Over all streams, pilots counted.
    cells : ndarray of float64, shape (subcarriers, streams)
        Of each stream on each subcarrier.
    """

    frame: float
    streams: np.ndarray
    subcarriers: np.ndarray
    cells: np.ndarray

    @classmethod
    def of(cls, rate: Rate, error: np.ndarray, reference: np.ndarray) -> "Magnitudes":
        """From the energies of the errors and of what they are beside, each of shape (subcarriers, streams)."""
        data = ~rate.is_pilot
        return cls(
            float(_ratio(error[data].sum(), reference[data].sum())),
            _ratio(error[data].sum(axis=0), reference[data].sum(axis=0)),
            _ratio(error.sum(axis=1), reference.sum(axis=1)),
            _ratio(error, reference),
        )


def _ratio(error: np.ndarray, reference: np.ndarray) -> np.ndarray:
    with np.errstate(divide="ignore", invalid="ignore"):
        return np.sqrt(np.where(reference > 0, error / reference, np.nan))


def decibels(ratio: Union[float, np.ndarray]) -> np.ndarray:
    """A ratio of amplitudes in dB: 20 log10, and minus infinity for 0."""
    with np.errstate(divide="ignore"):
        return 20 * np.log10(ratio)


def evm(frame: CaptureFrame, tracked: bool = True) -> Magnitudes:
    """The error vector magnitudes of a frame, by the standard.

    Parameters
    ----------
    frame : CaptureFrame
        Erased subcarriers count for nothing, and neither do those where a diagonal is 0, which have no inverse.
    tracked : bool
        Whether the phase of each symbol is taken from its pilots. It has to be left where it is if the frame was sent with
        pilots other than this project's (docs/CAPTURES.md).

    Returns
    -------
    Magnitudes
    """
    rate = frame.rate
    symbols = frame.samples.shape[0]
    diagonal = np.einsum("cii->ci", frame.triangles).real
    heard = ~frame.erased & (diagonal > 0).all(axis=1)
    inverses = np.linalg.inv(np.where(heard[:, None, None], frame.triangles, np.eye(rate.streams)))
    values = np.einsum("ckl,scl->sck", inverses, frame.samples, optimize=True)
    if tracked:
        values *= np.exp(-1j * common_phases(frame))[:, None, None]
    meant = nearest_points(rate, values)
    meant[:, rate.is_pilot] = rate.pilot_signs(symbols)
    error = values - meant
    energy = np.where(heard[:, None], (error.real**2 + error.imag**2).sum(axis=0), 0)
    power = np.where(rate.is_pilot, 1, rate.power)
    return Magnitudes.of(rate, energy, (symbols * power * heard)[:, None] * np.ones(rate.streams))


def common_phases(frame: CaptureFrame) -> np.ndarray:
    """The phase by which the pilots of each symbol are turned, in radians: float64, shape (symbols,).

    It is the one with which what the pilots are seen as through the channel fits best what was received, by least squares;
    0 where no pilot was received.
    """
    rate = frame.rate
    pilots = rate.is_pilot
    seen = np.einsum("ckl,scl->sck", frame.triangles[pilots], rate.pilot_signs(frame.samples.shape[0]))
    heard = ~frame.erased[pilots]
    return np.angle((seen.conj() * frame.samples[:, pilots])[:, heard].sum(axis=(1, 2)))


def residual_ratio(frame: CaptureFrame, jobs: Jobs) -> Magnitudes:
    """The detector's residuals in a frame, beside the streams' own parts of the rows.

    Parameters
    ----------
    frame : CaptureFrame
    jobs : Jobs
        Answers to jobs of that frame. Jobs without an answer count for nothing, and neither do erased subcarriers.

    Returns
    -------
    Magnitudes

    Raises
    ------
    InputError
        If a job isn't one of the frame.
    """
    check_jobs(frame, jobs)
    rate = frame.rate
    rest = residuals(frame, jobs.symbol, jobs.carrier, jobs.points)
    error = np.zeros((rate.subcarriers, rate.streams))
    np.add.at(error, jobs.carrier, rest.real**2 + rest.imag**2)
    answered = np.bincount(jobs.carrier, minlength=rate.subcarriers)
    diagonal = np.einsum("cii->ci", frame.triangles).real
    power = np.where(rate.is_pilot, 1, rate.power)
    return Magnitudes.of(rate, error, answered[:, None] * diagonal**2 * power[:, None])


FRAMES_ASKED, SYMBOLS_ASKED = 20, 16  # clause 20.3.20.7.4


@dataclass(frozen=True)
class ConstellationTest:
    """The verdict of the standard's test on frames of one rate: the mean of their magnitudes beside the limit.

    Parameters
    ----------
    rate : Rate
    frames : int
        The number of frames.
    mean : float
        The mean of their magnitudes, NaN where nothing was received in one.
    shortest : int
        The fewest symbols of a frame.
    """

    rate: Rate
    frames: int
    mean: float
    shortest: int

    @property
    def is_within(self) -> bool:
        """Whether the mean is no more than the limit."""
        return bool(decibels(self.mean) <= self.rate.error_limit)

    @property
    def is_full(self) -> bool:
        """Whether there are as many frames, and as long ones, as the test asks for."""
        return self.frames >= FRAMES_ASKED and self.shortest >= SYMBOLS_ASKED

    def __str__(self) -> str:
        count = "1 frame" if self.frames == 1 else f"{self.frames} frames"
        verdict = f"{'within' if self.is_within else 'above'} the limit of {self.rate.error_limit} dB"
        if not self.is_full:
            verdict += f"; no verdict: {self.frames} of {FRAMES_ASKED} frames, the shortest of {self.shortest} of {SYMBOLS_ASKED} symbols"
        return f"EVM of {count} at {self.rate}: {percent(self.mean)}, {verdict}"


def constellation_tests(magnitudes: Iterable[Tuple[Rate, int, float]]) -> List[ConstellationTest]:
    """The verdicts on frames, rate by rate in the order in which the rates first come.

    Parameters
    ----------
    magnitudes : iterable of (Rate, int, float)
        Of each frame its rate, its number of symbols and its magnitude by `evm`.
    """
    by_rate: Dict[Rate, List[Tuple[int, float]]] = {}
    for rate, symbols, magnitude in magnitudes:
        by_rate.setdefault(rate, []).append((symbols, magnitude))
    return [ConstellationTest(rate, len(parts), float(np.mean([magnitude for _, magnitude in parts])), min(symbols for symbols, _ in parts))
            for rate, parts in by_rate.items()]


def percent(ratio: float) -> str:
    """A magnitude in words, as 14.67 % (-16.7 dB)."""
    return "0.00 % (below -200 dB)" if ratio < 1e-10 else f"{100 * ratio:.2f} % ({decibels(ratio):.1f} dB)"


def check_jobs(frame: CaptureFrame, jobs: Jobs) -> None:
    """Refuse answers that aren't to jobs of a frame.

    Raises
    ------
    InputError
    """
    rate = frame.rate
    if jobs.streams != rate.streams:
        raise InputError(f"frame {jobs.frame}: the answers have {jobs.streams} streams, and the frame has {rate.streams}")
    outside = (jobs.symbol < 0) | (jobs.symbol >= frame.samples.shape[0]) | (jobs.carrier < 0) | (jobs.carrier >= rate.subcarriers)
    if outside.any():
        first = int(np.argmax(outside))
        raise InputError(f"frame {jobs.frame}: there is no symbol {jobs.symbol[first]} with a subcarrier {jobs.carrier[first]}")
    erased = frame.erased[jobs.carrier]
    if erased.any():
        raise InputError(f"frame {jobs.frame}: subcarrier {jobs.carrier[int(np.argmax(erased))]} is erased and has no job")


@dataclass(frozen=True)
class ErrorRates:
    """Error rates against what was sent.

    Parameters
    ----------
    bits : FrameProportion
        Bits of labels on data subcarriers, before the decoder.
    symbols : FrameProportion
        Points on data subcarriers: one for each OFDM symbol, data subcarrier and stream.
    octet_bits : FrameProportion
        Bits of the PSDU, behind the decoder. A frame without octets has half of its bits wrong, rounded up.
    frames : Proportion
        Frames whose octets aren't those sent.
    """

    bits: FrameProportion = FrameProportion()
    symbols: FrameProportion = FrameProportion()
    octet_bits: FrameProportion = FrameProportion()
    frames: Proportion = Proportion(0, 0)

    def __add__(self, other: "ErrorRates") -> "ErrorRates":
        return ErrorRates(self.bits + other.bits, self.symbols + other.symbols, self.octet_bits + other.octet_bits,
                          self.frames + other.frames)


def error_rates(sent: Iterable[SymbolsFrame], detected: Iterable[Jobs]) -> ErrorRates:
    """Bit and symbol error rates before the decoder.

    Parameters
    ----------
    sent : iterable of SymbolsFrame
        What was sent, from frame 0 on.
    detected : iterable of Jobs
        Answers, in the order of frames. Jobs without an answer count for nothing, so erased subcarriers are left out.

    Returns
    -------
    ErrorRates
        Its ``bits`` and ``symbols``.

    Raises
    ------
    InputError
        If there is an answer to a frame that wasn't sent, or of another number of streams or symbols.
    """
    frames = dict(enumerate(sent))
    total = ErrorRates()
    for jobs in detected:
        if jobs.frame not in frames:
            raise InputError(f"there is an answer to frame {jobs.frame}, and {len(frames)} frame{' was' if len(frames) == 1 else 's were'} sent")
        total += point_errors(frames[jobs.frame], jobs)
    return total


def point_errors(sent: SymbolsFrame, jobs: Jobs) -> ErrorRates:
    """The wrong points and bits of labels among the data subcarriers of one frame; parameters as in `error_rates`."""
    rate = sent.rate
    symbols = sent.points.shape[0]
    if jobs.streams != rate.streams or (len(jobs) and (jobs.symbol.max() >= symbols or jobs.carrier.max() >= rate.subcarriers)):
        raise InputError(f"frame {jobs.frame}: the answers aren't to a frame of {rate} with {symbols} symbol{'' if symbols == 1 else 's'}, as was sent")
    data = ~rate.is_pilot[jobs.carrier]
    meant = labels_of(sent.points[jobs.symbol[data], jobs.carrier[data]], rate)
    found = labels_of(jobs.points[data], rate)
    wrong_bits = np.unpackbits((meant ^ found).astype(np.uint8)[..., None], axis=-1).sum()
    return ErrorRates(FrameProportion.of(int(wrong_bits), meant.size * rate.bits_per_point),
                      FrameProportion.of(int(np.count_nonzero(meant != found)), meant.size))


def octet_errors(sent: bytes, received: Optional[bytes]) -> ErrorRates:
    """The wrong bits of one frame behind the decoder.

    Parameters
    ----------
    sent : bytes
        The PSDU.
    received : bytes or None
        What was decoded, of the same length; None where the seed is zero.

    Raises
    ------
    InputError
        If the lengths differ.
    """
    bits = 8 * len(sent)
    if received is None:
        wrong = (bits + 1) // 2
    elif len(received) != len(sent):
        raise InputError(f"{len(received)} octets were received of a frame of {len(sent)}")
    else:
        wrong = int(np.unpackbits(np.frombuffer(sent, np.uint8) ^ np.frombuffer(received, np.uint8)).sum())
    return ErrorRates(octet_bits=FrameProportion.of(wrong, bits), frames=Proportion(int(received != sent), 1))


def rates_by_name(rates: ErrorRates) -> Dict[str, Union[Proportion, FrameProportion]]:
    """The rates that were measured, by the names that the command prints."""
    names = {"bit error rate before the decoder": rates.bits, "symbol error rate": rates.symbols,
             "bit error rate of octets": rates.octet_bits, "frame error rate": rates.frames}
    return {name: rate for name, rate in names.items() if rate.trials}
