"""Tools for those who measure: from floating point to a verdict on a receiver of IEEE 802.11n.

These tools stand beside Mizgaure's program ``radio``. The program is proved; **this package is tested and not proved.**
No text of the program passes through it, and nothing that it says is a claim of the proofs.

What is here:

=================  =====================================================================================
``rates``          the 64 rates, their constellations and subcarriers
``formats``        captures (HTCP), files of frames (HTTX) and of symbols (HTSY) as numpy arrays, exact
``quantise``       a capture from a channel and received vectors in floating point
``answers``        the lines of ``radio detect`` and ``radio rx`` as arrays and records
``program``        running the program
``distances``      exact distances of vectors, and the zero-forcing detector
``measures``       error vector magnitude, residuals, error rates with intervals
``tables``         records as JSON lines and as CSV
``chain``          from octets to coded bits and where they land, to tell a tie of frames from an error
``judge``          another receiver's answers beside the reference
``theirs``         another receiver's answers as they are read, and what no answer can be
``causes``         what explains most of what is wrong with them
``soft``           another soft decoder's octets beside those of ``radio soft``
``bundles``        several captures in one file, for ``radio many``
``sweep``          error rates against the signal-to-noise ratio, over random channels
``library``        the program's layers as functions over arrays, by the proved library ``libmizgaure`` where it is built
``inside``         that library in place of the program: its answers to a frame
``stages``         what each stage of the chain has for a frame; ``stage_files`` the same as files
``air``            packets as complex samples: waveforms, and packets of recordings, in a package of its own
``packets``        MPDUs, A-MPDUs, MAC headers, and pcap files for Wireshark
``pcapng``         the blocks of pcapng files
``report``         one page on captures, recordings and sweeps; ``tracing`` what makes it evidence
``pictures``       all of this drawn; needs matplotlib
=================  =====================================================================================

Symbols, subcarriers and frames are counted from 0. Arrays have the spatial streams of a frame from 0 on, so the
first stream, which the standard and the program's pages call stream 1, is at index 0.
"""

from .answers import Answers, End, FrameAnswer, Jobs, Refused, SoftAnswer, read_answers
from .bundles import read_htmb, write_htmb
from .errors import FitError, FormatError, InputError, LineError, MizgaureError, ProgramError
from .formats import CaptureFrame, SentFrame, SymbolsFrame, read_htcp, read_htsy, read_httx, write_htcp, write_htsy, write_httx
from .judge import judge
from .measures import FrameProportion, Proportion, error_rates, evm, residual_ratio
from .program import Radio
from .quantise import Capture, MeasuredFrame, capture
from .rates import Rate

__version__ = "0.1.0"

__all__ = [
    "Answers",
    "Capture",
    "CaptureFrame",
    "End",
    "FitError",
    "FormatError",
    "FrameAnswer",
    "FrameProportion",
    "InputError",
    "Jobs",
    "LineError",
    "MeasuredFrame",
    "MizgaureError",
    "ProgramError",
    "Proportion",
    "Radio",
    "Rate",
    "Refused",
    "SoftAnswer",
    "SentFrame",
    "SymbolsFrame",
    "capture",
    "error_rates",
    "evm",
    "judge",
    "read_answers",
    "read_htcp",
    "read_htmb",
    "read_htsy",
    "read_httx",
    "residual_ratio",
    "write_htcp",
    "write_htmb",
    "write_htsy",
    "write_httx",
]
