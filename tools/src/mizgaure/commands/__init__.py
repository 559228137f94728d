"""The commands of ``mizgaure``, a module each.

Whoever adds one writes a module here whose ``COMMAND`` is a `Command`, and names it in ``MODULES``, whose order is that of
the help, and gives an example in ``EXAMPLES``. The manual page, the table of tools/README.md and the completions have it, too; ``completions/make`` writes the
last, and the tests say what is missing.
"""

from typing import Tuple

from . import answers, bundle, capture, check, example, frames, judge, measure, merge, packets, picture, report, show, sweep, zero_forcing
from . import challenge, receive, record, stages, unbundle, verdict, waveform
from .base import Command

MODULES = (
    judge,
    check,
    capture,
    example,
    show,
    answers,
    measure,
    packets,
    frames,
    bundle,
    unbundle,
    stages,
    sweep,
    merge,
    picture,
    report,
    zero_forcing,
    waveform,
    record,
    receive,
    verdict,
    challenge,
)
COMMANDS: Tuple[Command, ...] = tuple(module.COMMAND for module in MODULES)

# An example of each, as its help shows it.
EXAMPLES = {
    "judge": "mizgaure judge made.htcp theirs --complete --json verdicts.jsonl",
    "check": "radio certify < made.htcp | mizgaure check -",
    "capture": "mizgaure capture frame.npz -o made.htcp",
    "example": "mizgaure example --mcs 11 --length 700 -o frame.npz --sent sent.htsy",
    "show": "mizgaure show made.htcp",
    "answers": "mizgaure answers made.htcp --command rx -o made.rx",
    "measure": "mizgaure measure made.htcp --sent sent.htsy --csv measures.csv",
    "packets": "mizgaure packets made.htcp -o made.pcap",
    "frames": "mizgaure frames examples/mpdus.hex --mcs 11 -o sent.httx",
    "bundle": "mizgaure bundle first.htcp second.htcp -o both.htmb",
    "unbundle": "mizgaure unbundle both.htmb -o captures",
    "stages": "mizgaure stages vectors/legacy/annex-l1.lgtx --mat stages.mat",
    "sweep": "mizgaure sweep --mcs 9 --snr 0:20:5 --frames 50 -o sweep.json --picture sweep.png",
    "merge": "mizgaure merge part1.json part2.json -o whole.json",
    "picture": "mizgaure picture constellation made.htcp made.png",
    "report": "mizgaure report air air.htcp --reference-ppm 0.5 -o air.html",
    "zero-forcing": "mizgaure zero-forcing made.htcp > theirs",
    "waveform": "mizgaure waveform sent.htsy -o air --offset 12 --snr 30",
    "record": "mizgaure record air -o air.htcp",
    "receive": "mizgaure receive air -o air.pcap",
    "challenge": "mizgaure challenge sensitivity lab --mcs 0,7 --full-scale -20",
    "verdict": "mizgaure verdict air --reference-ppm 0.5 --json verdict.jsonl",
}

__all__ = ["COMMANDS", "EXAMPLES", "Command"]
