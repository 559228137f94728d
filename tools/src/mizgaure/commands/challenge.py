"""``mizgaure challenge``: the standard's receiver tests as recordings, and what a device answers."""

from __future__ import annotations

import argparse
import os
from typing import Tuple

from ..air.challenge import TESTS, Challenge, judge_answers, read_plan, write_plan
from ..errors import InputError
from ..files import refuse_overwriting
from ..program import Progress, Radio
from ..rates import check_length
from .base import Command, add_tables, level, positive_whole, refuse_idle, refuse_tables, whole, write_tables

COLUMNS = ("name", "test", "clause", "bandwidth", "mcs", "packets", "length", "full_scale", "level", "right", "other", "per", "per_low", "per_high", "limit",
           "verdict")
FAILED_STATUS = 1
JUDGE = "judge"
USUAL = {"bandwidth": 20, "mcs": tuple(range(8)), "packets": 100, "length": 4096, "full_scale": -20.0, "seed": 1}


def numbers(text: str) -> Tuple[int, ...]:
    """MCS, as 0,7,15."""
    found = tuple(whole(word) for word in text.split(","))
    if max(found) > 31 or len(set(found)) < len(found):
        raise argparse.ArgumentTypeError(f"{text} are no different MCS from 0 to 31")
    return found


def words(command: argparse.ArgumentParser) -> None:
    command.add_argument("what", metavar="WHAT", choices=(*TESTS, JUDGE),
                         help="sensitivity, adjacent or nonadjacent, to write recordings, or judge, to judge answers")
    command.add_argument("folder", metavar="FOLDER",
                         help="where the recordings are written, and where NAME.pcap, .pcapng or .lines is a device's answer to NAME")
    command.add_argument("--bandwidth", type=int, choices=(20, 40), help="in MHz (default 20)")
    command.add_argument("--mcs", metavar="M,..", type=numbers, help="a recording for each (default 0,1,2,3,4,5,6,7)")
    command.add_argument("--packets", metavar="N", type=positive_whole, help="of each recording (default 100)")
    command.add_argument("--length", metavar="L", type=positive_whole, help="octets of a packet (default 4096, as the clause asks)")
    command.add_argument("--full-scale", metavar="DBM", type=level, help="the power at an antenna whose samples have mean power 1 (default -20)")
    command.add_argument("--seed", type=whole, help="of the random numbers (default 1)")
    command.add_argument("--complete", action="store_true", help="judge: end with status 1 also where there is no verdict")
    add_tables(command)


def run(given: argparse.Namespace) -> int:
    said = [name for name in USUAL if getattr(given, name) is not None]
    if given.what == JUDGE:
        if said:
            raise InputError(f"--{said[0].replace('_', '-')} is said of recordings that are written")
        refuse_idle(given, "radio", True, "what a device answers is judged without it")
        return _judge(given)
    if given.complete or given.csv or given.json:
        raise InputError("--complete, --csv and --json are said of judge")
    setting = {name: getattr(given, name) if name in said else usual for name, usual in USUAL.items()}
    _write(given, **setting)
    return 0


def _write(given: argparse.Namespace, bandwidth: int, mcs: Tuple[int, ...], packets: int, length: int, full_scale: float, seed: int) -> None:
    check_length(length)
    if length < 30:
        raise InputError(f"a packet has 30 octets at least, and not {length}")
    challenges = [Challenge(given.what, bandwidth, each, packets, length, full_scale) for each in mcs]
    plan = os.path.join(given.folder, "challenge.jsonl")
    for path in (plan, *(os.path.join(given.folder, each.name + ending) for each in challenges for ending in (".sigmf-meta", ".sigmf-data", ".httx"))):
        refuse_overwriting(path, given.force)
    try:
        os.makedirs(given.folder, exist_ok=True)
    except OSError as error:
        raise InputError(f"{given.folder} can't be made: {error.strerror}") from error
    radio = Radio(given.radio, progress=False)
    radio.need("tx")
    bar = Progress(packets * len(challenges), "challenge", unit=" packets")
    try:
        for each in challenges:
            each.write(given.folder, radio, seed, given.force, bar.add)
            bar.say(f"{os.path.join(given.folder, each.name)}: {packets} packets of {length} octets at {each.level:g} dBm, full scale {full_scale:g} dBm")
    finally:
        bar.close()
    write_plan(given.folder, challenges, given.force)


def _judge(given: argparse.Namespace) -> int:
    refuse_tables(given)
    found = [judge_answers(given.folder, each) for each in read_plan(given.folder)]
    for outcome in found:
        print(outcome)
    write_tables(given, [outcome.record() for outcome in found], COLUMNS)
    failed = any(outcome.verdict == "fail" for outcome in found)
    return FAILED_STATUS if failed or given.complete and any(outcome.verdict is None for outcome in found) else 0


COMMAND = Command("challenge", "write the standard's receiver tests as recordings, and judge what a device answers", words, run, radio=True, writes=True)
