"""The command ``mizgaure``: its words and its endings. Its manual page is ``man/mizgaure.1`` of the repository."""

from __future__ import annotations

import argparse
import difflib
import os
import re
import signal
import sys
import tempfile
import threading
import traceback
from contextlib import contextmanager, nullcontext, suppress
from typing import Iterator, List, Optional, Sequence

from . import __version__
from .commands import COMMANDS, EXAMPLES
from .errors import InputError, MizgaureError
from .files import text_aside

ERROR_STATUS, INTERRUPTED_STATUS = 2, 130
NEGATIVE, OPTION = re.compile(r"-\.?[0-9]"), re.compile(r"--[a-z-]+")
UNNAMED = "standard output, or a temporary file in {}"  # what couldn't be written where the system doesn't name it
DATA = ("output", "json", "csv", "npz", "mat")  # the options that may name standard output
EXAMPLE = "example:"
NOT_PROVED = "These tools stand beside the proved program radio. They are tested and not proved."


def main(words: Optional[Sequence[str]] = None) -> int:
    """Run the command.

    Parameters
    ----------
    words : sequence of str, optional
        Its words without its own name; those of the process by default.

    Returns
    -------
    int
        0 where all is done, 1 where `judge` finds something worse, 2 where words or an input can't be used or the program
        fails, 130 where it was interrupted.
    """
    words = list(sys.argv[1:] if words is None else words)
    given = parser().parse_args(_with_negative_values(words))
    given.command_line = ["mizgaure", *words]
    with _ending_at_sigterm():
        return _run(given)


def _run(given: argparse.Namespace) -> int:
    try:
        with text_aside() if _asks_for_data(given) else nullcontext():
            status = given.run(given)
            sys.stdout.flush()
        return status or 0
    except MizgaureError as error:
        return _said(str(error))
    except MemoryError:
        return _said("out of memory")
    except BrokenPipeError:
        _forget_output()
        return 0  # whoever read the output has had enough of it
    except OSError as error:
        _forget_output()
        return _said(f"{error.filename or UNNAMED.format(tempfile.gettempdir())}: {error.strerror or error}")
    except KeyboardInterrupt:
        print("mizgaure: interrupted", file=sys.stderr)
        return INTERRUPTED_STATUS
    except Exception as error:  # no status but 2 says that something went wrong
        return _said(f"a mistake of mizgaure, please report it: {_in_words(error)}")


def _asks_for_data(given: argparse.Namespace) -> bool:
    """Whether data go to standard output, so that text doesn't.

    Raises
    ------
    InputError
        If two files are to go there.
    """
    asked = [name for name in DATA if getattr(given, name, None) == "-"]
    if len(asked) > 1:
        raise InputError(f"only one of {' and '.join(f'--{name}' for name in asked)} can be standard output")
    return bool(asked)


def _forget_output() -> None:
    """Let what standard output still holds go nowhere, since it can't be written."""
    with suppress(OSError, ValueError):
        os.dup2(os.open(os.devnull, os.O_WRONLY), sys.stdout.fileno())


@contextmanager
def _ending_at_sigterm() -> Iterator[None]:
    """Until the block is left, a SIGTERM unwinds what runs, so that no half file stays."""
    if threading.current_thread() is not threading.main_thread():
        yield
        return
    before = signal.signal(signal.SIGTERM, _ended)
    try:
        yield
    finally:
        signal.signal(signal.SIGTERM, before)


def _with_negative_values(words: Sequence[str]) -> List[str]:
    """The words, with what begins as a negative number joined to the option before it, since it would be read as an option."""
    joined: List[str] = []
    for word in words:
        if joined and NEGATIVE.match(word) and OPTION.fullmatch(joined[-1]):
            joined[-1] += f"={word}"
        else:
            joined.append(word)
    return joined


def _in_words(error: Exception) -> str:
    """A mistake of these tools in a line: what, and where it was raised. With MIZGAURE_TRACEBACK set, the whole of it stands before."""
    if os.environ.get("MIZGAURE_TRACEBACK"):
        traceback.print_exc()
    place = traceback.extract_tb(error.__traceback__)[-1]
    return f"{type(error).__name__}: {' '.join(str(error).split())} ({os.path.basename(place.filename)}, line {place.lineno})"


def _said(sentence: str) -> int:
    print(f"mizgaure: {sentence}", file=sys.stderr)
    return ERROR_STATUS


def _ended(number: int, _: object) -> None:
    raise SystemExit(128 + number)


class _Help(argparse.HelpFormatter):
    """Help that leaves examples as they are."""

    def _fill_text(self, text: str, width: int, indent: str) -> str:
        return text if text.startswith(EXAMPLE) else super()._fill_text(text, width, indent)


class _Parser(argparse.ArgumentParser):
    """A parser that names the nearest command where there is none of a name."""

    def _check_value(self, action: argparse.Action, value: object) -> None:
        if isinstance(action, argparse._SubParsersAction) and value not in action.choices:
            near = difflib.get_close_matches(str(value), action.choices, 1)
            hint = f"; did you mean {near[0]}?" if near else "; mizgaure --help lists all"
            raise argparse.ArgumentError(None, f"there is no command {value}{hint}")
        super()._check_value(action, value)


def parser() -> argparse.ArgumentParser:
    """The words that the command takes."""
    top = _Parser(prog="mizgaure", description=f"From floating point to a verdict on a receiver of 802.11n. {NOT_PROVED}",
                  epilog="mizgaure COMMAND --help says more. The environment variable MIZGAURE_RADIO names the program radio.")
    top.add_argument("--version", action="version", version=f"mizgaure tools {__version__}; tested and not proved")
    commands = top.add_subparsers(metavar="COMMAND", required=True)
    for command in COMMANDS:
        text = f"{command.text[0].upper()}{command.text[1:]}. {NOT_PROVED}"
        example = f"{EXAMPLE} {EXAMPLES.get(command.name, command.name)}"
        made = commands.add_parser(command.name, help=command.text, description=text, epilog=example, formatter_class=_Help)
        made.set_defaults(run=command.run)
        if command.radio:
            made.add_argument("--radio", metavar="PROGRAM", help="the program radio (default: $MIZGAURE_RADIO, or that of the clone)")
        if command.writes:
            made.add_argument("--force", action="store_true", help="overwrite a file that is there already")
        command.words(made)
    return top
