"""Running the program ``radio``.

The program is, in this order: the path that is given, the environment variable ``MIZGAURE_RADIO``, the script ``radio`` of
the clone that this package stands in, and the first ``radio`` on the PATH. That script builds the program at its first
call.
"""

from __future__ import annotations

import os
import shutil
import subprocess
import sys
import threading
from contextlib import contextmanager
from io import BufferedReader
from pathlib import Path
from typing import BinaryIO, Dict, Iterator, List, Optional, cast

from .answers import Answers, Refused, read_line
from .errors import FormatError, InputError, ProgramError
from .files import Source, reading

VARIABLE = "MIZGAURE_RADIO"
STATUSES = {3: "it couldn't read its input", 4: "it couldn't write its output", 5: "it ran out of memory",
            6: "a word of the call isn't UTF-8", 125: "it couldn't be built"}
USAGE = 2
THREADED = ("detect", "rx", "soft", "many", "lrx")
PIECE = 1 << 16
JOIN_SECONDS = 2  # what feeds a program that has ended may still wait for its source


def find_radio(given: Optional[str] = None) -> str:
    """The path of the program.

    Parameters
    ----------
    given : str, optional
        A path that goes before all others.

    Raises
    ------
    ProgramError
        If there is no program there.
    """
    path = given or os.environ.get(VARIABLE)
    if not path:
        clone = Path(__file__).resolve().parents[3]
        path = str(clone / "radio") if (clone / "crates").is_dir() else shutil.which("radio")
        if not path:
            raise ProgramError(f"the program radio wasn't found: it is in no folder of PATH, and {VARIABLE} isn't set")
    if not (os.path.isfile(path) and os.access(path, os.X_OK)):
        raise ProgramError(f"{path} is no program that can be run")
    return path


class Progress:
    """A bar on standard error, by tqdm where that is installed.

    Parameters
    ----------
    total : int or None
        How many octets or the like there are, where that is known.
    label : str
        What stands in front of the bar.
    shown : bool, optional
        By default only where standard error is a terminal.
    unit : str
        ``"B"`` for octets.
    """

    def __init__(self, total: Optional[int], label: str, shown: Optional[bool] = None, unit: str = "B") -> None:
        self.total, self.label, self.done, self.percent = total, label, 0, -1
        self.shown = sys.stderr.isatty() if shown is None else shown
        self.bar = None
        if self.shown:
            try:
                from tqdm import tqdm
            except ImportError:
                return
            self.bar = tqdm(total=total, desc=label, unit=unit, unit_scale=unit == "B", leave=False)

    def add(self, count: int) -> None:
        """So many more are done."""
        self.done += count
        if self.bar is not None:
            self.bar.update(count)
        elif self.shown and self.total:
            percent = 100 * self.done // self.total
            if percent != self.percent:
                self.percent = percent
                print(f"\r{self.label}: {percent} %", end="", file=sys.stderr, flush=True)

    def say(self, line: str) -> None:
        """Print a line on standard output, above the bar where there is one."""
        if self.bar is not None:
            self.bar.write(line)
        else:
            if self.percent >= 0:
                self.close()
                self.percent = -1
            print(line)
        sys.stdout.flush()

    @contextmanager
    def hidden(self) -> Iterator[None]:
        """Take the bar away for as long as somebody else writes."""
        if self.bar is not None:
            self.bar.clear()
        elif self.percent >= 0:
            self._wipe()
        yield
        if self.bar is not None:
            self.bar.refresh()

    def _wipe(self) -> None:
        print("\r" + " " * (len(self.label) + 8) + "\r", end="", file=sys.stderr, flush=True)

    def close(self) -> None:
        """Take the bar away."""
        if self.bar is not None:
            self.bar.close()
        elif self.percent >= 0:
            self._wipe()


class Radio:
    """The program ``radio``, found once.

    Parameters
    ----------
    path : str, optional
        Its path; see the head of this module for where it is looked for.
    progress : bool, optional
        Whether a bar shows on standard error how far an input was read. By default where that is a terminal.
    workers : int, optional
        The threads with which commands that have workers run; by default the program's own number.
    """

    def __init__(self, path: Optional[str] = None, progress: Optional[bool] = None, workers: Optional[int] = None) -> None:
        self.path = find_radio(path)
        self.progress = progress
        self.workers = workers
        self._known: Dict[str, bool] = {}

    def knows(self, word: str) -> bool:
        """Whether the program has the command, told by its status on an empty input: 2 says that it hasn't."""
        if word not in self._known:
            done = self._run_quietly(word)
            if done.returncode not in (0, 1, USAGE):
                raise ProgramError(self._told(word, done.returncode))
            self._known[word] = done.returncode != USAGE
        return self._known[word]

    def _run_quietly(self, word: str) -> "subprocess.CompletedProcess[bytes]":
        try:
            return subprocess.run([self.path, word], stdin=subprocess.DEVNULL, stdout=subprocess.DEVNULL, check=False)
        except OSError as error:
            raise ProgramError(f"{self.path} can't be run: {error.strerror}") from error

    def need(self, word: str) -> None:
        """Refuse a command that the program doesn't have.

        Raises
        ------
        ProgramError
        """
        if not self.knows(word):
            raise ProgramError(f"{self.path} has no command {word}")

    @contextmanager
    def text(self, word: str, source: Source) -> Iterator[BufferedReader]:
        """Run a command on octets and read what it writes while it runs.

        Parameters
        ----------
        word : str
            The command.
        source : path, ``"-"``, bytes or binary stream
            Its input.

        Yields
        ------
        binary stream
            Its standard output. Leaving the block before its end stops the program.

        Raises
        ------
        ProgramError
            At the end of the block, if the status is neither 0 nor 1 and the output was read to its end.
        """
        with reading(source) as stream:
            # The program reads standard input itself: a thread that waits there couldn't be ended.
            own = stream is getattr(sys.stdin, "buffer", None)
            try:
                child = subprocess.Popen(self._call(word), stdin=None if own else subprocess.PIPE, stdout=subprocess.PIPE)
            except OSError as error:
                raise ProgramError(f"{self.path} can't be run: {error.strerror}") from error
            assert child.stdout is not None
            failed: List[OSError] = []
            feeder = threading.Thread(target=self._feed, args=(word, stream, child.stdin, failed), daemon=True)
            if not own:
                feeder.start()
            try:
                yield cast(BufferedReader, child.stdout)
                cut = bool(child.stdout.read(1))
                if cut:
                    child.terminate()  # before its output is closed, of which it would complain
            except BaseException:
                child.terminate()
                raise
            finally:
                child.stdout.close()
                status = child.wait()
                if not own:
                    feeder.join(JOIN_SECONDS)
            if failed:
                raise InputError(f"the input can't be read: {failed[0].strerror}")
            if not cut and status not in (0, 1):
                raise ProgramError(self._told(word, status))

    def _call(self, word: str) -> List[str]:
        workers = [] if self.workers is None or word not in THREADED else ["--workers", str(self.workers)]
        return [self.path, word, *workers]

    def _feed(self, word: str, stream: BinaryIO, sink: BinaryIO, failed: List[OSError]) -> None:
        bar = Progress(octets_left(stream), f"radio {word}", self.progress)
        try:
            while piece := stream.read(PIECE):
                sink.write(piece)
                bar.add(len(piece))
        except BrokenPipeError:
            pass  # the program has ended, and its status says why
        except OSError as error:
            failed.append(error)
        finally:
            bar.close()
            try:
                sink.close()
            except BrokenPipeError:
                pass

    def _told(self, word: str, status: int) -> str:
        if status == USAGE:
            return f"{self.path} has no command {word}"
        if status < 0:
            return f"{self.path} {word} was ended by signal {-status}"
        return f"{self.path} {word} ended with status {status}: {STATUSES.get(status, 'what that means is not known')}"

    @contextmanager
    def answers(self, word: str, source: Source) -> Iterator[Answers]:
        """Run ``detect``, ``rx`` or ``soft`` and read its answers while it runs.

        Parameters
        ----------
        word : str
            ``"detect"``, ``"rx"`` or ``"soft"``.
        source : path, ``"-"``, bytes or binary stream
            A capture.

        Yields
        ------
        Answers
            The iterator; its ``last`` is known once it has ended.
        """
        with self.text(word, source) as output:
            yield Answers(output)

    def detect(self, source: Source) -> list:
        """All answers of ``radio detect``: a list of `Jobs`, one for each frame.

        Raises
        ------
        FormatError
            If the source is no capture.
        """
        return self._all("detect", source)

    def rx(self, source: Source) -> list:
        """All answers of ``radio rx``: a list of `FrameAnswer`. Raises as `detect`, and where there is no such command."""
        return self._all("rx", source)

    def lrx(self, source: Source) -> list:
        """All answers of ``radio lrx`` to a capture of clause 18 (LGCP), as `rx`."""
        return self._all("lrx", source)

    def soft(self, source: Source) -> list:
        """All answers of ``radio soft``: a list of `SoftAnswer`. Raises as `rx`."""
        return self._all("soft", source)

    def _all(self, word: str, source: Source) -> list:
        with self.answers(word, source) as answers:
            records = list(answers)
        if isinstance(answers.last, Refused):
            raise FormatError(answers.last.kind, answers.last.offset)
        if answers.last is None:
            raise ProgramError(f"{self.path} {word} wrote no last line")
        return records

    def tx(self, octets: bytes) -> bytes:
        """What ``radio tx`` makes of a file of frames (HTTX): a file of symbols (HTSY)."""
        return self.made("tx", octets)

    def made(self, word: str, octets: bytes) -> bytes:
        """The file that a command makes of another.

        Parameters
        ----------
        word : str
            ``"tx"`` or ``"lchannel"``, which makes a capture (LGCP) without noise of a file of clause 18 frames (LGTX).
        octets : bytes

        Raises
        ------
        FormatError
            If the octets are no file of the command's.
        ProgramError
            If the program has no such command.
        """
        with self.text(word, octets) as output:
            made = output.read()
        if made.startswith(b"refused "):
            last = read_line(made.rstrip(b"\n"))
            if isinstance(last, Refused):
                raise FormatError(last.kind, last.offset)
        return made


def octets_left(stream: BinaryIO) -> Optional[int]:
    """The number of octets that a stream still gives, where that can be known."""
    try:
        here = stream.tell()
        end = stream.seek(0, os.SEEK_END)
        stream.seek(here)
        return end - here
    except (OSError, ValueError, AttributeError):
        return None
