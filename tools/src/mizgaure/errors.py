"""What can go wrong, by who is to blame. Each message is one sentence, fit for standard error."""

from __future__ import annotations

import operator


class MizgaureError(Exception):
    """Anything that these tools refuse or fail at."""


class InputError(MizgaureError):
    """What the caller gave can't be used: an array of the wrong shape, an option out of range, a file that isn't there."""


class FitError(InputError):
    """A number in floating point has no place in the fields of a capture."""


class FormatError(InputError):
    """A file isn't one of its format.

    Parameters
    ----------
    kind : str
        The kind of its first fault, as the program names it: ``BadMagic``, ``BadVersion``, ``BadBandwidth``,
        ``BadMcs``, ``BadLength``, ``BadErased``, ``BadSeed``, ``BadPoint``, ``BadPilot``, ``BadCount``, ``Truncated`` or
        ``Trailing``.
    offset : int
        The octet where the fault is, counted from 0: the first octet of the field at fault, the length of an input that
        ends too early, or the first octet behind the end.
    """

    def __init__(self, kind: str, offset: int) -> None:
        super().__init__(f"refused {kind} at {offset}")
        self.kind = kind
        self.offset = offset

    def __reduce__(self):
        return FormatError, (self.kind, self.offset)


class LineError(InputError):
    """A line of answers can't be read.

    Parameters
    ----------
    line : int
        The line's number, counted from 1.
    reason : str
        What is wrong with it, as the end of a sentence.
    """

    def __init__(self, line: int, reason: str) -> None:
        super().__init__(f"line {line} {reason}")
        self.line = line
        self.reason = reason

    def __reduce__(self):
        return LineError, (self.line, self.reason)


class ProgramError(MizgaureError):
    """The program ``radio`` wasn't found, doesn't know a command, or ended with a status that tells of no answer."""


def whole_number(name: str, value: object) -> int:
    """A value as a whole number, refused under its name where it is of another kind, as 11.0 and "11" are.

    Raises
    ------
    InputError
    """
    try:
        return operator.index(value)  # type: ignore[arg-type]
    except TypeError:
        raise InputError(f"the {name} is {value!r}, and has to be a whole number") from None
