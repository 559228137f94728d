"""Functions of the user's own, named as ``FILE.py:NAME``.

The text of the file goes to the workers with the work, so that only the modules it imports have to be there too.
"""

from __future__ import annotations

import hashlib
import os
import re
from functools import lru_cache
from typing import Any, Callable, Dict

from .errors import InputError

WORD = re.compile(r"(.+\.py):([A-Za-z_]\w*)")
_texts: Dict[str, str] = {}  # of files, by the word that names the function


def names_function(word: str) -> bool:
    """Whether a word names a function as ``FILE.py:NAME``."""
    return WORD.fullmatch(word) is not None


def text_of(word: str) -> str:
    """The text of the file that a word names: as it came with work, or read.

    Raises
    ------
    InputError
        If it can't be read.
    """
    if word not in _texts:
        path = word.rpartition(":")[0]
        try:
            with open(path, encoding="utf-8") as stream:
                _texts[word] = stream.read()
        except UnicodeDecodeError as error:
            raise InputError(f"{path} is no text") from error
        except OSError as error:
            raise InputError(f"{path} can't be read: {error.strerror}") from error
    return _texts[word]


def keep(texts: Dict[str, str]) -> None:
    """Keep the texts that came with work."""
    _texts.update(texts)


def digest(word: str) -> str:
    """What tells the text of a file from another one."""
    return hashlib.sha256(text_of(word).encode()).hexdigest()


def load(word: str) -> Callable[..., Any]:
    """The function that a word names; what it raises becomes a sentence with its name in front.

    Raises
    ------
    InputError
        If the file can't be read or run, or has no such function.
    """
    return _loaded(word, text_of(word))


@lru_cache(maxsize=None)
def _loaded(word: str, text: str) -> Callable[..., Any]:
    path, _, name = word.rpartition(":")
    names: Dict[str, Any] = {"__name__": "mizgaure_plug", "__file__": os.path.abspath(path)}
    try:
        exec(compile(text, path, "exec"), names)
    except Exception as error:  # whatever the user's own file raises
        raise InputError(f"{path}: {_said(error)}") from error
    function = names.get(name)
    if not callable(function):
        raise InputError(f"{path} has no function {name}")

    def guarded(*words: Any) -> Any:
        try:
            return function(*words)
        except Exception as error:
            raise InputError(f"{word}: {_said(error)}") from error

    return guarded


def _said(error: Exception) -> str:
    lines = str(error).splitlines()
    return type(error).__name__ + (f": {lines[0]}" if lines else "")
