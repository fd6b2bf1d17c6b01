"""The library libslp.so, and its refusals as exceptions."""
from __future__ import annotations

import os
from ctypes import CDLL
from pathlib import Path
from typing import Any

import numpy as np

from ._declared import CALLS

SONAME = "libslp.so.0"
# Refusals that name a place in the file, and of a body those that name one in it.
IN_FILE, IN_BODY = range(14, 18), range(20, 24)


class Refused(ValueError):
    """A call that was refused: the lowest number that applies, why in words, and the byte where, or None where the refusal names none.

    >>> try:
    ...     slp.walk(b"no replay")
    ... except slp.Refused as refused:
    ...     print(refused.number, refused.place, refused.words)
    14 0 not a replay: under 15 bytes, or a wrong signature
    """

    number: int
    words: str
    place: int | None

    def __init__(self, number: int, place: int | None = None) -> None:
        super().__init__(number, place)
        self.number = number
        self.words = call("slp_refusal_words", number).text.decode()
        self.place = place

    def __str__(self) -> str:
        return f"refused {self.number}{'' if self.place is None else f' at byte {self.place}'}: {self.words}"


def load() -> CDLL:
    """The library that SLP_LIBRARY names, or the one in this package, or the system's."""
    beside = Path(__file__).with_name(SONAME)
    library = CDLL(os.environ.get("SLP_LIBRARY") or (str(beside) if beside.exists() else SONAME))
    for name, (answer, takes) in CALLS.items():
        call: Any = getattr(library, name)
        call.restype, call.argtypes = answer, takes
    return library


library = load()


def call(name: str, *arguments: Any) -> Any:
    """A call of the library, with an array as the pointer and the count that it takes. The arrays live as long as the call."""
    numbers: list[Any] = []
    for argument in arguments:
        numbers += (argument.ctypes.data, argument.size) if isinstance(argument, np.ndarray) else (argument,)
    return getattr(library, name)(*numbers)


def accepted(number: int, place: int = 0, placed: range = IN_FILE) -> None:
    """Raises a refusal, if it is one, with its place if it is one of those that name one."""
    if number:
        raise Refused(number, place if number in placed else None)
