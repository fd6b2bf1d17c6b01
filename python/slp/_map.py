"""The metadata map."""
from __future__ import annotations

from typing import Union

import numpy as np

from ._declared import SLP_ENTRY_CELLS, SLP_ENTRY_NUMBER, SLP_ENTRY_TEXT
from ._library import IN_BODY, accepted, call

Value = Union[str, int, "dict[str, Value]"]


def read_map(body: bytes) -> dict[str, Value]:
    """The map of a body. Bytes that are no UTF-8 become surrogates, as in the names of files."""
    # an entry takes at least four bytes
    cells = np.empty((len(body) // 4 + 1, SLP_ENTRY_CELLS), np.uint32)
    read = call("slp_read_map", np.frombuffer(body, np.uint8), cells)
    accepted(read.refused, read.place, IN_BODY)
    entries = iter(cells[: read.entries].tolist())

    def text(at: int, length: int) -> str:
        return body[at : at + length].decode("utf-8", "surrogateescape")

    def entries_of(count: int) -> dict[str, Value]:
        found: dict[str, Value] = {}
        for _ in range(count):
            kind, key, key_len, value, length = next(entries)
            if kind == SLP_ENTRY_TEXT:
                found[text(key, key_len)] = text(value, length)
            elif kind == SLP_ENTRY_NUMBER:
                found[text(key, key_len)] = value - (1 << 32) if value >> 31 else value
            else:
                found[text(key, key_len)] = entries_of(value)
        return found

    return entries_of(read.count)
