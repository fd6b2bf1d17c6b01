"""Columns of cells, as arrays of their own types without a copy."""
from __future__ import annotations

from collections.abc import Iterator, Mapping
from typing import TYPE_CHECKING, Any, ClassVar, NamedTuple

import numpy as np

if TYPE_CHECKING:
    import numpy.typing as npt

    Array = npt.NDArray[Any]
else:
    Array = np.ndarray


class Column(NamedTuple):
    """A column: its name, how many bytes it has in a file, whether it is unsigned (u), signed (i) or a float (f), and the first version that has it."""

    name: str
    width: int
    kind: str
    since: tuple[int, int]

    @property
    def dtype(self) -> np.dtype[Any]:
        """The type of its values."""
        return np.dtype(f"{self.kind}{self.width}")


class Columns(Mapping[str, Array]):
    """Columns by their names: `post.percent` and `post["percent"]` are the same array.

    An array shares its memory with the game: what is put into it is saved with the game. Columns of one or two bytes are the low bytes of cells of
    four, so that their arrays step over the rest. A column that the replay's version lacks is an AttributeError.
    """

    __slots__ = ("_cells",)
    COLUMNS: ClassVar[tuple[Column, ...]] = ()
    _numbers: ClassVar[dict[str, int]] = {}

    def __init_subclass__(cls) -> None:
        cls._numbers = {column.name: number for number, column in enumerate(cls.COLUMNS)}

    def __init__(self, cells: Array) -> None:
        # a row for each column that the version has
        self._cells = cells

    def __getitem__(self, name: str) -> Array:
        number = self._numbers.get(name, len(self._cells))
        if number >= len(self._cells):
            raise KeyError(name)
        dtype = self.COLUMNS[number].dtype
        values: Array = self._cells[number].view(dtype)[:: 4 // dtype.itemsize]
        return values

    def __getattr__(self, name: str) -> Array:
        try:
            return self[name]
        except KeyError:
            pass
        since = [column.since for column in self.COLUMNS if column.name == name]
        lacks = f"this replay's version has no {name}: it is there from {since[0][0]}.{since[0][1]} on" if since else f"there is no column {name}"
        raise AttributeError(f"{type(self).__name__}: {lacks}")

    def __iter__(self) -> Iterator[str]:
        return (column.name for column in self.COLUMNS[: len(self._cells)])

    def __len__(self) -> int:
        return len(self._cells)

    def __dir__(self) -> list[str]:
        return [*super().__dir__(), *self]

    def __repr__(self) -> str:
        return f"<{type(self).__name__}: {len(self)} columns, {self._cells.shape[1]} rows>"


class Rows(Columns):
    """Columns of which a frame has any number of rows: frame i has those from `offsets[i]` on and before `offsets[i + 1]`.

    `of(i)` has the columns of frame i alone, and `frames` says for each row the number of its frame.
    """

    __slots__ = ("offsets",)

    def __init__(self, cells: Array, offsets: Array) -> None:
        super().__init__(cells)
        self.offsets = offsets

    def of(self, i: int) -> Rows:
        """The rows of frame i."""
        count = max(len(self.offsets) - 1, 0)
        i = range(count)[i] if count else 0
        first, last = (int(n) for n in self.offsets[i : i + 2]) if count else (0, 0)
        return type(self)(self._cells[:, first:last], np.array([0, last - first], np.uint32))

    @property
    def frames(self) -> npt.NDArray[np.intp]:
        """The frame of each row, as its number among the game's frames."""
        return np.repeat(np.arange(max(len(self.offsets) - 1, 0)), np.diff(self.offsets.astype(np.intp)))
