"""Games that were written and read by the Rust crate (`oracle/run --files COUNT SEED DIR`), read here: every column against the crate's, bit by bit;
the table against the CSV of the tool; and the file again, byte for byte.

    games.py DIR SLP
"""
from __future__ import annotations

import subprocess
import sys
from pathlib import Path

import numpy as np
import slp

DTYPES = {"u8": "uint8", "u16": "uint16", "u32": "uint32", "i8": "int8", "i32": "int32", "f32": "float32"}


def crate_columns(path: Path) -> dict[tuple[str, int, bool, str], tuple[str, np.ndarray]]:
    """What stands in a file of columns: by family, port, follower and name the type and the values' bits."""
    data, at, found = path.read_bytes(), 0, {}
    while at < len(data):
        end = data.index(b"\n", at)
        family, port, follower, name, kind, count = data[at:end].decode().split()
        values = np.frombuffer(data, np.uint32, int(count), end + 1)
        found[family, int(port), follower == "1", name] = DTYPES[kind], values
        at = end + 1 + 4 * int(count)
    return found


def bits(array: np.ndarray) -> np.ndarray:
    """Values by their bits; signed ones as the number with as many bits, widened with their sign."""
    if array.dtype == np.float32:
        return np.ascontiguousarray(array).view(np.uint32)
    return array.astype(np.int32).view(np.uint32) if array.dtype.kind == "i" else array.astype(np.uint32)


def our_columns(game: slp.Game) -> dict[tuple[str, int, bool, str], np.ndarray]:
    """The same of a game, with no values for a column that the version lacks."""
    found = {("frames", 255, False, "ids"): game.ids}
    views = [(name, 255, False, getattr(game, name)) for name in ("frame_starts", "frame_ends", "items", "fod_platforms", "dreamland_whispys", "stadium_transformations")]
    for player in game.players:
        found["player", player.port, player.follower, "present"] = player.present.astype(np.uint8)
        views += [("pre", player.port, player.follower, player.pre), ("post", player.port, player.follower, player.post)]
    for family, port, follower, view in views:
        for column in view.COLUMNS:
            values = view.get(column.name)
            found[family, port, follower, "type_id" if column.name == "type" else column.name] = np.empty(0, column.dtype) if values is None else values
        if isinstance(view, slp.Rows):
            found[family, port, follower, "offsets"] = view.offsets
    return found


def check_columns(game: slp.Game, path: Path) -> int:
    theirs, ours = crate_columns(path), our_columns(game)
    assert theirs.keys() == ours.keys(), theirs.keys() ^ ours.keys()
    for key, (kind, values) in theirs.items():
        assert ours[key].dtype == kind, (key, ours[key].dtype, kind)
        assert np.array_equal(bits(ours[key]), values), key
    return sum(len(values) for _, values in theirs.values())


def check_table(game: slp.Game, tool: str, path: Path) -> int:
    """Each cell of the CSV as the column's type; of floats a NaN is any NaN."""
    lines = subprocess.run([tool, "table", path], check=True, capture_output=True, text=True).stdout.splitlines()
    names = lines[0].split(",")
    cells = [line.split(",") for line in lines[1:]]
    table = game.table()
    if "replaced" not in table:
        assert all(row[3] == "" for row in cells), "replaced"
        names.pop(3)
        cells = [row[:3] + row[4:] for row in cells]
    assert names == list(table), names
    for number, name in enumerate(names):
        column = table[name]
        texts = [row[number] for row in cells]
        if column.dtype == np.float32:
            theirs = np.array([float(text) for text in texts], np.float64).astype(np.float32)
            nan = np.isnan(column)
            assert np.array_equal(nan, np.isnan(theirs)) and np.array_equal(bits(column[~nan]), bits(theirs[~nan])), name
        else:
            assert [int(value) for value in column] == [int(text) for text in texts], name
    return len(names) * len(cells)


def shown(entries: dict, inside: str = "") -> list[str]:
    """A map as the tool shows it, but that texts are as they are."""
    lines = []
    for key, value in entries.items():
        if isinstance(value, dict) and value:
            lines += [f'{inside}"{key}": {{', *shown(value, inside + "  "), inside + "}"]
        else:
            text = "{}" if value == {} else f'"{value}"' if isinstance(value, str) else str(value)
            lines.append(f'{inside}"{key}": {text}')
    return lines


def check_metadata(game: slp.Game, tool: str, path: Path) -> int:
    """Line by line; of a line in which the tool shows a byte as \\xNN, where it begins."""
    meta = subprocess.run([tool, "meta", path], capture_output=True, text=True)
    theirs, ours = meta.stdout.splitlines(), shown(game.metadata)
    assert len(theirs) == len(ours), (theirs, ours)
    for their, our in zip(theirs, ours):
        begins = len(their) - len(their.lstrip())
        assert their == our or "\\x" in their and their[:begins] == our[:begins], (their, our)
    return len(ours)


def main(folder: str, tool: str) -> None:
    values = cells = lines = 0
    files = sorted(Path(folder).glob("*.slp"), key=lambda path: int(path.stem))
    assert files, folder
    for path in files:
        try:
            game = slp.read(path)
            values += check_columns(game, path.with_suffix(".columns"))
            cells += check_table(game, tool, path)
            lines += check_metadata(game, tool, path)
            assert game.to_bytes() == path.read_bytes(), "another file"
            walked = slp.walk(path)
            assert walked.whole and walked.stray == 0, walked
            slp.check(path)
        except AssertionError as error:
            sys.exit(f"{path}: {error}")
    print(f"python: {len(files)} games: {values} values as the Rust crate has them, {cells} cells and {lines} lines of metadata as the tool prints them, every file again")


if __name__ == "__main__":
    main(*sys.argv[1:])
