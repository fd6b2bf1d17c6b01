"""Replays as columns."""
from __future__ import annotations

import os
from functools import cached_property
from typing import TYPE_CHECKING, Any, NamedTuple, TypeVar, Union

import numpy as np

from . import _declared as d
from ._columns import Array, Columns, Rows
from ._library import Refused, accepted, call
from ._map import Value, read_map
from ._save import save
from ._start import End, Seat, Start

if TYPE_CHECKING:
    import numpy.typing as npt
    import pandas  # type: ignore[import]

C = TypeVar("C", bound=Columns)
R = TypeVar("R", bound=Rows)
File = Union[str, "os.PathLike[str]", bytes, bytearray, memoryview]
# The stores in the order of the calls: those of cells, and the bytes.
CELLS = [name for name, _ in d.slp_space._fields_ if name not in ("presence", "codes")]
BYTES = ["presence", "codes"]


def content(file: File) -> npt.NDArray[np.uint8]:
    """The bytes of a file that is named, or these bytes."""
    if isinstance(file, (str, os.PathLike)):
        return np.fromfile(file, np.uint8)
    return np.frombuffer(file, np.uint8)


class Walked(NamedTuple):
    """All events of a replay: how many whole ones, the bytes after the last of them, whether all declared bytes are there, and where the walk stopped."""

    events: int
    stray: int
    whole: bool
    place: int


def walk(file: File) -> Walked:
    """Walks the events of a replay, whole or cut: of a file that is named, or of bytes.

    >>> slp.walk("demo.slp")
    Walked(events=9538, stray=0, whole=True, place=518415)
    >>> slp.walk(Path("demo.slp").read_bytes()[:5000])
    Walked(events=77, stray=48, whole=False, place=4952)
    """
    w = call("slp_walk", content(file))
    accepted(w.refused, w.offset)
    return Walked(w.events, w.stray, bool(w.whole), w.place)


def check(file: File) -> None:
    """Raises the refusal of a file that is not sound, whoever wrote it: of a file that is named, or of bytes.

    >>> slp.check("demo.slp")
    >>> slp.check(Path("demo.slp").read_bytes()[:-1])
    Traceback (most recent call last):
    ...
    slp.Refused: refused 23: metadata that is no map of texts, numbers and maps
    """
    c = call("slp_check", content(file))
    accepted(c.refused, c.offset)


def repair(file: File) -> bytes:
    """The longest beginning of a broken replay that is read, with the right length, whatever its length field says: of a file that is named, or of bytes.

    >>> front = slp.repair(Path("demo.slp").read_bytes()[:5000])
    >>> slp.walk(front)
    Walked(events=73, stray=0, whole=True, place=4720)
    >>> len(slp.read(front))
    12
    """
    given = content(file)
    r = call("slp_measure_repair", given)
    # the call names no place: the table stands at 15
    accepted(r.refused, 15 if r.refused == d.SLP_BAD_TABLE else 0)
    out = np.empty(r.bytes, np.uint8)
    call("slp_repair", given, out)
    return out.tobytes()


class Fault(NamedTuple):
    """Why a file is refused with 19: how many events stand before the fault (GameStart is event 0), its byte, and why, as a number and in words."""

    event: int
    offset: int
    reason: int
    words: str


def fault(file: File) -> Fault | None:
    """Why `read` refuses a file with 19: of a file that is named, or of bytes. None where it does not, and for a newer recorder's file.

    >>> slp.fault("demo.slp")
    >>> slp.fault(Path("demo.slp").read_bytes()[:5000])
    Fault(event=77, offset=4952, reason=14, words='the replay is not finished')
    """
    f = call("slp_fault", content(file))
    return Fault(f.event, f.offset, f.reason, call("slp_fault_words", f.reason).text.decode()) if f.reason else None


class Player:
    """A player's columns: `pre` and `post` have a row for each frame, and `present` says whether the player is in it."""

    def __init__(self, game: Game, slot: int, port: int, follower: bool) -> None:
        self._game, self._slot = game, slot
        self.port = port
        self.follower = follower

    def _columns(self, store: str, columns: type[C], family: int) -> C:
        game = self._game
        count = call("slp_columns", game.raw.frames.version, family)
        rows = game.stores[store].reshape(-1, count, len(game)) if len(game) else np.empty((self._slot + 1, count, 0), np.uint32)
        return columns(rows[self._slot])

    @cached_property
    def pre(self) -> d.Pre:
        """What the player did in each frame."""
        return self._columns("pres", d.Pre, d.SLP_FAMILY_PRE)

    @cached_property
    def post(self) -> d.Post:
        """What came of it in each frame."""
        return self._columns("posts", d.Post, d.SLP_FAMILY_POST)

    @property
    def present(self) -> npt.NDArray[np.bool_]:
        """Whether the player is in each frame."""
        each = (len(self._game) + 7) // 8
        bits = self._game.stores["presence"][self._slot * each : (self._slot + 1) * each]
        return np.unpackbits(bits, count=len(self._game), bitorder="little").view(np.bool_)

    @property
    def seat(self) -> Seat | None:
        """What the start block says of the port's player."""
        return self._game.start.seats.get(self.port)

    def __repr__(self) -> str:
        return f"<Player: port {self.port}{', follower' if self.follower else ''}, in {int(self.present.sum())} of {len(self._game)} frames>"


class Game:
    """A replay with its columns, as `read` gives it.

    Arrays share their memory with the game, so that what is put into them is saved with it. `raw` is the struct slp_game of slp.h, for what has no
    array: what is put there is saved too. Where `partly` is True, a newer recorder wrote the replay: only what 3.18 knows was read, and saving is refused 1.

    >>> game = slp.read("demo.slp")
    >>> game
    <Game: version 3.18.0, 1580 frames, 2 players>
    >>> percent = game.players[0].post.percent
    >>> percent.dtype, len(percent), float(percent[-1])
    (dtype('float32'), 1580, 14.0)
    >>> percent += 1
    >>> float(slp.read(game.to_bytes()).players[0].post.percent[-1])
    15.0
    """

    def __init__(self, raw: Any, stores: dict[str, Array], block: bytes, body: bytes, partly: bool = False) -> None:
        self.raw = raw
        self.stores = stores
        self._block, self._body = block, body
        self.partly = partly
        f = raw.frames
        self.version: tuple[int, int, int] = (f.version.major, f.version.minor, f.version.patch)
        self.ids: npt.NDArray[np.int32] = stores["ids"].view(np.int32)
        seats = [(port.port, follower) for port in f.ports[: f.port_count] for follower in ([False, True] if port.follower else [False])]
        self.players: tuple[Player, ...] = tuple(Player(self, slot, *seat) for slot, seat in enumerate(seats))

    def __len__(self) -> int:
        return int(self.raw.frames.counts.frames)

    def __repr__(self) -> str:
        partly = ", partly read" if self.partly else ""
        return f"<Game: version {'.'.join(map(str, self.version))}{partly}, {len(self)} frames, {len(self.players)} players>"

    def _family(self, store: str, family: int, rows: int) -> Array:
        return self.stores[store].reshape(call("slp_columns", self.raw.frames.version, family), rows)

    @property
    def frame_starts(self) -> d.FrameStart:
        """The start of each frame (from 2.2)."""
        return d.FrameStart(self._family("starts", d.SLP_FAMILY_FRAME_START, len(self)))

    @property
    def frame_ends(self) -> d.FrameEnd:
        """The end of each frame (from 3.0, its column from 3.7)."""
        return d.FrameEnd(self._family("ends", d.SLP_FAMILY_FRAME_END, len(self)))

    def _rows(self, rows: type[R], store: str, family: int, offsets: str) -> R:
        return rows(self._family(store, family, getattr(self.raw.frames.counts, store)), self.stores[offsets])

    @property
    def items(self) -> d.Item:
        """The items of all frames (from 3.0).

        >>> items = slp.read("demo.slp").items
        >>> items, items.of(183)
        (<Item: 16 columns, 56 rows>, <Item: 16 columns, 1 rows>)
        >>> [int(i) for i in items.frames[:9]]
        [183, 184, 185, 186, 187, 188, 189, 190, 207]
        """
        return self._rows(d.Item, "items", d.SLP_FAMILY_ITEM, "item_offsets")

    @property
    def fod_platforms(self) -> d.FodPlatform:
        """The moves of the platforms of Fountain of Dreams (from 3.18)."""
        return self._rows(d.FodPlatform, "fods", d.SLP_FAMILY_FOD_PLATFORM, "fod_offsets")

    @property
    def dreamland_whispys(self) -> d.DreamlandWhispy:
        """Dreamland's wind (from 3.18)."""
        return self._rows(d.DreamlandWhispy, "whispys", d.SLP_FAMILY_DREAMLAND_WHISPY, "whispy_offsets")

    @property
    def stadium_transformations(self) -> d.StadiumTransformation:
        """The transformations of Pokemon Stadium (from 3.18)."""
        return self._rows(d.StadiumTransformation, "stadiums", d.SLP_FAMILY_STADIUM_TRANSFORMATION, "stadium_offsets")

    @property
    def start(self) -> Start:
        """What the start block says.

        >>> start = slp.read("demo.slp").start
        >>> start.stage, start.seats[1].netplay.code
        (32, 'DEMO#2')
        """
        return Start.of(self.raw.start)

    @property
    def end(self) -> End | None:
        """How the game ended; None where the replay has no end.

        >>> slp.read("demo.slp").end
        End(method=2, initiator=None, placements=(0, 1, None, None))
        """
        return End.of(self.raw.end)

    @cached_property
    def metadata(self) -> dict[str, Value]:
        """The metadata, empty where there is none. A body that is no map of texts, numbers and maps is refused, with the place in it.

        >>> slp.read("demo.slp").metadata
        {'startAt': '2001-12-03T12:00:00Z', 'lastFrame': -64, 'playedOn': 'demo'}
        """
        return read_map(self._body)

    @cached_property
    def final(self) -> npt.NDArray[np.bool_]:
        """Whether each frame is the last one of its id, which no rollback replaced. Refused 13 where an id is one that no game has.

        >>> game = slp.read("demo.slp")
        >>> len(game), int(game.final.sum())
        (64, 60)
        """
        replaced = np.empty(len(self), np.uint8)
        # a byte for each id from the first to the largest; ids out of range are refused before it is looked at
        largest = int(self.ids.max(initial=d.SLP_FIRST_FRAME_ID - 1))
        scratch = np.empty(max(min(largest, d.SLP_LAST_FRAME_ID) - d.SLP_FIRST_FRAME_ID + 1, 0), np.uint8)
        accepted(call("slp_rollbacks", self.stores["ids"], d.SLP_EXCEPT_LAST, replaced, scratch))
        final: npt.NDArray[np.bool_] = replaced == 0
        return final

    def table(self) -> dict[str, Array]:
        """The frames as `slp table` has them: by name the columns id, port, follower, replaced, and all of Pre and Post; a row for each frame and player
        who is in it. Where an id is one that no game has, there is no column replaced.

        >>> table = slp.read("demo.slp").table()
        >>> len(table), len(table["id"]), list(table)[:5]
        (55, 3160, ['id', 'port', 'follower', 'replaced', 'pre_random_seed'])
        """
        players = self.players
        frame, slot = np.nonzero(np.stack([p.present for p in players], 1)) if players else (np.empty(0, np.intp),) * 2
        found: dict[str, Array] = {
            "id": self.ids[frame],
            "port": np.array([p.port for p in players], np.uint8)[slot],
            "follower": np.array([p.follower for p in players], np.bool_)[slot],
        }
        try:
            found["replaced"] = ~self.final[frame]
        except Refused:
            pass
        version = self.raw.frames.version
        for store, columns, family in (("pre", d.Pre, d.SLP_FAMILY_PRE), ("post", d.Post, d.SLP_FAMILY_POST)):
            for column in columns.COLUMNS[: call("slp_columns", version, family)]:
                each = [getattr(p, store)[column.name] for p in players]
                found[f"{store}_{column.name}"] = np.stack(each)[slot, frame] if each else np.empty(0, column.dtype)
        return found

    def frame(self) -> pandas.DataFrame:
        """`table` as a DataFrame of pandas, which must be installed."""
        import pandas

        return pandas.DataFrame(self.table())

    def to_bytes(self, *, final: bool = False) -> bytes:
        """The file of the game: of a replay that was read and not changed the same, byte for byte, if slp_write gave it (docs/API.md says for which
        games). What stands behind the event data and is no metadata is left out. With `final` the file of the frames alone that no rollback replaced.

        >>> slp.read("demo.slp").to_bytes() == Path("demo.slp").read_bytes()
        True
        >>> slp.read(slp.read("demo.slp").to_bytes(final=True))
        <Game: version 3.18.0, 1563 frames, 2 players>
        """
        block, body = np.frombuffer(self._block, np.uint8), np.frombuffer(self._body, np.uint8)
        codes = self.stores["codes"]
        plan = d.slp_plan(
            self.raw.frames.version,
            block.size,
            len(self.players),
            self.raw.frames.counts,
            codes.size if self.raw.codes_given else 0,
            body.size if self.raw.metadata_given else 0,
        )
        room = call("slp_room", plan)
        accepted(room.refused)
        out = np.empty(room.bytes, np.uint8)
        stores = (self.stores[name] for name in [*CELLS, "presence"])
        name, scratch = ("slp_write_final", [np.empty(len(self), np.uint8)]) if final else ("slp_write", [])
        written = call(name, out, *scratch, self.raw, *stores, block, codes, body)
        accepted(written.refused)
        return out[: written.len].tobytes()

    def save(self, path: str | os.PathLike[str], *, replace: bool = False, final: bool = False) -> int:
        """Saves the file of the game, and says how many bytes it has. It gets its name when all of it is on the disk; a file that is there stays, and
        is an error, unless it is to be replaced. `final` is as in `to_bytes`.

        >>> slp.read("demo.slp").save("again.slp")
        518493
        >>> slp.read("again.slp").save("again.slp")
        Traceback (most recent call last):
        ...
        FileExistsError: [Errno 17] File exists: ...
        """
        file = self.to_bytes(final=final)
        save(path, file, replace)
        return len(file)


def read(file: File) -> Game:
    """A replay with its columns: of a file that is named, or of bytes. What cannot be read is `Refused`. Of a newer recorder's file, above 3.18.0 and below 4,
    what 3.18 knows is read: then `partly` is True.

    >>> slp.read(b"")
    Traceback (most recent call last):
    ...
    slp.Refused: refused 14 at byte 0: not a replay: under 15 bytes, or a wrong signature
    """
    data = content(file)
    m = call("slp_measure", data)
    accepted(m.refused, m.offset)
    stores = {name: np.empty(getattr(m.lengths, name), np.uint32) for name in CELLS}
    stores.update((name, np.empty(getattr(m.lengths, name), np.uint8)) for name in BYTES)
    o = call("slp_read", data, *stores.values())
    accepted(o.refused, o.offset)
    p = o.places
    block = data[p.block_at : p.block_at + p.block_len].tobytes()
    body = data[p.metadata_at : p.metadata_at + p.metadata_len].tobytes()
    return Game(o.game, stores, block, body, o.partly != 0)
