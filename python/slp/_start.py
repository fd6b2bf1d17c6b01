"""How a game began and ended, as plain values."""
from __future__ import annotations

import struct
from dataclasses import dataclass
from typing import Any


def text(t: Any) -> str:
    """Texts of the game are Shift-JIS as Windows has it; what is none stays readable as \\xNN."""
    return bytes(t.bytes[: t.len]).decode("cp932", "backslashreplace")


def real(bits: int) -> float:
    """A float by its bits."""
    return float(struct.unpack("<f", struct.pack("<I", bits))[0])


def optional(o: Any) -> int | None:
    """A number that may be missing."""
    return int(o.value) if o.given else None


@dataclass(frozen=True)
class Team:
    """A team's colour, and the shade of this player's."""

    color: int
    shade: int


@dataclass(frozen=True)
class Ucf:
    """The controller fix of a player (from 1.0)."""

    dash_back: int
    shield_drop: int


@dataclass(frozen=True)
class Netplay:
    """Name and connect code (from 3.9), and user id (from 3.11)."""

    name: str
    code: str
    suid: str | None


@dataclass(frozen=True)
class Seat:
    """A port's player, as the start block has it. Kind 0 is a human, 1 a CPU, 2 a demo."""

    port: int
    character: int
    kind: int
    stocks: int
    costume: int
    team: Team | None
    handicap: int
    bitfield: int
    cpu_level: int | None
    damage_start: int
    damage_spawn: int
    offense_ratio: float
    defense_ratio: float
    model_scale: float
    ucf: Ucf | None
    name_tag: str | None
    netplay: Netplay | None

    @classmethod
    def of(cls, port: int, s: Any) -> Seat:
        """From slp_seat."""
        return cls(
            port=port,
            character=s.character,
            kind=s.kind,
            stocks=s.stocks,
            costume=s.costume,
            team=Team(s.team.color, s.team.shade) if s.team.given else None,
            handicap=s.handicap,
            bitfield=s.bitfield,
            cpu_level=optional(s.cpu_level),
            damage_start=s.damage_start,
            damage_spawn=s.damage_spawn,
            offense_ratio=real(s.offense_ratio),
            defense_ratio=real(s.defense_ratio),
            model_scale=real(s.model_scale),
            ucf=Ucf(s.ucf.dash_back, s.ucf.shield_drop) if s.ucf.given else None,
            name_tag=text(s.name_tag) if s.name_tag_given else None,
            netplay=Netplay(text(s.netplay.name), text(s.netplay.code), text(s.netplay.suid) if s.netplay.suid_given else None)
            if s.netplay.given
            else None,
        )


@dataclass(frozen=True)
class Match:
    """The match that a game belongs to (from 3.14)."""

    id: str
    game: int
    tiebreaker: int


@dataclass(frozen=True)
class Start:
    """What the start block says. `seats` has the players that are there, by their ports."""

    bitfield: bytes
    is_raining_bombs: bool
    is_teams: bool
    item_spawn_frequency: int
    self_destruct_score: int
    stage: int
    timer: int
    item_spawn_bitfield: bytes
    damage_ratio: float
    seats: dict[int, Seat]
    random_seed: int
    is_pal: bool | None
    is_frozen_ps: bool | None
    scene: tuple[int, int] | None
    language: int | None
    match: Match | None

    @classmethod
    def of(cls, s: Any) -> Start:
        """From slp_start. The scene is its minor and its major number."""
        pal, frozen = optional(s.is_pal), optional(s.is_frozen_ps)
        return cls(
            bitfield=bytes(s.bitfield),
            is_raining_bombs=bool(s.is_raining_bombs),
            is_teams=bool(s.is_teams),
            item_spawn_frequency=s.item_spawn_frequency,
            self_destruct_score=s.self_destruct_score,
            stage=s.stage,
            timer=s.timer,
            item_spawn_bitfield=bytes(s.item_spawn_bitfield),
            damage_ratio=real(s.damage_ratio),
            seats={port: Seat.of(port, seat) for port, seat in enumerate(s.seats) if seat.given},
            random_seed=s.random_seed,
            is_pal=None if pal is None else bool(pal),
            is_frozen_ps=None if frozen is None else bool(frozen),
            scene=(s.scene.minor, s.scene.major) if s.scene.given else None,
            language=optional(s.language),
            match=Match(text(s.match_info.id), s.match_info.game, s.match_info.tiebreaker) if s.match_info.given else None,
        )


@dataclass(frozen=True)
class End:
    """How a game ended: the method, the port of who ended it, and the placement of each port, None where there is none."""

    method: int
    initiator: int | None
    placements: tuple[int | None, ...]

    @classmethod
    def of(cls, e: Any) -> End | None:
        """From slp_end; None where the replay has no end."""
        if not e.given:
            return None
        placements = tuple(place if placed else None for placed, place in zip(e.placed, e.placements))
        return cls(e.method, None if e.initiator == 255 else e.initiator, placements)
