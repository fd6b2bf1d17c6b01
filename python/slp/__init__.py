"""Slippi replays as columns, over libslp.so, whose every function is proved to meet its contract.

    >>> import slp
    >>> from pathlib import Path
    >>> game = slp.read("demo.slp")
    >>> game.players[0].post.percent.dtype
    dtype('float32')
    >>> game.metadata["playedOn"]
    'demo'
    >>> game.to_bytes() == Path("demo.slp").read_bytes()
    True
"""
from __future__ import annotations

from ._columns import Column, Columns, Rows
from ._declared import SLP_VERSION as __version__
from ._declared import DreamlandWhispy, FodPlatform, FrameEnd, FrameStart, Item, Post, Pre, StadiumTransformation
from ._game import Fault, Game, Player, Walked, check, fault, read, repair, walk
from ._library import Refused
from ._start import End, Match, Netplay, Seat, Start, Team, Ucf

__all__ = [
    "Column", "Columns", "DreamlandWhispy", "End", "Fault", "FodPlatform", "FrameEnd", "FrameStart", "Game", "Item", "Match", "Netplay", "Player", "Post",
    "Pre", "Refused", "Rows", "Seat", "StadiumTransformation", "Start", "Team", "Ucf", "Walked", "__version__", "check", "fault", "read", "repair", "walk",
]  # fmt: skip

Refused.__module__ = "slp"
