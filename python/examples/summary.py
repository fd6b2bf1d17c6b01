#!/usr/bin/env python3
"""A line of JSON for each replay: what a batch job keeps of it, or why it was refused.

    summary.py FILE..            lines to standard output
    summary.py --into DIR FILE..   a file DIR/NAME.json for each, which has its name when it is whole; those that are there are left alone

The line depends on the replay's bytes and its name alone, so that a job that is run again, or twice at once, gives the same.
"""
from __future__ import annotations

import json
import os
import sys
from pathlib import Path
from typing import Any

import slp


def player(game: slp.Game, p: slp.Player) -> dict[str, Any]:
    """A player at the last frame that no rollback replaced and in which it is."""
    rows = (p.present & game.final).nonzero()[0]
    last = {} if len(rows) == 0 else {"percent": float(p.post.percent[rows[-1]]), "stocks": int(p.post.stocks[rows[-1]])}
    return {"port": p.port, "follower": p.follower, "frames": len(rows), **last}


def summary(path: str) -> dict[str, Any]:
    """What is kept of a replay. A refusal is a result, not an error: the job goes on."""
    try:
        game = slp.read(path)
        players = [player(game, p) for p in game.players]
    except slp.Refused as refused:
        return {"file": path, "refused": refused.number, "place": refused.place, "words": refused.words}
    version = ".".join(map(str, game.version))
    return {"file": path, "version": version, "partly": game.partly, "frames": int(game.final.sum()), "stage": game.start.stage, "players": players}


def into(folder: Path, path: str) -> None:
    to = folder / f"{Path(path).name}.json"
    if to.exists():
        return
    first = to.with_name(f".{to.name}.{os.getpid()}")
    first.write_text(json.dumps(summary(path)) + "\n")
    first.replace(to)


def main(words: list[str]) -> None:
    folder = Path(words[1]) if words[:1] == ["--into"] else None
    if folder:
        folder.mkdir(parents=True, exist_ok=True)
    for path in words[2:] if folder else words:
        if folder:
            into(folder, path)
        else:
            # a line in one piece, which no other process's line goes into
            sys.stdout.write(json.dumps(summary(path)) + "\n")
            sys.stdout.flush()


if __name__ == "__main__":
    main(sys.argv[1:])
