"""A file that has its name when all of it is on the disk."""
from __future__ import annotations

import os
from pathlib import Path


def save(path: str | os.PathLike[str], content: bytes, replace: bool) -> None:
    """Writes beside the file, under a name of its own, and gives it its name last. Without `replace` no other file loses that name."""
    import tempfile  # it takes longer to import than all the rest

    target = Path(path).resolve() if replace else Path(path).absolute()
    folder = target.parent
    number, first = tempfile.mkstemp(prefix=".slp-", suffix=".tmp", dir=folder)
    try:
        with open(number, "wb") as file:
            file.write(content)
            file.flush()
            os.fchmod(number, target.stat().st_mode & 0o7777 if replace and target.exists() else 0o666 & ~mask())
            os.fsync(number)
        if replace:
            os.replace(first, target)
        else:
            os.link(first, target)
            os.unlink(first)
    except BaseException:
        Path(first).unlink(missing_ok=True)
        raise
    number = os.open(folder, os.O_RDONLY)
    try:
        os.fsync(number)
    finally:
        os.close(number)


def mask() -> int:
    """The rights that new files do not get."""
    for line in Path("/proc/self/status").read_text().splitlines():
        if line.startswith("Umask:"):
            return int(line.split()[1], 8)
    return 0o077
