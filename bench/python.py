#!/usr/bin/env python3
"""The Python package beside C (bench/files.c) on the same files: walk and read of a replay, opened and loaded each time; and what an import takes.

    make python target/c/bin/files
    python3 -m pip install --no-index --no-deps --target target/python/wheel target/python/*.whl
    PYTHONPATH=target/python/wheel bench/python.py target/c/bin/files FRAMES..

In turns, so that what else the machine does falls on both; the shortest time of each counts.
"""
from __future__ import annotations

import subprocess
import sys
import tempfile
import time
from collections.abc import Callable
from pathlib import Path

import slp

TURNS, TIMES = 25, 5


def least(call: Callable[[str], object], path: str) -> float:
    """The shortest of some calls, in milliseconds."""
    found = []
    for _ in range(TIMES):
        start = time.perf_counter()
        call(path)
        found.append(1e3 * (time.perf_counter() - start))
    return min(found)


def in_c(files: str, what: str, path: str) -> float:
    return float(subprocess.run([files, what, str(TIMES), path], check=True, capture_output=True, text=True).stdout.split()[0])


def import_time(code: str) -> float:
    """The shortest of some fresh interpreters, in milliseconds."""
    timed = f"import time; t = time.perf_counter(); {code}; print(1e3 * (time.perf_counter() - t))"
    return min(float(subprocess.run([sys.executable, "-c", timed], check=True, capture_output=True, text=True).stdout) for _ in range(TURNS))


def main(files: str, *frames: str) -> None:
    numpy = import_time("import numpy")
    print(f"import: numpy {numpy:.1f} ms, slp and numpy {import_time('import slp'):.1f} ms, slp after numpy {import_time('import numpy; t = time.perf_counter(); import slp'):.1f} ms")
    with tempfile.TemporaryDirectory() as folder:
        for count in frames:
            path = str(Path(folder, f"{count}.slp"))
            subprocess.run([files, "make", count, path], check=True)
            for what, call in (("walk", slp.walk), ("read", slp.read)):
                turns = [(least(call, path), in_c(files, what, path)) for _ in range(TURNS)]
                python, c = (min(column) for column in zip(*turns))
                print(f"{what} of {count} frames, {Path(path).stat().st_size} bytes: Python {python:.2f} ms, C {c:.2f} ms, {python / c:.2f} times")


if __name__ == "__main__":
    main(*sys.argv[1:])
