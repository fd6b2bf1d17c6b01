#!/usr/bin/env python3
"""Runs the examples of the documents and compares what they print: a line `    $ COMMAND`, and what follows it up to the next or the block's end.

    tests/documents.py FOLDER DOCUMENT..

Each document has an empty folder of its own under FOLDER, in which target, crates, python and bench are the repository's, `slp` is
the tool and `python3` is $PYTHON. A command
whose program was not built is left out, and said to be. Lines of C in README.md must stand in include/slp.h, whose own examples are compiled and run.
"""
from __future__ import annotations

import difflib
import os
import re
import shutil
import subprocess
import sys
from pathlib import Path

ROOT = Path(__file__).resolve().parent.parent
INDENT = "    "


def transcripts(text: str) -> list[tuple[int, str, list[str]]]:
    """Line, command and output of each example. A blank line inside a block is part of it."""
    found: list[tuple[int, str, list[str]]] = []
    inside = False
    for number, line in enumerate(text.splitlines(), 1):
        if line.startswith(INDENT + "$ "):
            found.append((number, line[len(INDENT) + 2 :], []))
            inside = True
        elif inside and (line.startswith(INDENT) or not line):
            found[-1][2].append(line[len(INDENT) :])
        else:
            inside = False
    for _, _, lines in found:
        while lines and not lines[-1]:
            lines.pop()
    return found


def unbuilt(command: str) -> list[str]:
    return [program for program in re.findall(r"\b(?:target/\S*bin|crates/\w+/out)/\S+", command) if not (ROOT / program).exists()]


def run(document: Path, folder: Path) -> int:
    """How many examples ran. The first that prints something else ends it all."""
    shutil.rmtree(folder, ignore_errors=True)
    folder.mkdir(parents=True)
    for name in ("target", "crates", "python", "bench"):
        (folder / name).symlink_to(ROOT / name)
    (folder / "bin").mkdir()
    (folder / "bin/python3").symlink_to(shutil.which(os.environ.get("PYTHON") or "python3") or sys.executable)
    environment = {**os.environ, "PATH": f"{folder}/bin:{ROOT}/target/bin:{os.environ['PATH']}", "LC_ALL": "C.UTF-8", "PYTHONPATH": str(ROOT / "target/python/wheel")}
    ran = 0
    for number, command, expected in transcripts(document.read_text()):
        if unbuilt(command):
            print(f"documents: {document.relative_to(ROOT)}:{number} is left out: {unbuilt(command)[0]} is not built")
            continue
        said = subprocess.run(["bash", "-c", f"exec 2>&1; {command}"], cwd=folder, env=environment, stdout=subprocess.PIPE, stdin=subprocess.DEVNULL, text=True)
        ran += 1
        if said.stdout.splitlines() != expected:
            difference = difflib.unified_diff(expected, said.stdout.splitlines(), f"{document.relative_to(ROOT)}:{number}", command, lineterm="")
            sys.exit("\n".join(difference))
    return ran


def check_c() -> int:
    """Lines of C in README.md: those of the header's own examples."""
    header = {line.strip() for line in re.sub(r"^ \* ?", "", (ROOT / "include/slp.h").read_text(), flags=re.M).splitlines()}
    lines = [line.strip() for line in (ROOT / "README.md").read_text().splitlines() if line.startswith(INDENT + "slp_") or line.startswith((INDENT + "if (", INDENT + "else "))]
    for line in lines:
        if line not in header:
            sys.exit(f"README.md: not in include/slp.h: {line}")
    return len(lines)


def main(folder: str, *documents: str) -> None:
    total = 0
    for name in documents:
        ran = run(ROOT / name, Path(folder).resolve() / name.replace("/", "-"))
        if not ran:
            sys.exit(f"{name}: no example")
        total += ran
    print(f"documents: {total} examples print what {len(documents)} documents say, and {check_c()} lines of C are the header's")


if __name__ == "__main__":
    main(*sys.argv[1:])
