#!/usr/bin/env python3
"""Spells the repository's own definitions, lemmas and fields as the library spells its: words in snake case.

usage: tools/snake.py [--list]

It was run once, when the repository came to today's Rattle: after the toolchain's port.py, before anything was mended by hand.
    frameBytes, next-is, splice-append  ->  frame_bytes, next_is, splice_append
A lemma whose name falls together with a definition's gets the ending _lem. Names that the library has keep its spelling, names of
src/ and of types keep theirs. It rewrites .antt files, the clauses of .rt files, the edits of must-fail/, and what stands between
backticks in docs/ and README. --list prints the table and writes nothing.
"""

import collections
import glob
import os
import re
import sys

WORD = r"[^\s(){}.;,@\"«»\[\]\\`]+"
TOKEN = re.compile(r"\"(?:[^\"\\\n]|\\.)*\"|" + WORD)
DECLARED = re.compile(r"(?m)^ *(?:(?:pub|abbrev|unfoldable|private) )*(" + WORD + r") :(?= |$)")
IMPORTED = re.compile(r"(?m)^(?:pub |ghost )?use (\S+?)\.\{([^}]*)\}")
FIELD = re.compile(r"(?m)^ +(?:pub )?(" + WORD + r") : ")
RECORD = re.compile(r"(?ms)^ *(?:pub )?record .*?(?=\n\n|\Z)")
# spelled by hand: a constructor, and a parameter that would hide the definition beside it
BY_HAND = {"all-frames": "all_of_frames", "endsAt": "ends_at"}
PARAMETERS = {"scratch_after": "scratch-after"}


def read(path):
    with open(path, encoding="utf-8") as it:
        return it.read()


def snake(name):
    if name[0].islower():
        name = re.sub(r"(?<=[a-z0-9])([A-Z])", lambda it: "_" + it[1].lower(), name)
    return name.replace("-", "_")


def names(files):
    """The repository's own names, and those that some file brings in from the library."""
    own, brought = set(), set()
    for path in files:
        text = read(path)
        if os.path.basename(path) != "Proof.antt":
            own |= {it[1] for it in DECLARED.finditer(text)}
        for it in IMPORTED.finditer(text):
            if not it[1].startswith("Rattle.") or it[1].startswith("Rattle.std"):
                brought |= {word for each in it[2].split(",") for word in each.split(" as ")}
    return own, {it.strip() for it in brought}


def fields(files):
    return {name for path in files for it in RECORD.finditer(read(path)) for name in FIELD.findall(it[0])}


def table(files):
    own, brought = names(files)
    own -= brought
    of_records = fields(files)
    groups = collections.defaultdict(list)
    for name in sorted(own):
        groups[snake(name)].append(name)
    out = {}
    for new, olds in groups.items():
        # a definition comes before a lemma, and takes the plain name
        olds.sort(key=lambda it: ("-" in it, it == new))
        for at, old in enumerate(olds):
            taken = (at > 0 or new in brought) and old not in of_records
            out[old] = new + "_lem" * taken
    out.update(BY_HAND)
    return {old: new for old, new in out.items() if old != new}


def turned(text, words):
    def one(it):
        new = words.get(it[0], it[0])
        # behind a dot stands a field, a step or a module, and never a lemma
        return it[0] if new.endswith("_lem") and it.string[: it.start()].endswith(".") else new

    return TOKEN.sub(one, text)


def in_file(text, words):
    """The words without the lemmas that the file neither declares nor brings in: there such a word is a label or a variable."""
    known = {it[1] for it in DECLARED.finditer(text)}
    for it in IMPORTED.finditer(text):
        known |= {word.strip() for each in it[2].split(",") for word in each.split(" as ")}
    return {old: new for old, new in words.items() if not new.endswith("_lem") or old in known}


def backticked(text, words):
    return re.sub(r"`[^`\n]+`", lambda it: turned(it[0], words), text)


def by_lines(text, words, comment):
    """Turns the code of each line, and what stands between backticks in its comment."""
    out = []
    for line in text.split("\n"):
        at = line.find(comment)
        at = len(line) if at < 0 else at
        out.append(turned(line[:at], words) + backticked(line[at:], words))
    return "\n".join(out)


def clashes(path, text, words):
    """Names that the file has already under their new spelling, as a variable or a parameter."""
    # a part of a path is no variable
    alone = re.compile(r"(?<![.\w'-])" + WORD + r"(?!\.)")
    has = {it[0] for it in TOKEN.finditer(text)}
    bare = {it[0] for line in text.split("\n") if not line.startswith("use Rattle") for it in alone.finditer(line)}
    return [f"{path}: {old} -> {words[old]}" for old in sorted(has & set(words)) if words[old] in bare and words[old] not in words]


def main():
    os.chdir(os.path.join(os.path.dirname(os.path.realpath(__file__)), ".."))
    proofs = sorted(glob.glob("crates/**/*.antt", recursive=True))
    sources = sorted(glob.glob("crates/**/*.rt", recursive=True))
    words = table(proofs)
    if "--list" in sys.argv:
        for old, new in sorted(words.items()):
            print(old, new)
        return
    edits = sorted(glob.glob("crates/*/must-fail/*.edit"))
    pages = sorted(glob.glob("docs/**/*.md", recursive=True)) + ["README.md"]
    for path in proofs + sources + edits + pages:
        text = read(path)
        for it in clashes(path, text, words) if path in proofs + sources else []:
            print("look:", it)
        if path in proofs:
            text = turned(text, PARAMETERS) if "scratchAfter" in text and "record" in text else text
            new = by_lines(text, in_file(text, words), "--")
        elif path in sources:
            new = by_lines(text, in_file(text, words), "//")
        elif path in edits:
            new = turned(text, words)
        else:
            new = backticked(text, words)
        if new != text:
            with open(path, "w", encoding="utf-8") as it:
                it.write(new)


if __name__ == "__main__":
    main()
