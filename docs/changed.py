#!/usr/bin/env python3
"""Prints what every public function, definition and theorem of specs/ said in a commit and says in the checkout, where the two differ.

    docs/changed.py COMMIT > docs/DESIGN-PASS.changed
"""
import os
import re
import subprocess
import sys

os.chdir(os.path.join(os.path.dirname(os.path.abspath(__file__)), ".."))


def run(*command):
    return subprocess.run(command, capture_output=True, text=True, check=True).stdout


def then(commit, pattern):
    names = [n for n in run("git", "ls-tree", "-r", "--name-only", commit, "crates").split() if re.search(pattern, n)]
    return {n: run("git", "show", f"{commit}:{n}") for n in names}


def now(pattern):
    names = [n for n in run("git", "ls-files", "crates").split() if re.search(pattern, n) and os.path.exists(n)]
    return {n: open(n).read() for n in names}


def heads(text):
    """The public functions of a file: the signature and the clauses of each, on one line."""
    text = re.sub(r"//[^\n]*", "", text)
    found, owner = {}, ""
    for m in re.finditer(r'^(impl[^\n{]*)\{|^( *)(pub )?(extern "C" )?fn (\w+)[^(\n]*\(', text, re.M):
        if m[1]:
            owner = re.sub(r"<[^>]*>", "", m[1]).split()[-1] + "::"
            continue
        body = re.compile(r"^%s\{$|(?<=[)\w>\]]) \{$" % m[2], re.M).search(text, m.end())
        if m[3] and body:
            said = re.sub(r"\s+", " ", text[m.start():body.start()]).strip()
            said = re.sub(r",? \)", ")", re.sub(r"\( ", "(", said))
            found[(owner if m[2] else "") + m[5]] = said
    return found


def definitions(text):
    """The public definitions and theorems of a file of specs/, each on one line."""
    found = {}
    for block in re.split(r"\n\n+", text):
        lines = [l for l in block.split("\n") if not re.match(r"--|(unfoldable |pub )?use |pub mod ", l)]
        said = "\n".join(lines).strip()
        m = re.match(r"(?:abbrev |unfoldable )*pub (?:record |data )?([^\s:({]+)", said)
        if m:
            found[m[1]] = re.sub(r"\s+", " ", said)
    return found


def gathered(files, folder, parts):
    """By name (crate, file, item) what each says."""
    return {f"{n.split('/')[1]} {os.path.splitext(n.split(folder)[1])[0]} {k}": said for n, t in files.items() for k, said in parts(t).items()}


def show(what, folder, pattern, parts):
    a, b = gathered(then(sys.argv[1], pattern), folder, parts), gathered(now(pattern), folder, parts)
    for title, names, sides in (
        (f"{what} that say something else", sorted(k for k in a if k in b and a[k] != b[k]), ((a, "-"), (b, "+"))),
        (f"{what} that are gone", sorted(k for k in a if k not in b), ((a, "-"),)),
        (f"{what} that came", sorted(k for k in b if k not in a), ((b, "+"),)),
    ):
        print(f"# {title}: {len(names)}\n")
        for k in names:
            print(k)
            for side, mark in sides:
                print(f"  {mark} {side[k]}")
            print()


show("Public functions", "/src/", r"/src/.*\.rt$", heads)
show("Definitions and theorems", "/specs/", r"/specs/.*\.antt$", definitions)
