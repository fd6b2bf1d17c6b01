#!/usr/bin/env python3
# Draws docs/pictures/crates.svg: the crates of crates.txt, each in the colour of its chapter and with its words of docs/pictures/crates.words, and an arrow to a crate
# from each one that it uses and does not already use through another. A chapter is what stands under a heading of crates.txt: a comment behind an empty line.
# It wants graphviz (dot). `crates.py --check` draws nothing, wants nothing, and says whether words and picture have every crate of crates.txt and no other.
import pathlib
import re
import subprocess
import sys

here = pathlib.Path(__file__).resolve().parent
picture = here / "crates.svg"
# fill and line, a chapter after another: what is shared is blue, what writes green to teal, what reads yellow to red, what is proved or run alone grey, what users touch violet
colours = [
    ("#e8eef7", "#34507a"),
    ("#e9f5e6", "#3b7a34"),
    ("#dff3ec", "#1d7a5f"),
    ("#f0f6d8", "#6d7d1c"),
    ("#fff8d6", "#94801a"),
    ("#e2f2f8", "#22708c"),
    ("#fdf1df", "#a8701a"),
    ("#fde4d3", "#b0521a"),
    ("#fbdcdc", "#a83232"),
    ("#f6e6dc", "#8a4b2e"),
    ("#f7e0ea", "#98385f"),
    ("#ece4f9", "#5a3fa0"),
    ("#f2f2f2", "#777777"),
    ("#fafafa", "#a0a0a0"),
    ("#f3e8f5", "#74398a"),
]


def chapters():
    """The headings of crates.txt in order, each with its crates and those that they use. What no line of it names is a library of the compiler's."""
    found, empty = [], False
    for line in (here / "../../crates.txt").read_text().splitlines():
        if line.startswith("# ") and empty:
            found.append((line[2:].strip(), {}))
        elif line.strip() and not line.startswith("#"):
            if not found:
                found.append(("", {}))
            # of a library for C: NAME staticlib: what it uses
            name, _, others = line.partition(":")
            found[-1][1][name.split()[0]] = others.split()
        empty = not line.strip()
    ours = {name for _, part in found for name in part}
    return [(heading, {name: [other for other in others if other in ours] for name, others in part.items()}) for heading, part in found]


def words():
    found = {}
    for line in (here / "crates.words").read_text().splitlines():
        if line.strip() and not line.startswith("#"):
            name, text = line.split(None, 1)
            found[name] = text
    return found


def direct(crates):
    """The arrows that no way through another crate stands for."""
    through = {}

    def below(name):
        if name not in through:
            through[name] = set(crates[name]).union(*(below(other) for other in crates[name]))
        return through[name]

    return [(other, name) for name, others in crates.items() for other in others if not any(other in below(b) for b in others)]


def drawn(streets, crates, said):
    lines = ["digraph {", 'rankdir=BT; bgcolor="white"; nodesep=0.18; ranksep=0.42;', 'node [shape=box, style="filled,rounded", fontname="sans-serif", fontsize=11, margin="0.09,0.05"];', 'edge [color="#555555", arrowsize=0.6];']
    rows = []
    # the last chapters have the last colours, whatever stands between
    chosen = colours[: len(streets) - 3] + colours[-3:] if len(streets) > 3 else colours
    for (heading, names), (fill, line) in zip(streets, chosen):
        for name in names:
            lines.append(f'{name} [fillcolor="{fill}", color="{line}", label=<<b>{name}</b><br/><font point-size="9">{said[name]}</font>>];')
        rows.append(f'<td bgcolor="{fill}" color="{line}" border="1" align="left">{heading}</td>')
    rows = ["<tr>" + "".join(rows[i : i + 5]) + "</tr>" for i in range(0, len(rows), 5)]
    lines.append(f'"chapters:" [shape=plain, style="", label=<<table border="0" cellspacing="3" cellpadding="4">{"".join(rows)}</table>>];')
    lines += [f"{a} -> {b};" for a, b in direct(crates)]
    return "\n".join(lines + ["}"])


def main():
    streets, said = chapters(), words()
    crates = {name: others for _, part in streets for name, others in part.items()}
    lacking = [name for name in crates if name not in said]
    spare = [name for name in said if name not in crates]
    if lacking or spare:
        sys.exit(f"crates.words lacks {lacking} and has {spare} to spare")
    if len(streets) > len(colours):
        sys.exit(f"{len(streets)} chapters, {len(colours)} colours")
    if sys.argv[1:] == ["--check"]:
        shown = set(re.findall(r"<title>(\w+)</title>", picture.read_text()))
        if shown != set(crates):
            sys.exit(f"crates.svg: {sorted(shown ^ set(crates))} stand only in it, or only in crates.txt: run docs/pictures/crates.py")
        print(f"crates.svg: {len(crates)} crates")
        return
    svg = subprocess.run(["dot", "-Tsvg"], input=drawn(streets, crates, said), text=True, capture_output=True, check=True).stdout
    picture.write_text(re.sub(r"<!--.*?-->\n?", "", svg, flags=re.S))


main()
