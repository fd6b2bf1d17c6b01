#!/usr/bin/env python3
"""Writes the man pages slp(1), from what `slp help` prints, and slp(3), from include/slp.h; and completions for bash, zsh and fish, from the tables of
commands and options in tools/slp.c and the words of the help.

    docs/man.py SLP FOLDER     the tool, and where slp.1, slp.3, slp.bash, _slp and slp.fish go

What it does not find where it should be is an error: no command and no option is left out.
"""
from __future__ import annotations

import re
import subprocess
import sys
from itertools import groupby
from pathlib import Path
from typing import NamedTuple

ROOT = Path(__file__).resolve().parent.parent
HEADER = (ROOT / "include/slp.h").read_text()
VERSION = re.search(r'^#define SLP_VERSION "(.*)"', HEADER, re.M)[1]  # type: ignore[index]


class Command(NamedTuple):
    name: str
    files: int
    options: list[str]


# ---- roff


def roff(line: str) -> str:
    """A line of text."""
    line = line.replace("\\", "\\e").replace("-", "\\-")
    return "\\&" + line if line[:1] in (".", "'") else line


def verbatim(lines: list[str]) -> list[str]:
    return [".PP", ".RS 2", ".nf", *(roff(line.replace("\t", "    ")) for line in lines), ".fi", ".RE"]


def page(number: int, name: str, body: list[str]) -> str:
    return "\n".join([f'.TH SLP {number} "" "slp {VERSION}"', ".SH NAME", roff(name), *body]) + "\n"


# ---- slp(1)


def blocks(text: str) -> list[list[str]]:
    """Lines between blank ones."""
    return [block.split("\n") for block in text.strip("\n").split("\n\n")]


def items(block: list[str]) -> list[tuple[str, str]]:
    """What is explained, and the explanation, which begins in the same column of every line."""
    found: list[tuple[str, str]] = []
    for line in block:
        term, said = line[2:22].strip(), line[22:].strip()
        if len(line) > 22 and line[21] != " ":
            term, said = line.strip(), ""
        found.append((term, said)) if term else found.append((found[-1][0], f"{found.pop()[1]} {said}".strip()))
    return found


def one(help_text: str) -> str:
    first, *rest = blocks(help_text)
    commands = items(rest[0])
    body = [".SH SYNOPSIS", *(line for term, _ in commands for line in (".br", ".B " + roff(term))), ".SH DESCRIPTION"]
    for block in rest:
        if block[0].startswith("  "):
            body += [line for term, said in items(block) for line in (".TP", ".B " + roff(term), roff(said))]
        elif block[0].startswith("Exit status: "):
            body += [".SH EXIT STATUS", *map(roff, [block[0].removeprefix("Exit status: "), *block[1:]])]
        else:
            body += [".PP", *map(roff, block)]
    return page(1, first[0].replace(": ", " - ", 1), [*body, ".SH SEE ALSO", ".BR slp (3)"])


# ---- slp(3)


def comment(text: str) -> list[str]:
    """A comment's paragraphs, and its examples and lists, which are indented, as they stand."""
    lines = [re.sub(r"^ \* ?", "", line) for line in text.removeprefix("/*").removesuffix("*/").rstrip().split("\n")]
    lines[0] = lines[0].strip()
    body: list[str] = []
    for indented, group in groupby(lines, key=lambda line: line.startswith("  ") if line else None):
        block = list(group)
        body += [] if indented is None else verbatim(block) if indented else [".PP", *(roff(line) for line in block)]
    return body


def three() -> str:
    head, rest = HEADER.split("#ifndef SLP_H\n", 1)
    rest = rest.split('extern "C" {\n#endif\n', 1)[1].rsplit("#ifdef __cplusplus", 1)[0]
    # a title and what is said below it
    rest = re.sub(r"^(/\* ======== .* ========)\n \*\n", r"\1 */\n\n/*\n", rest, flags=re.M)
    # of an inline function its first lines
    rest = re.sub(r"^(static inline [^{;]*)\n\{\n(?:.*\n)*?\}$", r"\1;", rest, flags=re.M)
    body = [".SH SYNOPSIS", ".B #include <slp.h>", ".PP", "Link with", ".BR \\-lslp .", ".SH DESCRIPTION", *comment(head.strip().split("\n *\n", 1)[1])]
    for title, plain, code in re.findall(r"^/\* (?:========|----) (.*?)(?: ========| \*/).*\n|^(/\*(?:.|\n)*?\*/)$|^((?:(?!/\*).*\S.*\n)+)", rest, re.M):
        if title:
            body += [".SH " + roff(title.split(":")[0].upper())]
        elif plain:
            body += comment(plain)
        else:
            body += verbatim(code.rstrip("\n").split("\n"))
    return page(3, "slp - Slippi replays, written and read", [*body, ".SH SEE ALSO", ".BR slp (1)"])


# ---- completions


def tables() -> tuple[list[Command], dict[str, bool]]:
    """The commands, and of each option whether it has a value."""
    source = (ROOT / "tools/slp.c").read_text()
    options = {name: need == "required" for name, need in re.findall(r'^\t\{ "(\w+)", (no|required)_argument, NULL, \w+ \},$', source, re.M)}
    kinds = dict(re.findall(r'^\t\{ "(\w+)", (?:no|required)_argument, NULL, (\w+) \},$', source, re.M))
    rows = re.findall(r'^\t\{ "(\w+)", \w+, (\w+), (\w+), "[^"]*", (.*) \},$', source, re.M)
    commands = []
    for name, _, most, takes in rows:
        own = [option for option, kind in kinds.items() if f"TAKES({kind})" in takes]
        commands.append(Command(name, 0 if most == "0" else 1, [*own, "progress"] if most != "0" else own))
    if not rows or not options or len(rows) != source.split("COMMANDS[] = {", 1)[1].split("};", 1)[0].count("{ "):
        sys.exit("man.py: the tables of tools/slp.c are not as they were")
    return commands, options


def says(help_text: str) -> dict[str, str]:
    """The first words of what the help says of each command and option, up to a mark."""
    found: dict[str, str] = {}
    for block in blocks(help_text):
        for term, said in items(block) if block[0].startswith("  ") else ():
            said = re.split(r"[:;,(]| and ", said)[0].strip()
            for name in re.findall(r"--(\w+)|^slp (\w+)", term):
                found.setdefault("".join(name), said)
    return found


def shown(name: str, options: dict[str, bool]) -> str:
    return f"--{name}=" if options[name] else f"--{name}"


def bash(commands: list[Command], options: dict[str, bool]) -> str:
    cases = "\n".join(f"\t{c.name}) words='{' '.join(shown(o, options) for o in c.options)}' files={c.files} ;;" for c in commands)
    return f"""# Completion of slp for bash.
_slp() {{
	local current=${{COMP_WORDS[COMP_CWORD]}} words= files=0
	COMPREPLY=()
	if [ "$COMP_CWORD" = 1 ]; then
		COMPREPLY=($(compgen -W '{" ".join(c.name for c in commands)} --help --version' -- "$current"))
		return
	fi
	case ${{COMP_WORDS[1]}} in
{cases}
	esac
	case $current in
	-*) COMPREPLY=($(compgen -W "$words" -- "$current"))
		[[ ${{COMPREPLY[0]-}} != *= ]] || compopt -o nospace ;;
	*) [ "$files" = 0 ] || {{ compopt -o filenames; mapfile -t COMPREPLY < <(compgen -f -- "$current"); }} ;;
	esac
}}
complete -F _slp slp
"""


def zsh(commands: list[Command], options: dict[str, bool], words: dict[str, str]) -> str:
    def quoted(text: str) -> str:
        return text.replace("'", "").replace("[", "").replace("]", "").replace(":", "")

    names = "\n".join(f"\t\t'{c.name}:{quoted(words[c.name])}'" for c in commands)
    cases = []
    for c in commands:
        own = [f"'{shown(o, options)}[{quoted(words[o])}]{':value:' if options[o] else ''}'" for o in c.options]
        own += ["'*:replay:_files'"] if c.files else []
        cases.append(f"\t{c.name}) {'_arguments ' + ' '.join(own) if own else ':'} ;;")
    lines = "\n".join(cases)
    return f"""#compdef slp
# Completion of slp for zsh.
_slp() {{
	local -a commands
	commands=(
{names}
	)
	if (( CURRENT == 2 )); then
		_describe command commands
		return
	fi
	local command=$words[2]
	shift words
	(( CURRENT-- ))
	case $command in
{lines}
	esac
}}
_slp "$@"
"""


def fish(commands: list[Command], options: dict[str, bool], words: dict[str, str]) -> str:
    def quoted(text: str) -> str:
        return "'" + text.replace("\\", "\\\\").replace("'", "\\'") + "'"

    lines = ["# Completion of slp for fish.", "complete -c slp -f"]
    lines += [f"complete -c slp -n __fish_use_subcommand -a {c.name} -d {quoted(words[c.name])}" for c in commands]
    for c in commands:
        seen = f"-n '__fish_seen_subcommand_from {c.name}'"
        lines += [f"complete -c slp {seen} -F"] if c.files else []
        lines += [f"complete -c slp {seen} -l {o}{' -x' if options[o] else ''} -d {quoted(words[o])}" for o in c.options]
    return "\n".join(lines) + "\n"


def main(tool: str, folder: str) -> None:
    help_text = subprocess.run([tool, "help"], check=True, capture_output=True, text=True).stdout
    (commands, options), words = tables(), says(help_text)
    missing = [name for name in [*(c.name for c in commands), *(o for c in commands for o in c.options)] if name not in words]
    if missing:
        sys.exit(f"man.py: the help says nothing of {', '.join(missing)}")
    to = Path(folder)
    to.mkdir(parents=True, exist_ok=True)
    for name, text in (
        ("slp.1", one(help_text)),
        ("slp.3", three()),
        ("slp.bash", bash(commands, options)),
        ("_slp", zsh(commands, options, words)),
        ("slp.fish", fish(commands, options, words)),
    ):
        (to / name).write_text(text)


if __name__ == "__main__":
    main(*sys.argv[1:])
