#!/usr/bin/env python3
"""Makes docs/DEFINITION.md: every definition that the public contracts rest on, in reading order, under the sentence that it stands for.

    docs/definition.py            writes it
    docs/definition.py --check    says whether it is current; whether a definition is missing or stands twice; whether a name that is shown
                                  is defined twice, and whether one is used and not shown

docs/definition.outline has the order. A line that starts with '#' is a heading, one that starts with '>' a sentence of the rules, one that starts
with '@' takes definitions from a file: `@ CRATE FILE` all that are left of it, `@ CRATE FILE: NAME NAME ..` those that are named. Other lines are text.
Definitions are those of every specs/ folder, but for the files named Inner.antt and those under '!' lines (`! CRATE FILE: why`), which serve only what functions
promise each other; of these, too, an '@' line may name some. Fields of records and cases of enums may have one name in several of them.
"""
import re, sys
from pathlib import Path

ROOT = Path(__file__).resolve().parent.parent
NAME = re.compile(r"^\s*(?:abbrev |unfoldable )?pub (?:record |data |mutual )?([^\s:({]+)")


def blocks(path):
    """The file's definitions, each with the comment before it, as (names, text); imports and the file's own heading are dropped."""
    lines = [l for l in path.read_text().split("\n") if not re.match(r"(unfoldable )?(pub )?use ", l)]
    while lines and (lines[0].startswith("--") or not lines[0]):
        if not lines[0] and len(lines) > 1 and lines[1]:
            break
        lines.pop(0)
    parts, now = [], []
    for line in lines + [""]:
        if line or (now and now[-1].startswith("-- ----")):
            now.append(line)
        elif now:
            parts.append(now)
            now = []
    # a part that is indented, or only a comment, belongs to the one beside it
    joined = []
    for part in parts:
        if joined and (part[0].startswith(" ") or all(l.startswith("--") or not l for l in joined[-1])):
            joined[-1] += [""] + part
        else:
            joined.append(part)
    return [([m.group(1) for l in part if (m := NAME.match(l))], "\n".join(part).strip("\n")) for part in joined]


def defined(path):
    """The names that a file of specs/ defines, each with its block, without fields and cases: their lines stand inside a record or an enum."""
    found = {}
    for names, text in blocks(path):
        inside = False
        for line in text.split("\n"):
            if not line.startswith(" "):
                inside = re.match(r"pub (record|data) ", line)
            if (m := NAME.match(line)) and not (inside and line.startswith(" ")):
                found.setdefault(m.group(1), []).append(text)
    return found


WORD = r"(?<![\w'«».-]){}(?![\w'«»-])"
IMPORT = re.compile(r"^(?:pub )?use Rattle\.(\w+)\.specs\.(\w+)(?:\.\{([^}]*)\}| as ([\w-]+))$", re.M)


def uses(path, text):
    """The definitions of specs/ that a block of a file names, as (crate, file, name)."""
    code = "\n".join(l for l in text.split("\n") if not re.match(r"\s*--", l))
    for name in defined(path):
        if re.search(WORD.format(re.escape(name)), code):
            yield path.parts[-3], path.stem, name
    for crate, file, names, alias in IMPORT.findall(path.read_text()):
        if file == "declared":
            continue
        for entry in names.split(", ") if names else []:
            name, _, here = entry.partition(" as ")
            if re.search(WORD.format(re.escape(here or name)), code):
                yield crate, file, name
        for name in re.findall(WORD.format(re.escape(alias) + r"\.([\w-]+)"), code) if alias else []:
            yield crate, file, name


def names_faults(shown):
    """What is wrong with the names of the blocks that are shown: (crate, file) to their texts."""
    where, faults = {}, []
    for (crate, file), texts in shown.items():
        for name, found in defined(ROOT / f"crates/{crate}/specs/{file}.antt").items():
            where.setdefault(name, []).extend((crate, file) for text in found if text in texts)
    for name, places in sorted(where.items()):
        if len(places) > 1:
            faults.append(f"{name} is defined by {' and by '.join(f'{c}/specs/{f}.antt' for c, f in places)}")
    for (crate, file), texts in shown.items():
        path = ROOT / f"crates/{crate}/specs/{file}.antt"
        for text in texts:
            for c, f, name in uses(path, text):
                home = ROOT / f"crates/{c}/specs/{f}.antt"
                known = defined(home) if home.exists() else {}
                if name in known and not any(t in shown.get((c, f), []) for t in known[name]):
                    faults.append(f"{crate}/specs/{file}.antt uses {name} of {c}/specs/{f}.antt, which is not shown")
    return list(dict.fromkeys(faults))


def main():
    outline = (ROOT / "docs/definition.outline").read_text().split("\n")
    left = {}
    skipped = {}
    for line in outline:
        if m := re.match(r"! (\w+) (\w+): (.+)", line):
            skipped[m.group(1), m.group(2)] = m.group(3)
    for path in sorted(ROOT.glob("crates/*/specs/*.antt")):
        crate, file = path.parts[-3], path.stem
        if file not in ("Lib", "Inner") and (crate, file) not in skipped:
            left[crate, file] = blocks(path)
    out, faults, shown = [], [], {}
    for line in outline:
        if line.startswith("!"):
            continue
        m = re.match(r"@ (\w+) (\w+)(?:: (.+))?$", line)
        if not m:
            out.append(line)
            continue
        key, names = (m.group(1), m.group(2)), m.group(3)
        inner = key not in left and names and (ROOT / f"crates/{key[0]}/specs/{key[1]}.antt").exists()
        if inner:
            left[key] = blocks(ROOT / f"crates/{key[0]}/specs/{key[1]}.antt")
            skipped.setdefault(key, "inner")
        if key not in left:
            faults.append(f"there is no {key[0]}/specs/{key[1]}.antt, or it is inner")
            continue
        wanted = names.split() if names else None
        taken = [b for b in left[key] if wanted is None or set(b[0]) & set(wanted)]
        for name in wanted or []:
            if not any(name in b[0] for b in taken):
                faults.append(f"{key[0]}/specs/{key[1]}.antt has no {name} that is left")
        if not taken:
            faults.append(f"nothing is left of {key[0]}/specs/{key[1]}.antt for '{line}'")
        left[key] = [b for b in left[key] if b not in taken]
        shown.setdefault(key, []).extend(text for _, text in taken)
        out += [f"*crates/{key[0]}/specs/{key[1]}.antt*", "", "```", "\n\n".join(text for _, text in taken), "```"]
    for (crate, file), rest in left.items():
        for names, text in rest if (crate, file) not in skipped else []:
            faults.append(f"{crate}/specs/{file}.antt: {' '.join(names) or text} is not in the outline")
    faults += names_faults(shown)
    text = re.sub(r"\n{3,}", "\n\n", "\n".join(out)).strip("\n") + "\n"
    target = ROOT / "docs/DEFINITION.md"
    if "--check" in sys.argv[1:]:
        if not target.exists() or target.read_text() != text:
            faults.append("docs/DEFINITION.md is not current: run docs/definition.py")
    else:
        target.write_text(text)
    for fault in faults:
        print(f"definition: {fault}", file=sys.stderr)
    if not faults:
        print(f"definition: {text.count(chr(10))} lines, every definition once, every name shown")
    sys.exit(1 if faults else 0)


main()
