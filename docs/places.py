#!/usr/bin/env python3
"""Counts the places of each point of docs/DESIGN-PASS.md.

    docs/places.py [--list] [COMMIT]    in COMMIT, else in the checkout; --list prints each place
"""
import collections
import os
import re
import subprocess
import sys

os.chdir(os.path.join(os.path.dirname(os.path.abspath(__file__)), ".."))
LISTING = "--list" in sys.argv
COMMIT = next((a for a in sys.argv[1:] if not a.startswith("--")), None)


def files(pattern):
    """The paths below crates/ that fit, with their texts."""
    if COMMIT:
        names = subprocess.run(["git", "ls-tree", "-r", "--name-only", COMMIT, "crates"], capture_output=True, text=True, check=True).stdout.split()
        names = [n for n in names if re.search(pattern, n)]
        asked = "".join(f"{COMMIT}:{n}\n" for n in names)
        said = subprocess.run(["git", "cat-file", "--batch"], input=asked.encode(), capture_output=True, check=True).stdout
        at = 0
        for n in names:
            end = said.index(b"\n", at)
            size = int(said[at:end].split()[2])
            yield n, said[end + 1:end + 1 + size].decode()
            at = end + 2 + size
    else:
        for top, _, found in sorted(os.walk("crates")):
            for n in sorted(found):
                p = os.path.join(top, n)
                if re.search(pattern, p) and "/out/" not in p:
                    yield p, open(p).read()


def bare(text):
    return re.sub(r"//[^\n]*", "", text)


def functions(text):
    """Name, parameters, result, clauses, body and line of each function; whether C calls it."""
    for m in re.finditer(r"^( *)(pub )?(extern \"C\" )?fn (\w+)[^(\n]*\(", text, re.M):
        depth, i = 1, m.end()
        while depth:
            depth += {"(": 1, ")": -1}.get(text[i], 0)
            i += 1
        close = re.compile(r"^%s\}$|\}$" % m[1], re.M).search(text, i)
        body = re.compile(r"^%s\{$|(?<=[)\w>\]]) \{$" % m[1], re.M).search(text, i)
        end = re.compile(r"^%s\}$" % m[1], re.M).search(text, body.start() if body else i)
        if not body or not end or not close:
            continue
        head = text[i:body.start()]
        result = re.match(r"\s*-> ([^\n{]+?)\s*(?=\n|\{|$)", head)
        yield {
            "name": m[4],
            "c": bool(m[3]),
            "parameters": [p.strip() for p in re.split(r",(?![^<\[(]*[>\])])", text[m.end():i - 1]) if p.strip()],
            "result": result[1] if result else "",
            "clauses": head,
            "body": text[body.end():end.start()],
            "line": text.count("\n", 0, m.start()) + 1,
        }


SOURCE = [(n, bare(t)) for n, t in files(r"/src/.*\.rt$")]
FOUND = collections.OrderedDict()


def place(point, name, line, what):
    FOUND.setdefault(point, []).append(f"{name}:{line}: {what}")


def lines(point, pattern):
    FOUND.setdefault(point, [])
    for n, t in SOURCE:
        for i, line in enumerate(t.split("\n"), 1):
            if re.search(pattern, line):
                place(point, n, i, line.strip())


# 1: own enums with a case that says no, and structs with a number or a mark that says whether the rest counts
FOUND["1 enums with a case for no"] = []
for n, t in SOURCE:
    for m in re.finditer(r"^(?:pub )?enum (\w+) \{\n(.*?)^\}", t, re.M | re.S):
        if re.search(r"^    (Refused|Wrong|Other|Rejected|Nothing|Lacking)\b", m[2], re.M):
            place("1 enums with a case for no", n, t.count("\n", 0, m.start()) + 1, m[1])
FOUND["1 structs with a mark or a refusal's number"] = []
for n, t in SOURCE:
    for m in re.finditer(r"^(?:pub )?struct (\w+)[^{;\n]*\{\n(.*?)^\}", t, re.M | re.S):
        if re.search(r"^    (pub )?(refused|refusal|given|reason|\w+_given|partly|state): (u8|bool)", m[2], re.M):
            place("1 structs with a mark or a refusal's number", n, t.count("\n", 0, m.start()) + 1, m[1])
FOUND["1 functions that answer a number for a refusal, a reason or a kind"] = []
FOUND["1 functions that take such a number"] = []
for n, t in SOURCE:
    for f in functions(t):
        if f["result"] == "u8" and re.search(r"lowest|refus|reason|wrong|worse|kind|tail|cond \(", f["clauses"]):
            place("1 functions that answer a number for a refusal, a reason or a kind", n, f["line"], f["name"])
        if any(re.match(r"(n|number|refused|refusal|reason|kind|rank|why): u8$", p) for p in f["parameters"]):
            place("1 functions that take such a number", n, f["line"], f["name"])
lines("1 constants for refusals and codes", r"^pub const [A-Z_]+: u8 = ")

# 2: functions whose text is the same but for names, types and numbers
FOUND["2 functions alike but for names, types and numbers"] = []
shapes = collections.defaultdict(list)
WORDS = {"if", "else", "while", "for", "in", "let", "mut", "return", "match", "loop", "as", "true", "false", "break", "continue", "struct"}
for n, t in SOURCE:
    for f in functions(t):
        tokens = re.findall(r"\w+|[^\s\w]", f["body"])
        if len(tokens) < 24 or f["c"]:
            continue
        known = {}
        shape = tuple(w if w in WORDS or not re.match(r"\w", w) else known.setdefault(w, len(known)) for w in tokens)
        shapes[len(f["parameters"]), shape].append((n, f["line"], f["name"]))
for alike in shapes.values():
    if len(alike) > 1:
        for n, line, name in alike:
            place("2 functions alike but for names, types and numbers", n, line, f"{name} as {', '.join(a[2] for a in alike if a[1] != line or a[0] != n)}")

# 3: loops by hand
lines("3 loops by hand", r"^\s*(while|loop)\b")

# 4: conversions and tests by hand
lines("4 a truth or a number turned by hand", r"\{ (1|true) \} else \{ (0|false) \}|\{ (0|false) \} else \{ (1|true) \}|\{\} else \{$")
FOUND["4 functions that convert, compare or copy"] = []
for n, t in SOURCE:
    for f in functions(t):
        if re.fullmatch(r"of|of_\w+|from_\w+|to_\w+|number|code|wide|mark|flag|is_same\w*|same\w*|equal\w*|signed\d+", f["name"]):
            place("4 functions that convert, compare or copy", n, f["line"], f["name"])

# 5: parameters that travel together
FOUND["5 functions with the lent stores one by one"] = []
FOUND["5 functions with more than eight parameters, not C's"] = []
STORES = {"ids", "starts", "pres", "posts", "ends", "items", "fods", "whispys", "stadiums", "item_offsets", "fod_offsets", "whispy_offsets", "stadium_offsets", "presence"}
for n, t in SOURCE:
    for f in functions(t):
        if f["c"]:
            continue
        if len({p.split(":")[0] for p in f["parameters"]} & STORES) >= 4:
            place("5 functions with the lent stores one by one", n, f["line"], f["name"])
        if len(f["parameters"]) > 8:
            place("5 functions with more than eight parameters, not C's", n, f["line"], f"{f['name']} {len(f['parameters'])}")

# 6: arrays with a length beside them, arrays beside arrays
FOUND["6 structs with arrays and a length, or arrays beside arrays"] = []
for n, t in SOURCE:
    for m in re.finditer(r"^(?:pub )?struct (\w+)[^{;\n]*\{\n(.*?)^\}", t, re.M | re.S):
        arrays = len(re.findall(r": \[", m[2]))
        if arrays > 1 or (arrays and re.search(r"\b(len|count|columns): usize", m[2])):
            place("6 structs with arrays and a length, or arrays beside arrays", n, t.count("\n", 0, m.start()) + 1, m[1])

# 7: a step chosen by a number or by a case, each arm one call
FOUND["7 matches whose arms each call a function"] = []
for n, t in SOURCE:
    for f in functions(t):
        arms = re.findall(r"^\s+[A-Z]\w*(?:::\w+)*(?:\([^)]*\)|\s*\{[^}]*\})? => \w+(?:::\w+)*\(", f["body"], re.M)
        if len(arms) > 3:
            place("7 matches whose arms each call a function", n, f["line"], f"{f['name']}, {len(arms)} arms")

# 8: proofs
PROOFS = [(n, t) for n, t in files(r"/proofs/.*\.antt$")]
FOUND["8 answers"] = [f"{n}: {m}" for n, t in PROOFS if n.endswith("Answers.antt") for m in re.findall(r"^pub ([\w-]+) :", t, re.M)]
FOUND["8 names given twice (let c1 = c in)"] = [f"{n}: {m}" for n, t in PROOFS for m in re.findall(r"\blet (\w+) = c\w* in", t)]

for point, places in FOUND.items():
    print(f"{len(places):6} {point}")
    if LISTING:
        for p in places:
            print("       ", p)
