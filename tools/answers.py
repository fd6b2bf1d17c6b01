#!/usr/bin/env python3
"""Turns a crate's older proofs, one Proof.antt a function, into Invariants.antt and Answers.antt.

usage: tools/answers.py CRATE [FUNCTION ..]

It was run crate by crate, lowest first, when the repository came to today's Rattle. The names of goals and steps are those that
`rt check --generated DIR --old-names` lists. What Rattle proves by itself gets no answer. What it cannot turn it names in a line 'left:',
and keeps the older file beside it as Proof.antt.txt until that is mended by hand.
"""

import glob
import json
import os
import re
import subprocess
import sys
import tempfile

W = r"[^\s(){}.;,@\"«»\[\]\\]+"
TOKEN = re.compile(r"--[^\n]*|\"(?:[^\"\\\n]|\\.)*\"|«[^»]*»|" + W + r"|\n|[ \t]+|.")
TRIVIAL = re.compile(r"^(search rules|omega arith|tt|refl|omega \(arith, ltb-(true|false)\)|search \(rules, [\w-]+\))$")
FIELDS = {"taken": "true", "left": "false", "inv": "invariant", "pre": "requires", "post": "ensures"}
# Rattle's words of two parts, in their older spelling
WORDS = set("well-formed type-inv items-fit element-fits no-deeper len-below len-at-least view-is loan-name".split())


def read(path):
    with open(path, encoding="utf-8") as it:
        return it.read()


def write(path, text):
    with open(path, "w", encoding="utf-8") as it:
        it.write(text)


def plain(name):
    """A name without what differs between the older and today's spelling."""
    name = name.replace("_", "-").replace("'", "")
    name = re.sub(r"^(overflow|nonzero)-", "", name)
    return {"loop-holds": "loop-init", "loop-less": "loop-smaller", "loop-again": "loop-preserved"}.get(name, name)


LENT = {}
PARAMS = {}


class Names:
    def __init__(self, of):
        self.of = of
        self.needs = [tuple(it) for it in of["needs"]]
        self.asked = [it[0] for it in of["asked_at"]]
        self.parent, self.step, self.place, self.callee, self.whole = {}, {}, {}, {}, {}
        for it, new in zip(of["places"], of["places_by_name"]):
            name, parent, step = it[0], it[1], it[2]
            self.parent[name] = parent
            if it[3]:
                self.whole[step[1]] = (it[3],)
                self.callee[step[1]] = (it[3].split("::")[0], it[3].split("::")[-1])
            self.place[plain(name)] = new
            self.step.setdefault(plain(step[0]).lower(), set()).add(step[1])
            self.step_at = getattr(self, "step_at", {})
            self.step_at[name] = (plain(step[0]).lower(), step[1])
        # an array's or a struct's argument, by its older number
        self.args = {}
        for old, new in of["args"]:
            a, b = old.rsplit(".", 1)[-1], new.rsplit(".", 1)[-1]
            self.args[a] = b
        # the clauses of a call, by their older number
        self.clauses = {}
        for it, clause in zip(of["places"], of["clauses"]):
            if isinstance(clause, dict) and clause.get("fields"):
                self.clauses[it[2][1]] = clause["fields"]
        # what an arm says, by the older step and its path
        self.arm_at = {}
        for it, arm in zip(of["places"], of["arms"]):
            for field, step, path in arm[2] if arm else []:
                self.arm_at.setdefault(it[0], []).append((plain(step), list(path), f"{arm[0]}.{field}"))
        for loop in of["loops"]:
            self.step.setdefault(plain(loop[0][0]).lower(), set()).add(loop[0][1])

    def up(self, place, n):
        for _ in range(n):
            place = self.parent.get(place)
        return place

    def arm(self, place, tail):
        """What an arm at this place or above it says under today's name, and how many words of the path that stands for."""
        at = place
        while at:
            fits = [it for it in self.arm_at.get(at, []) if it[0] == plain(tail[0]) and tail[1 : 1 + len(it[1])] == it[1]]
            if fits:
                best = max(fits, key=lambda it: len(it[1]))
                return best[2], 1 + len(best[1])
            at = self.parent.get(at)
        every = {(it[2], 1 + len(it[1])) for each in self.arm_at.values() for it in each if it[0] == plain(tail[0]) and it[1] and tail[1 : 1 + len(it[1])] == it[1]}
        return every.pop() if len(every) == 1 else (None, 0)

    def new_step(self, place, word):
        """The new name of the step that is called word at this place or above it."""
        at = place
        while at:
            old, new = self.step_at.get(at, (None, None))
            if old == plain(word).lower():
                return new
            at = self.parent.get(at)
        found = self.step.get(plain(word).lower())
        return next(iter(found)) if found and len(found) == 1 else None


def lent():
    """For each function of the repository, by its crate and name, the parameters that it is lent to write."""
    out = {}
    for path in glob.glob("crates/*/src/**/*.rt", recursive=True):
        crate = path.split("/")[1]
        for it in re.finditer(r"(?s)\bfn (\w+)(?:<[^(]*>)?\((.*?)\)\s*(?:->|requires|ensures|\{|where)", read(path)):
            params = re.findall(r"(\w+)\s*:\s*([^,]*)", it[2])
            names = [name for name, ty in params if ty.startswith("&mut") or re.match(r"&'\w+ mut", ty)]
            if re.search(r"&mut self", it[2]):
                names.insert(0, "self")
            out[(crate, it[1])] = names
    return out


def blocks(text):
    """The declarations of a file, each with the comment above it."""
    out = []
    for each in re.split(r"\n(?=[^\s\-)\]}]|-- )", "\n" + text):
        if each.strip():
            out.append(each.strip("\n"))
    joined, comment, head = [], [], None
    for each in out:
        if each.startswith("--"):
            comment.append(each)
            continue
        name = re.match(r"(?:pub |abbrev |unfoldable )*(" + W + ")", each)[1]
        if name == "unfolding" or (head == name and not re.match(r"(?:pub |abbrev |unfoldable )*" + re.escape(name) + r" :(\s|$)", each)):
            joined[-1] = "\n".join([joined[-1], *comment, each])
        else:
            joined.append("\n".join([*comment, each]))
            head = name
        comment = []
    return joined


def args_of(text):
    """The arguments that tie.spec is given."""
    text = text.split("tie.spec", 1)[1]
    out, depth, word = [], 0, ""
    for it in text:
        if it in "([{":
            depth += 1
        if it in ")]}":
            depth -= 1
            if depth < 0:
                break
        if it.isspace() and depth == 0:
            if word:
                out.append(word)
            word = ""
        else:
            word += it
    if word:
        out.append(word)
    return out


def aligned(args, labels, needs):
    """For each argument its need, where the named ones fit their labels: the longest alignment."""
    n, m = len(args), len(needs)
    best = [[0] * (m + 1) for _ in range(n + 1)]

    def score(i, j):
        label = labels.get(args[i])
        if label is None:
            return 1
        return 3 if plain(label) == plain(needs[j][0]) or plain(label) == plain(needs[j][1]) else -99 if same_stem(label, needs[j]) is False else 0

    for i in range(n - 1, -1, -1):
        for j in range(m - 1, -1, -1):
            best[i][j] = max(best[i + 1][j], best[i][j + 1], best[i + 1][j + 1] + score(i, j))
    out, i, j = {}, 0, 0
    while i < n and j < m:
        if best[i][j] == best[i + 1][j + 1] + score(i, j) and score(i, j) > -50:
            out[i] = j
            i, j = i + 1, j + 1
        elif best[i][j] == best[i + 1][j]:
            i += 1
        else:
            j += 1
    return out


def same_stem(label, need):
    a = re.sub(r"-\d+$", "", plain(label))
    b = re.sub(r"-\d+$", "", plain(need[0]))
    return None if a == b else (True if a.split("-")[0] == b.split("-")[0] else False)


class Turn:
    def __init__(self, path, names, module):
        self.path, self.names, self.module, self.left = path, names, module, []
        self.text, self.note = read(path), ""
        # whether helpers keep the records of the walk itself, by which they go up to earlier ones
        self.walks = False

    def paths(self, text, place, need, root="c"):
        """Writes each path from root by today's steps, where root is the record at this place."""
        roots, steps, nested, aliases = {root: place}, {}, {}, {}
        out, at = [], 0
        for it in re.finditer(r"(?<![\w.'-])(" + W + r")((?:\.[^\s(){}.;,@\[\]\\]+)*)", text):
            out.append(text[at : it.start()])
            at = it.end()
            head, tail = it[1], [x for x in it[2].split(".") if x]
            if text[: it.start()].endswith("let "):
                roots = {k: v for k, v in roots.items() if k != head or k == root}
                steps.pop(head, None)
                out.append(it[0])
                continue
            if head in nested and tail:
                step, n = nested[head]
                params = self.names.of["params"].get("::".join(self.names.whole.get(step, ("",))), [])
                ones = next((k for k, x in enumerate(tail) if x != "1"), len(tail))
                if ones < len(tail) and tail[ones] == "0" and n + ones < len(params):
                    tail = [params[n + ones], *tail[ones + 1 :]]
            if head in aliases and tail:
                arm, told = self.names.arm(aliases[head][0], [*aliases[head][1], *tail])
                if told:
                    out.append(".".join([root, *arm.split("."), *[*aliases[head][1], *tail][told:]]))
                    continue
            if head in steps and len(tail) > 1:
                tail = self.named(steps[head], [steps[head], *tail])[1:]
            if head not in roots:
                tail = [x.replace("-", "_") if x in WORDS else self.names.args.get(x, x) for x in tail]
                out.append(".".join([head, *tail]))
                continue
            here, n = roots[head], 0
            while tail and tail[0] == "before":
                tail.pop(0)
                n += 1
                here = self.names.up(here, 1)
            bound = re.search(r"let (" + W + r") = $", text[: it.start()])
            after = text[it.end() :]
            if not tail:
                if bound and re.match(r"\s+in\b", after):
                    roots[bound[1]] = here
                    out.append(head + ".before" * (n + bool(need) * (head == root)) * self.walks)
                elif self.walks:
                    out.append(head + ".before" * (n + bool(need) * (head == root)))
                elif here == roots[head] and head == root:
                    out.append(head)
                elif here is None:
                    self.left.append("a place above the start in " + (need or "?"))
                    out.append(it[0])
                else:
                    new = self.names.place.get(plain(here), here)
                    self.used_places.add(new)
                    out.append(f"(goal.at.{need} {root}).{new}" if need else f"⟦{head}⟧")
                continue
            alias = re.search(r"let (" + W + r") = $", text[: it.start()])
            if alias and len(tail) == 2 and tail[1] == "given" and re.match(r"\s+in\b", text[it.end() :]) and not self.names.arm(here, tail)[1]:
                # what a value holds, whose parts have names of their own now
                aliases[alias[1]] = (here, list(tail))
            arm, told = self.names.arm(here, tail)
            step = self.names.new_step(here, tail[0])
            if told:
                tail[:told] = arm.split(".")
            elif step:
                tail[0] = step
                loops = {loop[0][1] for loop in self.names.of["loops"]}
                if len(tail) > 1 and not (step in loops and tail[1] in ("taken", "left")):
                    tail[1] = FIELDS.get(tail[1], tail[1])
            if tail[0] in FIELDS and not step and not told:
                tail[0] = FIELDS[tail[0]]
            nest = re.search(r"let (" + W + r") = $", text[: it.start()])
            if nest and len(tail) > 1 and tail[1] in ("new", "auto") and set(tail[2:]) <= {"1"} and re.search(r"(?<![\w.'-])" + re.escape(nest[1]) + r"\.(1\.)*0(?!\d)", text[it.end() :]):
                # the rest of nested pairs, whose parts are counted from here
                nested[nest[1]] = (tail[0], len(tail) - 2)
                tail = tail[:2]
            tail = self.named(tail[0], tail)
            bound = re.search(r"let (" + W + r") = $", text[: it.start()])
            if bound and len(tail) == 1 and re.match(r"\s+in\b", text[it.end() :]):
                steps[bound[1]] = tail[0]
            if "branch" in tail:
                self.left.append("a branch in " + (need or "a helper"))
            out.append(".".join([head, *tail]))
        out.append(text[at:])
        text = "".join(out)
        # a test of what is not so says it plainly now
        text = re.sub(r"\(?\bnot_(?:taken|left) (?:[^\s()]+|\([^()]*\)) (" + root + r"\.if-not-[^\s()]+?\.(?:true|false))(?![\w.])(\)?)", lambda it: ("(" if it[0].startswith("(") and not it[2] else "") + it[1] + (it[2] if it[2] and not it[0].startswith("(") else ""), text)
        for it in aliases:
            text = re.sub(r"let " + re.escape(it) + r" = \S+\.given in\s*", "", text) if not re.search(r"(?<![\w.'-])" + re.escape(it) + r"\.", text) else text
        # a name for what is now the record itself
        again = True
        while again:
            again = False
            for it in re.findall(r"let (\w+) = " + root + r" in\s+", text):
                if not re.search(r"λ[^.]*\b" + it + r"\b", text):
                    text = re.sub(r"let " + it + " = " + root + r" in\s+", "", text)
                    text = re.sub(r"(?<![\w.'-])" + it + r"(?![\w'-])", root, text)
                    again = True
        return text

    def named(self, step, tail):
        """A path from a step, its numbers as the names of clauses and of lent parameters."""
        if len(tail) > 2 and tail[1] == "ensures" and step in self.names.clauses and tail[2].isdigit():
            tail[2] = self.names.clauses[step][int(tail[2])]
        tail = [x.replace("-", "_") if x in WORDS else self.names.args.get(x, x) if k else x for k, x in enumerate(tail)]
        nested = re.match(r"((?:1\.)*)0(?:\.|$)", ".".join(tail[2:])) if len(tail) > 3 and tail[1] in ("new", "auto") else None
        params = self.names.of["params"].get("::".join(self.names.whole.get(step, ("",))), [])
        if nested and nested[1].count("1") < len(params):
            # a path through nested pairs counts the parameters
            return [*tail[:2], params[nested[1].count("1")]]
        written = LENT.get(self.names.callee.get(step), [])
        if len(tail) > 2 and tail[1] in ("new", "auto") and tail[2].isdigit() and int(tail[2]) < len(written):
            tail[2] = written[int(tail[2])]
        return tail

    def words(self, text, table):
        return TOKEN.sub(lambda it: it[0] if text[: it.start()].endswith(".") else table.get(it[0], it[0]), text)

    def variables(self, text, table):
        """Replaces variables, and no field behind a dot and no label of a record."""

        def one(it):
            if it[0] not in table or text[: it.start()].endswith("."):
                return it[0]
            if re.match(r" =(?!=)", text[it.end() :]) and re.search(r"[{;]\s*$", text[: it.start()]):
                return it[0]
            return table[it[0]]

        for it in re.finditer(r"λ ([^.]*)\.", text):
            hidden = set(re.findall(W, it[1])) & set(table)
            if hidden:
                self.left.append(f"a variable {sorted(hidden)} is bound again in an invariant")
        return TOKEN.sub(one, text)

    def invariant(self, block, k, kind):
        loop = self.names.of["loops"][k]
        changed = self.names.of["changed"][k]
        new, live = loop[0][1], loop[1]
        lines = block.split("\n")
        comment = [x for x in lines if x.startswith("--")]
        body = "\n".join(x for x in lines if not x.startswith("--"))
        head = re.match(r"(?s)(?:pub )?abbrev (?:pub )?(" + W + r") : tie\.\S+\n((?:unfolding[^\n]*\n)?)\1([^=]*)=(.*)", body)
        if not head:
            self.left.append("an invariant of another form: " + body.split("\n")[0])
            return block
        params = head[3].split()
        table, names = {}, []
        for name in live:
            names.append(("l.initial." if changed[live.index(name)] else "l.") + name)
        names += ["l." + name for name, yes in zip(live, changed) if yes]
        if len(params) != len(names):
            self.left.append(f"{kind} of {new} takes {len(params)} variables where {len(names)} are live")
        for a, b in zip(params, names):
            table[a] = b
        table.pop("_", None)
        whole = self.variables(head[4], table)
        return "\n".join([*comment, f"abbrev pub {kind}-{new} : goal.{kind}-{new}", head[2] + f"{kind}-{new} l ={whole}"])

    def inner(self):
        """Writes out the abbreviations that lead from one record to an earlier one."""
        at = re.compile(r"(?m)^abbrev (" + W + r") : tie\.[^\n→]*→ tie\.[^\n]*\n\1 (\S+) = \2((?:\.before)*)\n")
        found = list(at.finditer(self.text))
        for it in found:
            self.text = self.text.replace(it[0], "")
        for it in found * 3:
            name, ups = it[1], it[3]
            self.text = re.sub(r"\(" + re.escape(name) + r" (" + W + r"(?:\.[^\s()]+)?)\)", lambda x: x[1] + ups, self.text)
            self.text = re.sub(r"(?<![\w.'-])" + re.escape(name) + r" (" + W + r"(?:\.[^\s(){}.;,]+)*)", lambda x: x[1] + ups, self.text)

    def run(self):
        self.inner()
        names = self.names
        uses, decls, spec = [], [], None
        for block in blocks(self.text):
            body = "\n".join(x for x in block.split("\n") if not x.startswith("--"))
            if body.startswith(("use ", "pub use ")):
                uses.append(block)
            elif re.match(r"pub \S+[-_]spec : ", body):
                spec = body
            else:
                decls.append((re.match(r"(?:pub |abbrev |unfoldable )*(" + W + ")", body)[1], block, body))
        if spec is None or "tie.spec" not in spec:
            self.left.append("no tie.spec")
            return
        args = args_of(spec)
        opens = re.search(r"(?m)^unfolding[^\n]*\n", spec)
        self.opens = opens[0] if opens else ""
        labels, invariants, measures = {}, [], []
        for name, block, body in decls:
            it = re.match(r"(?:abbrev |pub )*\S+ : tie\.(Need-)?(\S+)", body)
            if it and it[1]:
                labels[name] = it[2]
            elif it and it[2].startswith("invariant"):
                invariants.append(name)
            elif it and it[2].startswith("decreases"):
                measures.append(name)
        first = [x for x in args if x in invariants or x in measures]
        rest = [x for x in args if x not in first]
        known_need = {}
        if len(rest) == len(names.needs):
            fit = {i: i for i in range(len(rest))}
        else:
            fit = aligned(rest, labels, names.needs)
            self.note = f"{len(rest)} arguments for {len(names.needs)} goals"
        where = {}
        for i, arg in enumerate(rest):
            if i in fit:
                where[arg if arg in labels else i] = fit[i]
            elif arg in labels:
                self.left.append(f"no goal for {arg} ({labels[arg]})")
        renamed = {name: names.needs[where[name]][1] for name in labels if name in where}
        self.used_places, self.helpers = set(), {}
        # the invariants and what they cite
        for_loops = [x for x in args if x in invariants]
        for_measures = [x for x in args if x in measures]
        texts = {name: body for name, block, body in decls}
        cited, todo = set(), invariants + measures
        while todo:
            name = todo.pop()
            for other in texts:
                if other != name and other not in cited and other not in labels and re.search(r"(?<![\w.'-])" + re.escape(other) + r"(?![\w'-])", texts[name]):
                    cited.add(other)
                    todo.append(other)
        cited -= set(invariants) | set(measures)
        given, answers = [], []
        self.for_loops = for_loops
        self.loop_of = {x: names.of["loops"][k][0][1] for each in (for_loops, for_measures) for k, x in enumerate(each)}
        for name, block, body in decls:
            if name in for_loops:
                given.append(self.invariant(block, for_loops.index(name), "invariant"))
            elif name in for_measures:
                given.append(self.invariant(block, for_measures.index(name), "decreases"))
            elif name in cited:
                given.append(re.sub(r"(?m)^(?:pub )?(abbrev |unfoldable )?(?:pub )?(" + re.escape(name) + r" :)", r"\1pub \2", block, count=1))
            elif name in labels:
                if name in renamed:
                    answers.append(self.answer(name, block, where[name], renamed))
            else:
                answers.append(self.helper(block, renamed, invariants + measures))
        for i, arg in enumerate(rest):
            if arg.startswith("(") and i in where:
                text = self.inline(arg, where[i], renamed)
                if text:
                    answers.append(text)
            elif arg in texts and arg not in labels and i in where:
                # a helper that answers by itself, maybe more than one goal
                new, asked = names.needs[where[i]][1], names.asked[where[i]]
                place = self.helpers[arg][1] if arg in self.helpers else None
                here = place is None or place == names.place.get(plain(asked))
                self.used_places.add(place or "")
                answers.append(f"pub {new} : goal.{new}\n{new} c = {arg} " + ("c.before" if self.walks else "c" if here else f"(goal.at.{new} c).{place}"))
        answers = [x for x in answers if x]
        answers = answers if self.walks else self.lift([self.passed(x) for x in answers])
        self.finish(uses, given, answers, cited)

    def answer(self, name, block, j, renamed):
        new, place = self.names.needs[j][1], self.names.asked[j]
        lines = block.split("\n")
        comment = [x for x in lines if x.startswith("--")]
        body = "\n".join(x for x in lines if not x.startswith("--"))
        it = re.match(r"(?s)" + re.escape(name) + r" : [^\n]*\n((?:unfolding[^\n]*\n)?)" + re.escape(name) + r" (c|_)((?: [^\s=]+)*) =(.*)", body)
        if not it:
            self.left.append(f"an answer of another form: {name}")
            return block
        whole, extra, more = it[4], *self.parameters(new, it[3])
        if TRIVIAL.match(whole.strip()) and not it[1]:
            return None
        if extra and re.search(r"(?<![\w.])" + re.escape(extra) + r"(?![\w'])", whole):
            self.left.append(f"{name} uses {extra}")
        whole = self.paths(self.words(whole, {k: v for k, v in renamed.items() if k != name}), place, new)
        return "\n".join([*comment, f"pub {new} : goal.{new}", it[1] + f"{new} {it[2]}{more} ={whole}"])

    def parameters(self, goal, words):
        """The lifetimes that an older answer to what a call requires took, and the parameters behind them."""
        words = (words or "").split()
        lifetimes = words.pop(0) if words and (words[0] == "κs" or "requires" in goal) else ""
        return lifetimes, "".join(" " + x for x in words)

    def inline(self, arg, j, renamed):
        new, place = self.names.needs[j][1], self.names.asked[j]
        it = re.match(r"(?s)\(λ (c|_)((?: [^\s.]+)*)\.\s(.*)\)$", arg)
        if not it:
            self.left.append(f"an argument of another form: {arg[:40]}")
            return None
        if TRIVIAL.match(it[3].strip()) and not self.opens:
            return None
        extra, more = self.parameters(new, it[2])
        if extra and re.search(r"(?<![\w.])" + re.escape(extra) + r"(?![\w'])", it[3]):
            self.left.append(f"{new} uses {extra}")
        whole = self.paths(self.words(it[3], renamed), place, new)
        whole = whole.strip()
        return f"pub {new} : goal.{new}\n{self.opens}{new} {it[1]}{more} =" + ("\n    " if "\n" in whole else " ") + whole

    def helper(self, block, renamed, loops):
        text = self.words(block, renamed)
        # a helper whose record has no name in its type
        it = re.search(r"(?m)^((?:pub |abbrev |unfoldable )*(" + W + r") : )(tie\." + W + r"(?: " + W + r")*) → ((?:.*\n)*?)((?:unfolding.*\n)?)\2 (" + W + ")", text)
        if it:
            text = text[: it.start()] + f"{it[1]}({it[6]} : {it[3]}) → {it[4]}{it[5]}{it[2]} {it[6]}" + text[it.end() :]
        for it in list(re.finditer(r"\((" + W + r") : tie\.(" + W + r")((?: " + W + r")*)\)", text)):
            new = self.names.place.get(plain(it[2]))
            if not new:
                self.left.append(f"no place {it[2]}")
                continue
            if self.walks:
                loops = [f"goal.the-{'invariant' if x in self.for_loops else 'decreases'}-{self.loop_of[x]}" for x in it[3].split()]
                text = text.replace(it[0], f"({it[1]} : {' '.join([f'tie.{new}', *loops])})")
            else:
                self.used_places.add(new)
                text = text.replace(it[0], f"({it[1]} : {new})")
            old = next(x for x in self.names.parent if plain(x) == plain(it[2]))
            text = self.paths(text, old, None, it[1])
            self.helpers[re.search(r"(?m)^(?:pub |abbrev |unfoldable )*(" + W + r") :", text)[1]] = (it[1], new, text)
        return text

    def passed(self, text):
        """An answer that passes each helper the record that the helper takes."""
        it = re.search(r"(?m)^pub (" + W + r") : goal\.", text)
        if not it:
            return text
        asked = next((b for (a, b), (x, y) in zip(self.names.of["asked_at"], self.names.needs) if y == it[1]), None)
        for name, (root, place, _) in self.helpers.items():
            at = re.compile(r"(?<![\w.'-])" + re.escape(name) + r"((?: [^\s()]+| \((?!goal\.at)[^()]*\))*?) (\(goal\.at\." + re.escape(it[1]) + r" c\)\." + W + r"|c(?![\w.'-]))")
            own = "c" if asked == place else f"(goal.at.{it[1]} c).{place}"
            text = at.sub(lambda x: f"{name}{x[1]} {own}", text)
            if own != "c" and own in text:
                self.used_places.add(place)
        return text

    def variant(self, name, place, made):
        """The helper called name, of a record that stands behind its own: every path of it is one of that record too."""
        root, own, text = self.helpers[name]
        new = f"{name}_at_{place}" if own != place else name
        if own == place or new in made:
            return new
        text = text.replace(f"({root} : {own})", f"({root} : {place})")
        text = TOKEN.sub(lambda it: new if it[0] == name and not text[: it.start()].endswith(".") else it[0], text)
        made[new] = None
        made[new] = self.lifted(text, place, made, new)
        return new

    def lifted(self, text, place, made, name=""):
        """A helper's text, with the helpers that it calls written for its own place."""
        for other in sorted(self.helpers, key=len, reverse=True):
            at = re.compile(r"(?<![\w.'-])" + re.escape(other) + r"((?: (?!⟦)[^\s()]+| \([^()]*\))*?) (⟦" + W + r"⟧|c(?![\w.'-]))")
            if other != name:
                text = at.sub(lambda it: f"{self.variant(other, place, made)}{it[1]} {it[2].strip('⟦⟧')}" if it[2].startswith("⟦") or self.helpers[other][1] != place else it[0], text)
        return text

    def lift(self, answers):
        """Adds, before each helper that calls another at an earlier place, that one written for its own."""
        out, done = [], set()
        for text in answers:
            it = re.search(r"(?m)^(?:pub |abbrev |unfoldable )*(" + W + r") :", text)
            if it and it[1] in self.helpers:
                made = {}
                new = self.lifted(text, self.helpers[it[1]][1], made, it[1])
                for name, more in made.items():
                    if name not in done:
                        out.append(more)
                        done.add(name)
                text = new
                self.used_places.add(self.helpers[it[1]][1])
            if "⟦" in text:
                self.left.append("a helper goes up to another place")
            out.append(text)
        return out

    def finish(self, uses, given, answers, cited):
        if not self.walks and ("a helper goes up to another place" in self.left or any("tie." in x for x in given + answers)):
            self.left, self.walks = [], True
            return self.run()
        folder = os.path.dirname(self.path)
        kept = []
        for block in uses:
            for line in block.split("\n"):
                if line.startswith("--"):
                    kept.append(line)
                elif re.search(r"\.(Statement|Tie)(\.\{| as |$)", line):
                    continue
                else:
                    if re.search(r"\.(Lts|Reads|Kinds|Symbol|Code|TheLaws)\b", line):
                        self.left.append("imports " + line.split(".{")[0])
                    kept.append(line)
        comments = [x for x in kept if x.startswith("--")]
        kept = [x for x in kept if not x.startswith("--")]
        comments = [x for x in comments if "meets its contract." != x.split("` ")[-1] and x != "-- Assumes nothing."]
        comments = [re.sub(r"^-- `[^`]*` meets its contract\. ", "-- ", x) for x in comments]
        if given:
            body = "\n".join([*comments, *kept, f"use Rattle.{self.module}.Given as goal", ""]) + "\n" + "\n\n".join(given) + "\n"
            write(os.path.join(folder, "Invariants.antt"), body)
            comments = []
        if answers:
            lines = list(kept) + [f"use Rattle.{self.module}.Goals as goal"]
            if self.used_places:
                here = sorted(x for x in self.used_places if any(re.search(r"(: |\)\.)" + re.escape(x) + r"(?![\w-])", y) for y in answers))
                if here:
                    lines.append(f"use Rattle.{self.module}.Goals.{{{', '.join(here)}}}")
            if self.walks:
                lines.append(f"use Rattle.{self.module}.Tie as tie")
            if cited:
                lines.append(f"use Rattle.{self.module}.Invariants.{{{', '.join(sorted(cited))}}}")
            body = "\n".join([*comments, *lines, ""]) + "\n" + "\n\n".join(answers) + "\n"
            write(os.path.join(folder, "Answers.antt"), body)
        if self.left:
            os.rename(self.path, self.path + ".txt")
        else:
            os.remove(self.path)


class Part(Turn):
    """One function of a cycle, as if its part of tie.spec were the whole."""

    def __init__(self, path, names, module, text, left):
        self.path, self.names, self.module, self.left, self.text, self.note, self.walks = path, names, module, left, text, "", False

    def finish(self, uses, given, answers, cited):
        self.uses, self.given, self.answers, self.cited = uses, given, answers, cited


def cycle(path, names, module):
    """Turns the Proof.antt of functions that call each other, or of one that calls itself."""
    text, left, note = read(path), [], []
    specs = {it[1]: it.end() for it in re.finditer(r"(" + W + r")-lts\.spec \(\n[^()]*\)", text)}
    order = {it[1]: it[2] for it in re.finditer(r"use (?:" + W + r"\.)*Lts-(" + W + r") as (" + W + r")-lts\n", text)}
    given, answers, uses, places, measures = [], [], [], set(), []
    one = len(order) == 1
    for fn, alias in order.items():
        of = names[f"Rattle-{module.replace('.proofs.', '-proofs.', 1)}.Lts-{fn}"]
        prefix = "" if one else fn + "-"
        part = text[specs[alias] :]
        ends = re.search(r"\n\s*λ t\. " + W + r"-lts\.spec", part)
        part = part[: ends.start()].rstrip() if ends else part
        if ends:
            part = part[: part.rstrip().rfind(")")] if part.count("(") < part.count(")") else part
        part = re.sub(r"^\s*\(" + W + r"-at t\)\s+" + W + r"\.Post", "", part)
        # the measure is told apart from what is required
        part = re.sub(r"(?<![\w.'-])(c\d*(?:\.before)*)\.requires\.([01])(?!\d)", lambda it: it[1] + (".requires" if it[2] == "1" else ".decreases"), part)
        decls = []
        for block in blocks(text[: re.search(r"(?m)^pub \S+-spec : ", text).start()]):
            body = "\n".join(x for x in block.split("\n") if not x.startswith("--"))
            if body.startswith(("use ", "pub use ")):
                decls.append(block)
            elif re.match(r"abbrev " + re.escape(alias) + r"-(Inv|μ)-", body):
                decls.append(re.sub(r" : " + W + r"-lts\.", " : tie.", block, count=1))
            elif not re.match(r"(abbrev (μ-|" + W + r"-(at|below|Inv-|μ-))|pub \S+-spec : )", body):
                left.append("a declaration: " + body.split("\n")[0])
        it = re.search(r"(?m)^(μ-" + re.escape(alias) + r") κs a = (.*)", text)
        params = next((v for k, v in of["params"].items() if k.endswith("::" + fn)), None) or PARAMS[fn]
        whole = re.sub(r"\ba((?:\.1)*)\.0", lambda x: "l." + params[x[1].count("1")], it[2])
        measures.append(f"abbrev pub decreases-{fn} : goal.decreases-{fn}\ndecreases-{fn} l = {whole}")
        turn = Part(path, Names(of), module, "\n\n".join(["\n".join(x for x in decls if x.startswith("use"))] + [x for x in decls if not x.startswith("use")] + [f"pub {fn}-spec : x\n{fn}-spec = tie.spec {part}"]), left)
        turn.run()
        if turn.note:
            note.append(turn.note)
        uses = turn.uses
        for each in turn.given:
            given.append(re.sub(r"(?<![\w.'-])(goal\.)?(invariant|decreases)-loop-", lambda x: f"{x[1] or ''}{x[2]}-{prefix}loop-", each))
        for each in turn.answers:
            name = re.match(r"(?:--[^\n]*\n)*pub (" + W + ")", each)
            name = name[1] if name else "?"
            each = each.replace(f"pub {name} : goal.{name}", f"pub {prefix}{name} : goal.{prefix}{name}")
            each = re.sub(r"(?m)^" + re.escape(name) + r" (c|_) =", prefix + name + r" t \1 =", each)
            each = re.sub(r"\(goal\.at\.(" + W + r") c\)", lambda x: f"(goal.at.{prefix}{x[1]} t c)", each)
            for step, names_typed in typed_steps(of).items():
                each = each.replace(f"c.{step}.given", f"c.type_inv.{names_typed}")
            answers.append(each)
    folder = os.path.dirname(path)
    lines = [x for block in uses for x in block.split("\n") if not x.startswith("--") and not re.search(r"(\.Reads|\.Kinds|\.Lts-\S+) as |\.\{(statement|close|In)\}$|PlainCycle", x)]
    write(os.path.join(folder, "Invariants.antt"), "\n".join([*lines, f"use Rattle.{module}.Given as goal", ""]) + "\n" + "\n\n".join(measures + given) + "\n")
    if answers:
        write(os.path.join(folder, "Answers.antt"), "\n".join([*lines, f"use Rattle.{module}.Goals as goal", ""]) + "\n" + "\n\n".join(answers) + "\n")
    if left:
        os.rename(path, path + ".txt")
    else:
        os.remove(path)
    if left or note:
        print(f"left: {module}: {'; '.join(left)} {'; '.join(note)}")


def typed_steps(of):
    """For each step that says that a slice's elements fit, by today's name, the slice."""
    new = {it[2][0]: it[2][1] for it in of["places"]}
    return {new.get(step, step): name for at in of["typed"] for name, step in at}


def names_of(crate):
    with tempfile.TemporaryDirectory() as folder:
        said = subprocess.run(["rt", "check", "--generated", folder, "--old-names"], cwd=crate, capture_output=True, text=True)
        path = os.path.join(folder, "names.json")
        if not os.path.exists(path):
            sys.exit(said.stdout[-3000:] + said.stderr[-2000:])
        return json.loads(read(path))


def main():
    os.chdir(os.path.join(os.path.dirname(os.path.realpath(__file__)), ".."))
    crate, only = sys.argv[1], sys.argv[2:]
    names = names_of("crates/" + crate)
    LENT.update(lent())
    for of in names.values():
        if isinstance(of, dict):
            for each, params in of.get("params", {}).items():
                PARAMS[each.split("::")[-1]] = params
    for path in sorted(glob.glob(f"crates/{crate}/proofs/**/Proof.antt", recursive=True)):
        of = os.path.dirname(path)[len(f"crates/{crate}/proofs/") :].replace("/", ".")
        if only and of not in only:
            continue
        key = f"Rattle-{crate}-proofs.{of}.Lts"
        if "+" in of and key not in names:
            cycle(path, names, f"{crate}.proofs.{of}")
            continue
        if key not in names:
            print(f"left: {of}: no names ({'a cycle' if '+' in of else 'no function'})")
            continue
        turn = Turn(path, Names(names[key]), f"{crate}.proofs.{of}")
        try:
            turn.run()
        except Exception as error:
            turn.left.append(f"failed: {error!r}")
        if turn.left or turn.note:
            print(f"left: {of}: {'; '.join(turn.left)} {turn.note}")


if __name__ == "__main__":
    main()
