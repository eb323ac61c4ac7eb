#!/usr/bin/env python3
"""Turns a function's proof of the older form, Proof.antt over `tie`, into Invariants.antt and Answers.antt.

usage: tools/answers_from_proofs.py NAMES CRATE..

NAMES is the folder that `rt names NAMES` wrote at the top of this repository: for each crate the old and the new name of each goal, step and place.
Goals that the search proves by itself are left out. What a text cannot tell is marked `-- LEFT`: look for it before the check.
"""

import json
import os
import re
import sys

NAME = r"[^\W\d][\w'₀₁₂₃-]*"


def plain(name):
    return name.replace("_", "-")


class Function:
    def __init__(self, listed):
        self.needs = listed["needs"]
        self.asked = listed["asked_at"]
        self.parent, self.steps_at, self.new_place, self.old_place = {}, {}, {}, {}
        for (old, parent, step, *_), new in zip(listed["places"], listed["places_by_name"]):
            self.parent[plain(old)] = plain(parent) if parent else None
            self.steps_at[plain(old)] = step
            self.new_place[plain(old)] = new
        self.callee = {}
        for old, parent, step, callee, *_ in listed["places"]:
            if callee:
                self.callee[step[1]] = callee
        self.steps = {}
        for old, new in self.steps_at.values():
            if old:
                self.steps.setdefault(plain(old), new)
        self.loops = listed["loops"]
        self.loop_names = {plain(old): new for (old, new), _ in self.loops}
        self.by_plain = {}
        for i, (old, new) in enumerate(self.needs):
            self.by_plain.setdefault(plain(old), i)


def clause_names():
    """For each function, by its path in the code: the names of its requires and of its ensures, where they have names."""
    found = {}
    for crate in os.listdir("crates"):
        src = os.path.join("crates", crate, "src")
        for at, _, files in os.walk(src):
            for file in files:
                if not file.endswith(".rt"):
                    continue
                inner = os.path.relpath(os.path.join(at, file), src)[:-3].replace("/", "::")
                path = crate if inner in ("lib", "main") else f"{crate}::{inner}"
                with open(os.path.join(at, file), encoding="utf-8") as f:
                    lines = f.read().split("\n")
                fn, block = None, ""
                for line in lines:
                    m = re.match(r"impl (\w+)", line)
                    if m:
                        block = m[1] + "::"
                    if line.startswith("}"):
                        block = "" if block and not fn else block
                    m = re.match(r"\s*(?:pub )?(?:unsafe )?(?:extern \"C\" )?fn (\w+)", line)
                    if m:
                        indented = line.startswith(" ")
                        fn = f"{path}::{block if indented else ''}{m[1]}"
                        found[fn] = {"requires": [], "ensures": []}
                    m = re.match(r"\s+(requires|ensures) (\w+) \{", line)
                    if m and fn:
                        found[fn][m[1]].append(m[2])
    return found


def parts(text):
    """The parts of a tuple in parentheses at the end of the text, with what stands before it, or None."""
    t = text.rstrip()
    if not t.endswith(")"):
        return None
    depth, i = 0, len(t) - 1
    while i >= 0:
        depth += (t[i] in ")}]") - (t[i] in "({[")
        if depth == 0:
            break
        i -= 1
    before, inner = t[:i], t[i + 1 : -1]
    if before.strip() and not re.search(r"( in|\)|[\w'] )\s*$", before.rstrip() + " "):
        return None
    out, depth, start = [], 0, 0
    for k, ch in enumerate(inner):
        depth += (ch in "({[") - (ch in ")}]")
        if ch == "," and depth == 0:
            out.append(inner[start:k])
            start = k + 1
    if inner[start:].strip():
        out.append(inner[start:])
    return before, [o.strip() for o in out]


def by_names(text, names):
    """A tuple at the end of the text, as the record of the clauses."""
    if len(names) < 2:
        return text
    found = parts(text)
    if not found:
        return text
    before, values = found
    if len(values) == 2 and len(names) > 2:
        rest = parts(values[1])
        if rest and not rest[0].strip():
            values = [values[0], *rest[1]]
    if len(values) != len(names) or re.search(r"omega\s*$|search\s*$|grind\s*$|rw\s*$|simp\s*$|cc\s*$", before):
        return text
    fields = "; ".join(f"{n} = {v}" for n, v in zip(names, values))
    return f"{before}record {{ {fields} }}"


def blocks(text):
    """The declarations, each with its comments and its lines; the head of the file first."""
    out, now = [], []
    for line in text.split("\n"):
        if line.strip() == "" :
            if now:
                out.append("\n".join(now))
                now = []
            continue
        now.append(line)
    if now:
        out.append("\n".join(now))
    # a declaration may hold empty lines, as in a `where`: such a part begins with a space
    joined = []
    for b in out:
        if joined and b.startswith(" "):
            joined[-1] += "\n\n" + b
        else:
            joined.append(b)
    return joined


def head_of(block):
    for line in block.split("\n"):
        if not line.startswith("--"):
            return line
    return ""


def strip_chain(text):
    return re.sub(r"(?<=[\w'₀₁₂])((?:\.before)+)(?=\.)", "", text)


def convert(function, text, crate, name, clauses):
    own = f"{crate}::{name.replace('/', '::').replace('+', '')}"
    bs = blocks(text)
    uses, rest, comments = [], [], []
    for b in bs:
        keep = []
        for line in b.split("\n"):
            if re.match(r"use ", line):
                uses.append(line)
            else:
                keep.append(line)
        if keep:
            b = "\n".join(keep)
            if all(l.startswith("--") for l in keep):
                comments.append(b)
            else:
                rest.append(b)
    uses = [u for u in uses if not re.search(r"\.proofs\.\S*\.(Statement|Tie|Reads|Lts)\b", u)]
    order = []
    m = re.search(r"tie\.spec((?:\s+[^\s()]+)+)\)", text)
    if m:
        order = [n for n in m[1].split() if not n.startswith(("invariant", "decreases"))]

    # `start c = c.before.before`: from a place to one before it, which needs no name now
    steps_back = []
    for b in list(rest):
        h = head_of(b)
        m = re.match(r"(?:abbrev )?(" + NAME + r") : (?:\(\w+ : )?tie\.[^→]*→ tie\.", h)
        if m and re.search(r"(?m)^" + re.escape(m[1]) + r" (\w+) = \1(\.before)+\s*$", b):
            steps_back.append(m[1])
            rest.remove(b)
    if steps_back:
        word = "|".join(map(re.escape, steps_back))
        for _ in range(4):
            rest = [re.sub(r"\((?:" + word + r") (\w+)\)", r"\1", b) for b in rest]
            rest = [re.sub(r"(?<![\w.'-])(?:" + word + r") (\w+)(?![\w'.])", r"\1", b) for b in rest]
    # lemmas over a place: name -> plain old place
    over = {}
    for b in rest:
        h = head_of(b)
        m = re.match(r"(?:pub )?(" + NAME + r") : (.*)", h, re.S)
        if m and not re.match(r"tie\.", m[2]):
            sig = b[b.index(h):]
            t = re.search(r"\((\w+) : tie\.([\w-]+)", sig)
            if t:
                over[m[1]] = (t[1], t[2])
    left = []

    def step_of(place, n, step):
        p = plain(place) if place else None
        for _ in range(n):
            p = function.parent.get(p) if p else None
        if p and p in function.steps_at and plain(function.steps_at[p][0]) == plain(step):
            return function.steps_at[p][1]
        if plain(step) in function.steps:
            return function.steps[plain(step)]
        # a step that has a definition's words got the definition's new ending
        short = re.sub(r"_(lem|law)$", "", step)
        if plain(short) in function.steps:
            return function.steps[plain(short)]
        counted = re.sub(r"_(lem|law)(?=\d+$)", "", step)
        if plain(counted) in function.steps:
            return function.steps[plain(counted)]
        return step

    def at_place(place, n):
        p = plain(place) if place else None
        for _ in range(n):
            p = function.parent.get(p) if p else None
        return p

    def body(text, place, goal, root="c"):
        """The term, with paths through places made short."""
        alias = {root: 0}
        # let s = c.before.before in: a place by another name
        changed = True
        while changed:
            changed = False
            for m in re.finditer(r"let (\w+) = (\w+)((?:\.before)*) in *\n? *", text):
                if m[2] in alias and m[1] not in alias:
                    alias[m[1]] = alias[m[2]] + m[3].count(".before")
                    text = text[: m.start()] + text[m.end():]
                    changed = True
                    break
        names = "|".join(sorted(map(re.escape, alias), key=len, reverse=True))

        def path(m):
            n = alias[m[1]] + m[2].count(".before")
            step = m[3]
            if step is None:
                if n == 0 and m[1] == root:
                    return root
                p = at_place(place, n)
                new = function.new_place.get(p, "?" + str(p))
                if goal:
                    return f"(goal.at.{goal} {root}).{new}"
                return f"{root}{'.before' * n}{{-LEFT {new}-}}"
            step = step[1:]
            return f"{root}.{step_of(place, n, step)}"

        out = re.sub(r"(?<![\w.'-])(" + names + r")((?:\.before)*)(\.(?!before\b)[\w'-]+)?(?![\w'-])", path, text)
        out = re.sub(r"\{-LEFT ([^}]*)-\}", r"-LEFT-\1", out)
        # a test of `!b` says what b is
        out = re.sub(r"\bnot[-_](?:true|false) _ (c\.if-not-[\w'-]+\.(?:true|false))", r"«\1»", out)
        out = re.sub(r"(?<![«\w.])(c\.if-not-[\w'-]+\.(?:true|false))", r"(ap not \1)", out).replace("«", "").replace("»", "")
        mine = clauses.get(own, {"requires": [], "ensures": []})
        for path, names in [(root + ".requires", mine["requires"])] + [
            (f"{root}.{step}.ensures", clauses.get(callee, {"ensures": []})["ensures"]) for step, callee in function.callee.items()
        ]:
            if len(names) < 2:
                continue
            aliases = [path] + re.findall(r"let (\w+) = " + re.escape(path) + r" in", out)
            for a in aliases:
                head = r"(?<![\w.'-])" + re.escape(a)
                if len(names) > 2:
                    out = re.sub(head + r"((?:\.1)*)\.0(?![\w])", lambda m: f"{a}.{names[m[1].count('.1')]}" if m[1].count(".1") < len(names) else m[0], out)
                    last = ".1" * (len(names) - 1)
                    out = re.sub(head + re.escape(last) + r"(?![\w.])", f"{a}.{names[-1]}", out)
                out = re.sub(head + r"\.(\d)(?![\w])", lambda m: f"{a}.{names[int(m[1])]}" if int(m[1]) < len(names) else m[0], out)
        return out

    answers, invariants, helpers, places = [], [], [], set()
    for b in rest:
        h = head_of(b)
        if re.match(r"(pub )?\S+[-_]spec : ", h):
            continue
        m = re.match(r"(abbrev )?(pub )?(invariant|decreases)-(loop\S*) : tie\.", h)
        if m:
            kind, loop = m[3], m[4]
            new = function.loop_names.get(plain(loop), loop)
            lines = b.split("\n")
            at = next(i for i, l in enumerate(lines) if re.match(rf"{kind}-{re.escape(loop)} ", l) and " = " in l + " " and not " : " in l.split("=")[0])
            term = "\n".join(lines[at:])
            lhs, rhs = term.split("=", 1)
            params = lhs.split()[1:]

            def live(w):
                it = w[0]
                if it not in params or it == "_":
                    return it
                return f"l.initial.{it[:-1]}" if it.endswith("₀") else f"l.{it}"

            bound = set(re.findall(r"λ ([^.]*)\.", rhs)) | {n for m2 in re.findall(r"\((\w+(?: \w+)*) : ", rhs) for n in m2.split()}
            if any(n in params for it in bound for n in it.split()):
                rhs = "{- LEFT: a bound name -}" + rhs
            rhs = re.sub(r"(?<![\w.'])" + r"[^\W\d][\w'₀₁₂]*" + r"(?![\w'])(?! = )", live, rhs)
            note = [l for l in lines[:at] if l.startswith("--")]
            invariants.append("\n".join(note + [f"abbrev pub {kind}-{new} : goal.{kind}-{new}", f"{kind}-{new} l ={rhs}"]))
            continue
        m = re.match(r"(" + NAME + r") : tie\.Need-(\S+)", h)
        if m:
            old = m[1]
            i = function.by_plain.get(plain(old))
            if i is None and plain(m[2]) in function.by_plain:
                i = function.by_plain[plain(m[2])]
            if i is None and old in order and len(order) == len(function.needs):
                i = order.index(old)
            lines = b.split("\n")
            note = [l for l in lines if l.startswith("--")]
            at = next((k for k, l in enumerate(lines) if re.match(re.escape(old) + r"( |$)", l) and not re.match(re.escape(old) + r" :", l)), None)
            middle = [l for l in lines[1:at] if l.startswith("unfolding")]
            term = "\n".join(lines[at:])
            k = re.match(re.escape(old) + r"((?: [^=\s]+)*) =", term)
            if re.fullmatch(re.escape(old) + r"( \S+)* = search (needs|rules)", term.strip()):
                continue
            if i is None:
                left.append(old)
                answers.append("\n".join(["-- LEFT: no goal of that name", *("-- " + l for l in lines)]))
                continue
            new = function.needs[i][1]
            place = function.asked[i][0]
            params = k[1].split() if k else ["c"]
            root = params[0] if params else "c"
            shown = [p for p in params if p != "κs"]
            rhs = term[k.end():] if k else term
            rhs = body(rhs, place, new, root)
            if rhs.strip() == "tt":
                continue
            if new.startswith("returns"):
                rhs = by_names(rhs, clauses.get(own, {}).get("ensures", []))
            elif "-requires" in new:
                called = new.split("-requires")[0]
                for step, callee in function.callee.items():
                    if step == called or step.startswith(called):
                        rhs = by_names(rhs, clauses.get(callee, {}).get("requires", []))
                        break
            answers.append("\n".join(note + [f"pub {new} : goal.{new}", *middle, f"{new} {' '.join(shown)} ={rhs}"]))
            continue
        # a lemma of its own
        name_m = re.match(r"(?:abbrev )?(?:pub )?(" + NAME + r") :", h)
        if name_m and name_m[1] in over:
            root, place = over[name_m[1]]
            new = function.new_place.get(plain(place), "?" + place)
            b = re.sub(r"\((\w+) : tie\.[\w-]+[^)]*\)", lambda t: f"({t[1]} : {new})", b, count=1)
            places.add(new)
            b = body(b, place, None, root)
        helpers.append(b)
    text_out = {}
    for b in list(helpers):
        m = re.match(r"(?:abbrev )?(?:pub )?(" + NAME + r") :", head_of(b))
        if m and "-" in m[1]:
            old, new = m[1], m[1].replace("-", "_")
            if not any(re.search(r"(?<![\w'-])" + re.escape(new) + r"(?![\w'-])", t) for t in helpers + answers + uses):
                turn = lambda t: re.sub(r"(?<![\w.'-])" + re.escape(old) + r"(?![\w'-])", new, t)
                helpers, answers, invariants = [turn(t) for t in helpers], [turn(t) for t in answers], [turn(t) for t in invariants]
    goal_use = f"use Rattle.{crate}.proofs.{name.replace('/', '.')}.Goals as goal"
    if places:
        goal_use += f"\nuse Rattle.{crate}.proofs.{name.replace('/', '.')}.Goals.{{{', '.join(sorted(places))}}}"
    given_use = f"use Rattle.{crate}.proofs.{name.replace('/', '.')}.Given as goal"
    if any("(ap not c." in t for t in helpers + answers):
        known = " ".join(uses)
        for word, module in (("ap", "Rattle.std.proofs.Common"), ("not", "Rattle.std.specs.Prelude")):
            if not re.search(r"[{ ]" + word + r"[,}]", known):
                uses.append(f"use {module}.{{{word}}}")
    if invariants:
        text_out["Invariants.antt"] = "\n".join([*comments, *uses, given_use]) + "\n\n" + "\n\n".join(invariants) + "\n"
    if answers:
        parts = []
        text_out["Answers.antt"] = "\n".join([*([] if invariants else comments), *uses, goal_use]) + "\n\n" + "\n\n".join(helpers + answers) + "\n"
    elif helpers and not invariants:
        left.append("helpers alone")
    return text_out, left


def main(argv):
    names, crates = argv[0], argv[1:]
    clauses = clause_names()
    for crate in crates:
        folder = os.path.join("crates", crate, "proofs")
        with open(os.path.join(names, "crates", crate, "names.json"), encoding="utf-8") as f:
            listed = json.load(f)
        for at, dirs, files in sorted(os.walk(folder)):
            if "Proof.antt" not in files:
                continue
            name = os.path.relpath(at, folder)
            key = f"Rattle-{crate}-proofs.{name.replace('/', '.')}.Lts"
            if key not in listed:
                print(f"{crate}/{name}: no names listed")
                continue
            with open(os.path.join(at, "Proof.antt"), encoding="utf-8") as f:
                text = f.read()
            if "tie." not in text:
                print(f"{crate}/{name}: a walk by hand, left")
                continue
            try:
                out, left = convert(Function(listed[key]), text, crate, name, clauses)
            except Exception as e:  # a form that the text alone does not show
                print(f"{crate}/{name}: not converted: {e!r}")
                continue
            os.remove(os.path.join(at, "Proof.antt"))
            for file, new in out.items():
                with open(os.path.join(at, file), "w", encoding="utf-8") as f:
                    f.write(new)
            if not out:
                os.rmdir(at)
            marks = sum(t.count("LEFT") for t in out.values())
            print(f"{crate}/{name}: {', '.join(out) or 'no file'}" + (f"; left {left}" if left else "") + (f"; {marks} marks" if marks else ""))


if __name__ == "__main__":
    main(sys.argv[1:])
