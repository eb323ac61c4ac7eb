#!/usr/bin/env python3
"""Spells this repository's own definitions and lemmas as the kit does: in snake case, with no dash and no capital inside a word.

usage: tools/snake_names.py [--check] [FOLDER]

FOLDER (this repository, if none is given) has crates/. Every name of specs/ and of the lemma files of proofs/ that the kit's own library does not
have is respelled, there, in the clauses of src/, in the proofs of functions and in the must-fail edits: `valuesFrom` and `values-from` become
`values_from`. Types and facts keep their capital, as do names of the kit and those that the check makes. A name that would fall together with
another one of a file that has it, as a definition with the function that answers by it, ends in `_lem`, and is told. --check only tells. Run it once, right after the kit's port.py; a second run changes nothing.
"""

import collections
import os
import re
import subprocess
import sys

NAME = r"[^\W\d][\w'′-]*(?:[^\s(){}\[\].;,@\"«»|λ←:=+*/<>&^%≡≤∷×→⊎⊥∙◌-][\w'′-]*)*"
TOKEN = re.compile(r"--[^\n]*|\"(?:[^\"\\]|\\.)*\"|" + NAME)
COMMENT = re.compile(r"\s--")


def kit():
    page = subprocess.run(["rt", "doc"], capture_output=True, text=True, check=True).stdout.strip()
    return os.path.join(os.path.dirname(page), "rattle")


def read(path):
    with open(path, encoding="utf-8") as f:
        return f.read()


def files(top, *endings):
    for folder, dirs, names in os.walk(top):
        # what rt made lies in a crate's own out/; a function's proof may lie in a folder of that name too
        dirs[:] = sorted(d for d in dirs if d != "out" or "proofs" in folder.split(os.sep))
        for name in sorted(names):
            if name.endswith(endings):
                yield os.path.join(folder, name)


def tokens(text):
    for m in TOKEN.finditer(text):
        if m[0][0] not in '-"':
            yield m


def snake(name):
    """The name in snake case. A capital letter that begins the name, or a part of it, says that it is a type's or a fact's, and stays."""
    if name[0].isupper():
        return name
    name = re.sub(r"(?<=[a-z0-9])([A-Z])(?=[a-z0-9]|$|['′-])", lambda m: "_" + m[1].lower(), name)
    return name.replace("-", "_")


def is_lemma_file(path):
    """Whether a file of antt is one of specs/, or of lemmas beside the folders of functions in proofs/."""
    parts = path.split(os.sep)
    if "specs" in parts:
        return True
    at = len(parts) - 1 - parts[::-1].index("proofs")
    return at == len(parts) - 2


def main(argv):
    only_told = "--check" in argv
    argv = [a for a in argv if a != "--check"]
    top = argv[0] if argv else os.path.dirname(os.path.dirname(os.path.realpath(__file__)))
    crates = os.path.join(top, "crates")
    of_kit = set()
    for path in files(kit(), ".antt"):
        of_kit |= {m[0] for m in tokens(read(path))}
    lemma_files = [p for p in files(crates, ".antt") if is_lemma_file(p)]
    proof_files = [p for p in files(crates, ".antt") if not is_lemma_file(p)]
    others = list(files(crates, ".rt", ".edit"))
    own, declared, fields = set(), set(), set()
    for path in lemma_files:
        text = read(path)
        own |= {m[0] for m in tokens(text)}
        for m in re.finditer(r"(?m)^ *(?:abbrev |unfoldable )*(?:pub )?(" + NAME + r") :(?: |$)", text):
            declared.add(m[1])
        for m in re.finditer(r"(?m)^ +(?:pub )?(" + NAME + r") :(?: |$)", text):
            fields.add(m[1])
    wanted = {n: snake(n) for n in own if snake(n) != n and n not in of_kit}
    turned = {}

    # In which files a name stands, so that two names that would become one are found where both are known.
    stands = collections.defaultdict(set)
    for path in lemma_files + proof_files + others:
        for m in tokens(read(path)):
            stands[m[0]].add(path)
    sources = collections.defaultdict(set)
    for n, to in wanted.items():
        sources[to].add(n)
    apart = 0
    for to, names in sorted(sources.items()):
        # A name with a capital is a definition's, and has the first choice; one with a dash is a lemma's.
        for n in sorted(names, key=lambda n: ("-" in n, n)):
            for ending in ("", "_lem", "_law", "_too"):
                others_of = [m for m in stands if turned.get(m, m) == to + ending and m != n] if ending else [m for m in names if m != n and turned.get(m) == to] + [to] * (to in stands)
                if not any(stands[n] & stands[m] for m in others_of):
                    break
            turned[n] = to + ending
            if ending:
                apart += 1
                print(f"apart: {n} is {to + ending}, beside another {to}")

    changed = 0
    for path in lemma_files + proof_files + others:
        text = read(path)
        in_proof = path in set(proof_files)

        def put(m):
            if m[0][0] in '-"':
                return m[0]
            if m[0] not in turned:
                return m[0]
            before = text[: m.start()][-1:]
            if in_proof and before == "." and m[0] not in fields:
                return m[0]
            if in_proof and before != "." and m[0] not in declared:
                return m[0]
            return turned[m[0]]

        new = TOKEN.sub(put, text) if not path.endswith(".rt") else turn_rt(text, turned)
        if new != text:
            changed += 1
            if not only_told:
                with open(path, "w", encoding="utf-8") as f:
                    f.write(new)
    print(f"{len(turned)} names, {changed} files, {apart} apart")


def turn_rt(text, turned):
    """Ghost imports and clauses; code keeps its spelling, since no name of code has a capital inside or a dash."""
    out, clause = [], 0
    for line in text.split("\n"):
        is_comment = line.lstrip().startswith("//")
        if not is_comment:
            line = re.sub(NAME, lambda m: turned.get(m[0], m[0]) if re.search(r"[a-z0-9][A-Z]|-", m[0]) else m[0], line)
        out.append(line)
    return "\n".join(out)


if __name__ == "__main__":
    main(sys.argv[1:])
