#!/usr/bin/env python3
"""How many parameters the functions in crates/*/src take: how many functions there are, how many take eight or more and six or more,
how many take an entry table's columns `kinds` and `a`, and how many a proof's columns `rules` and `links`. With --list, the functions of
six or more."""
import glob
import os
import re
import sys

os.chdir(os.path.join(os.path.dirname(os.path.abspath(__file__)), ".."))
FUNCTION = re.compile(r"fn (\w+)(?:<[^>]*>)?\(((?:[^()]|\([^()]*\))*)\)")
found = []
for path in sorted(glob.glob("crates/*/src/**/*.rt", recursive=True)):
    for match in FUNCTION.finditer(open(path, encoding="utf-8").read()):
        text = re.sub(r"\s+", " ", match.group(2))
        count = sum(":" in part or "self" in part for part in text.split(","))
        found.append((count, path, match.group(1), text))

print("functions", len(found))
print("eight or more", sum(count >= 8 for count, *_ in found))
print("six or more", sum(count >= 6 for count, *_ in found))
print("kinds and a", sum("kinds:" in text and re.search(r"\ba:", text) is not None for *_, text in found))
print("rules and links", sum("rules:" in text and "links:" in text for *_, text in found))
if "--list" in sys.argv:
    for count, path, name, _ in sorted(found, reverse=True):
        if count >= 6:
            print(count, path, name)
