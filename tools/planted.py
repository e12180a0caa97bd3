#!/usr/bin/env python3
"""Prints docs/PLANTED-BUGS.md: each must-fail edit, what it turns, and the fact that refused it.

    python3 tools/planted.py > docs/PLANTED-BUGS.md        from the repository's root; runs `rt must-fail` in each crate
"""
import pathlib
import re
import subprocess

HEAD = """# Planted bugs

Each row is an edit of `crates/NAME/must-fail`: wrong code of a kind that a tired programmer writes, which the check has to refuse. The last column is the fact that failed: the place of the code or of the proof, and the goal, by the checker's names (`returns` is what a function ensures where it returns, `returns-clause-X` its clause X, `loop-X-preserved` a loop's invariant, `invariant_of-X` what always holds of a value). Written by `tools/planted.py`.
"""


def turned(path):
    pairs = re.findall(r"^old: (.*)\nnew: (.*)$", path.read_text(), re.M)
    return "; ".join(f"`{old.strip()}` → `{new.strip()}`" for old, new in pairs).replace("|", "\\|")


def fact(line):
    place = re.search(r"(?:note: |: )\.?/?((?:src|proofs)/[^:]*)", line)
    goal = re.search(r"\(`([\w'+.-]+)`\)", line) or re.search(r"error: `([\w'+.-]+)`", line)
    where = place.group(1).replace("/Answers.antt", "") if place else ""
    return f"{where}: `{goal.group(1)}`" if goal else where


print(HEAD)
for crate in [line.split(":")[0] for line in open("crates.txt") if ":" in line and not line.startswith("#")]:
    edits = sorted(pathlib.Path("crates", crate, "must-fail").glob("*.edit"))
    if not edits:
        continue
    told = subprocess.run(["rt", "must-fail", crate], capture_output=True, text=True)
    lines = {m.group(1): m.group(2) for m in re.finditer(r"must-fail " + crate + r"/(\S+)\.edit: refused, as it must be(.*)", told.stdout + told.stderr)}
    print(f"## {crate}\n\n| edit | what is turned | refused by |\n|---|---|---|")
    for edit in edits:
        said = lines.get(edit.stem)
        print(f"| {edit.stem} | {turned(edit)} | {fact(said) if said else 'NOT REFUSED'} |")
    print()
