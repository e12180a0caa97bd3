#!/usr/bin/env python3
"""Respells this repository's own definitions, lemmas and record fields: words in snake case, types in camel case.

usage: python3 tools/respell.py        at the top of the repository, once, after the kit's own script

A name is one of ours where specs/ or proofs/ declares it at a line's beginning, or as a field of a record.
The goals of answer files keep their names, as do functions, strings and everything below must-fail/.
"""
import glob
import os
import re

DECLARED = re.compile(r"^(\s*)((?:pub |abbrev |unfoldable |data |record )*)([^\s:(){}=;,.\[\]⌜⌝]+)(?=\s*(?::|\(|\{|where))")
GOAL = re.compile(r"^\s*(?:abbrev )?(?:pub )?\S+ : (?:goal|need|given)\.")
TOKEN = re.compile(r"[^\s:(){}=;,.\[\]⌜⌝`«»|↦\\\"]+")

# names that would fall together with another one
OTHER = {}


def texts():
    return sorted(glob.glob("crates/*/specs/**/*.antt", recursive=True) + glob.glob("crates/*/proofs/**/*.antt", recursive=True))


def new_name(old):
    if old in OTHER:
        return OTHER[old]
    if old[0].isupper():
        return "".join(w[:1].upper() + w[1:] for w in re.split("[-_]", old))
    return re.sub("(?<=[a-z])[A-Z]", lambda m: "_" + m.group(0).lower(), old).replace("-", "_")


def declared(path):
    answers = os.path.basename(path) in ("Answers.antt", "Invariants.antt", "Choices.antt")
    with open(path, encoding="utf-8") as f:
        for line in f:
            if line.lstrip().startswith(("use ", "--", "module", "let ", "[", "|")):
                continue
            m = DECLARED.match(line)
            if not m or (answers and GOAL.search(line)):
                continue
            if m.group(1) and "pub" not in m.group(2) and not re.search(r"^\s*\S+ :", line):
                continue
            name = m.group(3)
            if "-" in name[1:-1] or (name[0].isupper() and "_" in name) or re.search("^[a-z]+[A-Z]", name):
                yield name


def main():
    names = {}
    for p in texts():
        for n in declared(p):
            names[n] = new_name(n)
    seen = set()
    every = texts() + sorted(glob.glob("crates/*/src/**/*.rt", recursive=True))
    for p in every:
        with open(p, encoding="utf-8") as f:
            seen |= set(TOKEN.findall(f.read()))
    clash = sorted(n for n, to in names.items() if to in seen and n not in OTHER)
    back = {}
    for n, to in names.items():
        back.setdefault(to, []).append(n)
    for to, ns in sorted(back.items()):
        if len(ns) > 1:
            print("fall together:", to, ns)
    for n in clash:
        print("taken:", n, "->", names[n])
    for p in every:
        with open(p, encoding="utf-8") as f:
            text = f.read()
        if p.endswith(".rt"):
            lines = text.split("\n")
            out = [TOKEN.sub(lambda m: names.get(m.group(0), m.group(0)), l) for l in lines]
            new = "\n".join(out)
        else:
            new = TOKEN.sub(lambda m: names.get(m.group(0), m.group(0)), text)
        if new != text:
            with open(p, "w", encoding="utf-8") as f:
                f.write(new)
    print(len(names), "names respelled")


if __name__ == "__main__":
    main()
