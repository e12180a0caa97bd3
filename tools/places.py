#!/usr/bin/env python3
"""Lists the places in crates/*/src that a newer form of the language might serve better, point by point.

    python3 tools/places.py [POINT ..]        from the repository's root

A row is a place to look at, not a verdict. Points: option, twins, loops, byhand, facts, buffers, switches, proofs.
"""
import collections
import pathlib
import re
import sys

SOURCES = sorted(pathlib.Path("crates").glob("*/src/*.rt"))


def lines():
    for path in SOURCES:
        for n, line in enumerate(path.read_text().splitlines(), 1):
            yield path, n, line


def grep(pattern):
    return [f"{p}:{n}: {line.strip()}" for p, n, line in lines()
            if re.search(pattern, line) and not line.lstrip().startswith("//")]


def functions():
    """Each function: (path, line, name, signature with clauses, body)."""
    for path in SOURCES:
        text = path.read_text()
        for m in re.finditer(r"^( *)(?:pub(?:\(crate\))? )?(?:const )?(?:final )?fn (\w+)", text, re.M):
            indent = m.group(1)
            rest = text[m.start():]
            one = re.match(r".*?\)[^{}\n]*\{\}\n", rest.split("\n")[0] + "\n")
            open_ = re.search(r"^" + indent + r"\{$|^.*\S \{$", rest, re.M)
            close = re.search(r"^" + indent + r"\}$", rest, re.M)
            if one or not open_ or not close:
                continue
            head, body = rest[: open_.end() - 1], rest[open_.end(): close.start()]
            yield path, text[: m.start()].count("\n") + 1, m.group(2), head, body


KEEP = {"for", "in", "if", "else", "match", "let", "mut", "return", "while", "loop", "as", "self", "Some", "None",
        "Ok", "Err", "true", "false", "push_reserved", "iter", "enumerate", "len"}


def shape(body):
    words = re.findall(r"[A-Za-z_]\w*|\d[\d_]*|b?'.'|\"[^\"]*\"|\S", re.sub(r"//.*", "", body))
    return tuple(w if w in KEEP or not re.match(r"[A-Za-z_\d'\"b]", w) else "x" for w in words)


def option():
    out = grep(r"^\s+(pub(\(crate\))? )?\w+: bool,")
    out += grep(r"Option<Fault>")
    out += [f"{p}:{n}: fn {f}: a bool beside a change" for p, n, f, head, _ in functions()
            if "&mut" in head and re.search(r"\) -> bool", head)]
    out += grep(r"letter: char|pub number: u16|-> char|fn number\(answer|fn figures\b.*\[|const \w+: Row = |Refused\(u16|-> u16$")
    for path in SOURCES:
        for m in re.finditer(r"^(?:pub(?:\(crate\))? )?enum (\w+).*?\{(.*?)^\}", path.read_text(), re.M | re.S):
            body = re.sub(r"//.*", "", m.group(2))
            variants = re.findall(r"^    (\w+)(.*)", body, re.M)
            plain = [v for v, rest in variants if rest.strip() == ","]
            if len(variants) <= 3 and len(plain) < len(variants) and plain:
                out.append(f"{path}: enum {m.group(1)}: of the shape of an Option or a Result")
    return out


# names that a trait, or each layer, has in common
METHODS = {"main", "run", "reply", "Fault", "transfer", "balance", "weight", "fmt", "from", "try_from", "refusal"}


def twins():
    groups = collections.defaultdict(list)
    for p, n, f, _, body in functions():
        s = shape(body)
        if len(s) >= 8:
            groups[s].append(f"{p}:{n} {f}")
    out = ["; ".join(g) for g in groups.values() if len(g) > 1]
    names = collections.defaultdict(set)
    for path in SOURCES:
        for m in re.finditer(r"^(?:pub(?:\(crate\))? )?(?:struct|enum|const|fn) (?!fn\b)(\w+)", path.read_text(), re.M):
            names[m.group(1)].add(str(path))
    out += [f"one name in two crates: {k}: {', '.join(sorted(v))}" for k, v in sorted(names.items())
            if len({x.split('/')[1] for x in v}) > 1 and k not in METHODS]
    return out


def loops():
    return grep(r"\.enumerate\(\)|\bwhile \b|\bloop \{|for \w+ in \d+\.\.|\b\w+ \+= 1;")


def byhand():
    out = [f"{p}:{n}: fn {f}: a table from variants to literals" for p, n, f, _, body in functions()
           if len(re.findall(r"=>\s*(?:\(?[\d'\"]|\"|Some\(|\[)", body)) >= 2]
    out += [f"{p}:{n}: fn {f}: compares" for p, n, f, _, body in functions() if re.fullmatch(r"\s*[\w.]+ == [\w.]+\s*", body)]
    out += grep(r"Err\((fault|e|_)\) => (return )?Err\(|Ok\(\(\)\) => \{\}|Err\(fault\) => refused|copy_from_slice")
    return out


def facts():
    groups = collections.defaultdict(list)
    for p, n, f, head, _ in functions():
        for m in re.finditer(r"requires(?: \w+)? \{(.*)\}", head):
            fact = re.sub(r"\b(self\.old|self\.now|self)\b", "self", m.group(1))
            fact = re.sub(r"\.(old|now|entry)\b", "", fact).strip()
            for part in re.split(r" × ", fact):
                groups[re.sub(r"^[() ]+|[() ]+$", "", part)].append(f"{p}:{n} {f}")
    out = [f"{k}   ({len(v)})  {'; '.join(v)}" for k, v in groups.items() if len(v) >= 3]
    pairs = collections.defaultdict(list)
    for p, n, f, head, _ in functions():
        params = re.findall(r"(\w+): ((?:&mut |&)?[\w:<>'\[\], ]+?)(?=, \w+:|,?\s*\)|,\n)", head)
        names = [f"{a}: {b}" for a, b in params if a != "rt" and a != "heap"]
        for i in range(len(names)):
            for j in range(i + 1, len(names)):
                pairs[(names[i], names[j])].append(f"{p}:{n} {f}")
    out += [f"{k[0]} with {k[1]}   ({len(v)})  {'; '.join(v)}" for k, v in pairs.items() if len(v) >= 3]
    return out


def buffers():
    return grep(r"\[[^\[\]]*; (\d+|N)\]|\[0\.\.\w+\]|room: usize|cmp|binary_search")


def switches():
    return grep(r"(group|basis|event|step|kind): (Group|Basis|Event|Step|Kind)|\bfn\(|dyn |impl Fn")


def proofs():
    out = []
    for crate in sorted(pathlib.Path("crates").iterdir()):
        files = list(crate.glob("proofs/**/*.antt"))
        if files:
            answers = [f for f in files if f.name == "Answers.antt"]
            total = sum(len(f.read_text().splitlines()) for f in files)
            out.append(f"{crate.name}: {len(files)} files, {total} lines, {len(answers)} of them Answers, {sum(len(f.read_text().splitlines()) for f in answers)} lines")
    return out


POINTS = dict(option=option, twins=twins, loops=loops, byhand=byhand, facts=facts, buffers=buffers, switches=switches, proofs=proofs)

for point in sys.argv[1:] or POINTS:
    rows = POINTS[point]()
    print(f"{point}: {len(rows)}")
    for row in rows:
        print("   ", row)
