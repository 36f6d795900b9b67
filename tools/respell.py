#!/usr/bin/env python3
"""Spells the repository's own definitions and lemmas as today's Rattle does, once, after /opt/rattle/port/port.py.

usage: tools/respell.py [--show] [FOLDER]     FOLDER has crates/; without it the current one

Words are in snake case: `stateOk` becomes `state_ok`, and each part of a lemma's name too, `stateOk-sound` becomes
`state_ok-sound`. Constructors, record fields and definitions that open (abbrev, unfoldable) have underscores for dashes.
A lemma that would be spelled as a definition but for its dashes gets `_lem` behind the definition's name. Names of
src/, strings and inputs stay. With --show it prints the names and those that would fall together, and writes nothing.
"""
import glob
import os
import re
import sys

show = "--show" in sys.argv
where = [a for a in sys.argv[1:] if not a.startswith("--")]
root = where[0] if where else "."

ATOM = r"[^\s(){}\[\].;,@\"«»⌜⌝:λ]+"
DECLARED = re.compile(r"(?m)^( *)((?:(?:abbrev|unfoldable|pub|data|record|ruleset) )*)(" + ATOM + r")(?: \([^\n]*?\)| \{[^\n]*?\})* :(?=\s|$)")


def files(kind):
    return sorted(p for p in glob.glob(os.path.join(root, "crates/*", kind, "**/*.antt"), recursive=True))


def read(p):
    with open(p, encoding="utf-8") as f:
        return f.read()


def plain(text):
    return "\n".join("" if l.lstrip().startswith("--") else l for l in text.split("\n"))


def snake(part):
    if not part or not (part[0].islower() or part[0] == "_"):
        return part
    part = part.replace("getD", "get_or")
    return re.sub(r"(?<=[a-z0-9])[A-Z]+(?=[^A-Za-z]|$)|(?<=[a-z0-9])[A-Z]", lambda m: "_" + m[0].lower(), part)


def camel(t):
    return "-".join(snake(p) for p in t.split("-"))


lemmas, opened, members = set(), set(), set()
for p in files("specs") + files("proofs"):
    inside = None
    for line in plain(read(p)).split("\n"):
        m = DECLARED.match(line)
        if not m:
            if line and not line.startswith(" "):
                inside = None
            continue
        indent, words, name = m[1], m[2].split(), m[3]
        if not indent:
            inside = "members" if "data" in words or ("record" in words) else None
            if "data" in words or "record" in words:
                continue
            (opened if "abbrev" in words or "unfoldable" in words else lemmas).add((name, p))
        elif inside:
            members.add((name, p))
proof_names = re.compile(r"/proofs/.+/(Proof|Invariants|Answers)\.antt$")
local = {n for n, p in lemmas | opened if proof_names.search(p)}
opened = {n for n, p in opened if not proof_names.search(p)}
members = {n for n, p in members}
lemmas = {n for n, p in lemmas if not proof_names.search(p)}

table = {}
definitions = {camel(n) for n in opened if "-" not in n} | {camel(n) for n in lemmas if "-" not in n and camel(n) != n}
for n in sorted(lemmas | opened | members | local):
    new = camel(n)
    if "-" in new and (n in members or n in opened) and n[0].islower() and not n.startswith(("invariant-", "decreases-")):
        new = new.replace("-", "_")
    elif "-" in new and n in lemmas and new.replace("-", "_") in definitions:
        new = new.replace("-", "_") + "_lem"
    if new != n:
        table[n] = new

# Lower-camel names that are only bound, as by a λ.
seen = set()
for p in files("specs") + files("proofs"):
    seen |= set(re.findall(ATOM, plain(read(p))))
for t in seen:
    if t not in table and "-" not in t and re.fullmatch(r"[a-z]\w*", t) and camel(t) != t:
        table[t] = camel(t)

rust, params = set(), set()
for p in sorted(glob.glob(os.path.join(root, "crates/*/src/**/*.rt"), recursive=True)):
    t = read(p)
    params |= set(re.findall(r"\b([a-z_]\w*): ", t))
    rust |= set(re.findall(r"\b[a-z]\w*\b", re.sub(r"//[^\n]*", "", t)))

if show:
    for n in sorted(table):
        print(n, "->", table[n])
    values = {}
    for n, v in table.items():
        values.setdefault(v, []).append(n)
    for v, ns in sorted(values.items()):
        if len(ns) > 1:
            print("TOGETHER", v, ns)
        if v in seen and v not in table:
            print("TAKEN in antt", v, ns)
        if v in params:
            print("PARAMETER", v, ns)
    print(len(table), "names")
    raise SystemExit

PATTERN = re.compile(r"(?<![\w'-])(?:" + "|".join(sorted(map(re.escape, table), key=len, reverse=True)) + r")(?![\w'-])")


# Lemmas that port.py spelled as definitions are spelled now.
TAKEN = {n: n + "_lem" for n in "head_ok meets_word all_pass passes_at run_length ending_at".split()} | {"right_of": "right_of_here"}
LEMMA = re.compile(r"(?<![\w.'-])(?:" + "|".join(TAKEN) + r")(?![\w.'-])")


def turned(text, proof=False):
    if proof:
        text = LEMMA.sub(lambda m: TAKEN[m[0]], text)
    return PATTERN.sub(lambda m: table[m[0]], text)


changed = 0
for p in files("specs") + files("proofs") + sorted(glob.glob(os.path.join(root, "crates/*/src/**/*.rt"), recursive=True) + glob.glob(os.path.join(root, "crates/*/must-fail/*.edit"))):
    old = read(p)
    if p.endswith(".edit"):
        new = "\n".join(l if l.startswith("file:") else turned(l) for l in old.split("\n"))
    else:
        new = turned(old, "/proofs/" in p)
    if new != old:
        changed += 1
        with open(p, "w", encoding="utf-8") as f:
            f.write(new)
print(f"respell: {len(table)} names, {changed} files")
