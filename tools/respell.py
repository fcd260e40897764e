#!/usr/bin/env python3
"""Respells the repository's own definitions and lemmas as today's Rattle spells names: words in snake case, types in camel case.

usage: python3 tools/respell.py        at the top of the repository, once, after the kit's port.py

It takes the names that are declared in specs/ and proofs/ and have a dash (goals of a function's proof aside, which Rattle names), and rewrites them wherever
they stand in clauses, specs/ and proofs/. Comments, strings, code and must-fail edits keep their text. It stops before any change where two names would fall together.
"""

import collections
import glob
import os
import re

HEAD = re.compile(r"^\s*(?:(?:pub|abbrev|unfoldable|pattern|record|data)\s+)*((?:[A-Za-z][\w'-]*)(?:\s+[A-Za-z][\w'-]*)*)\s*(?:\([^)]*\)\s*|\{[^}]*\}\s*)*(?::(?=\s)|where\b)")
NAME = re.compile(r"[^\W\d][\w']*(?:-[\w'◌]+)*")
TOKEN = re.compile(r"(?<![\w'◌-])([^\W\d_][\w']*(?:-[\w']+)+)(?![\w'◌-])")
GOAL = re.compile(r":\s*goal\.")
# `getD` of the older library is `get_or` now, also in names of lemmas on it; and what port.py made of one.
WORDS = [("getD-", "get_or_"), ("get_d_words", "get_or_words"), ("IsSplit-moves", "split_moves")]
ALIAS = re.compile(r"^\s*(?:ghost )?use .*")
# The one bound variable with a dash.
BOUND = ["no-help"]


def files():
    for pattern in ("crates/*/specs/**/*.antt", "crates/*/proofs/**/*.antt", "crates/*/src/**/*.rt"):
        for path in sorted(glob.glob(pattern, recursive=True)):
            if "/out/" not in path:
                yield path


def declared(text):
    """The names that a file declares, each with whether it is a type, by the text up to the next line that is no deeper."""
    found = {}
    lines = text.split("\n")
    for i, line in enumerate(lines):
        if line.lstrip().startswith("--") or GOAL.search(line):
            continue
        m = HEAD.match(line)
        if not m:
            continue
        into = line[m.end():].split("→")[-1].strip()
        for name in m[1].split():
            is_type = bool(re.match(r"Type\b", into)) or " where" in line and "record" in line
            found[name] = found.get(name, False) or is_type
    return found


def spelled(name, is_type):
    for old, new in WORDS:
        if name.startswith(old):
            name, is_type = new + name[len(old):], False
    if is_type or name[0].isupper():
        return "".join(w[0].upper() + w[1:] for w in re.split(r"[-_]", name) if w)
    return name.replace("-", "_")


def main():
    texts = {p: open(p, encoding="utf-8").read() for p in files()}
    kinds = {}
    for path, text in texts.items():
        for line in text.split("\n"):
            if ALIAS.match(line):
                for name in re.findall(r" as ([A-Za-z][\w'-]*)", line):
                    kinds.setdefault(name, False)
        if path.endswith(".antt"):
            for name, is_type in declared(text).items():
                kinds[name] = kinds.get(name, False) or is_type
    for name in BOUND:
        kinds.setdefault(name, False)
    turn = {n: spelled(n, t) for n, t in kinds.items() if "-" in n or n.startswith("get_d_") or t and not n[0].isupper()}
    goals = {m for t in texts.values() for m in re.findall(r"^\s*(?:abbrev )?(?:pub )?(\S+) : goal\.", t, re.M)}
    turn = {n: v for n, v in turn.items() if n not in goals}
    # Two names that fall together, or one that falls on a word that is there already.
    words = collections.Counter(w for p, t in texts.items() if p.endswith(".antt") for w in re.findall(r"[^\W\d][\w']*(?:-[\w']+)*", re.sub(r"--.*|Rattle\.[\w.]+", "", t)))
    bad = [f"{n} and {m} become {v}" for n, v in turn.items() for m, w in turn.items() if n < m and v == w]
    bad += [f"{n} becomes {v}, which is there already" for n, v in turn.items() if words[v]]
    if bad:
        print("\n".join(bad))
        raise SystemExit(2)
    token = re.compile(r"(?<![\w'◌-])(" + "|".join(sorted(map(re.escape, turn), key=len, reverse=True)) + r")(?![\w'◌-])")
    changed = 0
    for path, text in texts.items():
        comment = "--" if path.endswith(".antt") else "//"
        out = []
        for line in text.split("\n"):
            code, mark, rest = line.partition(comment) if line.lstrip().startswith(comment) else (line, "", "")
            out.append(token.sub(lambda m: turn[m[1]], code) + mark + rest)
        new = "\n".join(out)
        if new != text:
            changed += 1
            with open(path, "w", encoding="utf-8") as f:
                f.write(new)
    print(f"{len(turn)} names respelled in {changed} files")


main()
