#!/usr/bin/env python3
"""Brings this repository's own names in specs/ and proofs/ to today's spelling. Run once, at the top, after the toolchain's port.py.

Definitions and lemmas are in snake case, facts and types in upper camel case. In a lemma's name a dash stays where it joins the names of
two definitions. Names from src/, and the names that Rattle makes (goals and their fields), keep their spelling.
"""
import glob
import os
import re
import sys

KNOWN = {"length", "take", "drop", "set", "replicate", "append", "map"}
DEF = re.compile(r"^(\s*)((?:(?:abbrev|unfoldable|pub|record|data)\s+)*)([^\s(){}:,;.|=λ→]+)(?:\s+[({].*|\s*):(?:\s|$)")
MADE = ("Answers.antt", "Invariants.antt", "Proof.antt", "Choices.antt")
NAME = r"[A-Za-z0-9_'\-]"
# lemmas, and definitions of proofs/, that would fall together with a definition of specs/
APART = {
    "accepts-of": "accepts_of_lem",
    "all-marked": "leader_all_marked",
    "bit-and": "bit_and_lem",
    "carry-done": "carry_done_lem",
    "cell-at": "cell_at_lem",
    "deliver-done": "deliver_done_lem",
    "propose-done": "propose_done_lem",
    "seated-cells": "seated_cells_lem",
    "timely-at": "leader_timely_at",
    "timely-to": "leader_timely_to",
}


def antt():
    return sorted(glob.glob("crates/*/specs/**/*.antt", recursive=True) + glob.glob("crates/*/proofs/**/*.antt", recursive=True))


def snake(name):
    name = re.sub(r"([a-z0-9])([A-Z])", lambda m: m.group(1) + "_" + m.group(2).lower(), name)
    return name


def main():
    defined, words, tokens = set(), set(KNOWN), set()
    for p in antt():
        with open(p, encoding="utf-8") as f:
            text = f.read()
        tokens |= set(re.findall(NAME + "+", re.sub(r"--.*", "", text)))
        made = os.path.basename(p) in MADE
        for line in text.split("\n"):
            m = DEF.match(line)
            if not m or m.group(3) in ("use", "let", "in", "where", "module", "elim"):
                continue
            if made and ("goal." in line or "given." in line):
                continue
            defined.add(m.group(3))
            if "/specs/" in p:
                words.add(m.group(3))
    words |= {snake(w) for w in words}
    to = {}
    for n in sorted(defined):
        if n[0].isupper():
            new = "".join(w[:1].upper() + w[1:] for w in n.split("-")) if "-" in n else n
        else:
            parts = n.split("-")
            new = snake(parts[0])
            for a, b in zip(parts, parts[1:]):
                new += ("-" if a in words and b in words else "_") + snake(b)
        new = APART.get(n, new)
        if new != n:
            to[n] = new
    into = {}
    for n, new in to.items():
        if new in into or (new in tokens and new not in to):
            print(f"look: {n} and {into.get(new, new)} both are {new} now", file=sys.stderr)
        into[new] = n
    word = re.compile(r"(?<![A-Za-z0-9_'\-◌])(" + "|".join(sorted(map(re.escape, to), key=len, reverse=True)) + r")(?![A-Za-z0-9_'\-◌])")
    camel = re.compile(r"(?<![A-Za-z0-9_'\-◌])(" + "|".join(sorted((re.escape(n) for n in to if re.search(r"[A-Z]", n)), key=len, reverse=True)) + r")(?![A-Za-z0-9_'\-◌])")
    for p in antt() + sorted(glob.glob("crates/*/src/**/*.rt", recursive=True)) + sorted(glob.glob("crates/*/must-fail/*.edit")):
        with open(p, encoding="utf-8") as f:
            text = old = f.read()
        if p.startswith("crates/protocol/proofs/"):
            text = re.sub(r"(?<![A-Za-z0-9_'\-])read_done(?![A-Za-z0-9_'\-])", "read_done_lem", text)
        use = word if p.endswith(".antt") else camel
        made = os.path.basename(p) in MADE
        new = use.sub(lambda m: m.group(1) if made and "-" in m.group(1) and text[m.start() - 1 : m.start()] == "." else to[m.group(1)], text)
        if new != old:
            with open(p, "w", encoding="utf-8") as f:
                f.write(new)
    print(f"{len(to)} names")
    for n in sorted(to):
        print(f"{n} {to[n]}")


main()
