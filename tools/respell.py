#!/usr/bin/env python3
"""Spells this repository's own dashed names as today's Rattle does: words in snake case, facts and types in camel case.

usage: tools/respell.py [--list]        at the top of the checkout, after the kit's port.py; rewrites crates/ in place

A dash stays in a lemma that joins two words of which the second names an operation on lists, as in occurs-append, and in every
name that Rattle makes (goals and the steps of a proof's record) or that a library declares. Functions of src/, exported names,
strings, inputs and outputs are left as they are. Run once; with --list it only prints what it would do.
"""

import os
import re
import sys

NAME = r"[A-Za-z_][\w']*(?:-[\w']+)+"
LISTS = {"append", "push", "cons", "nil", "take", "drop", "map", "length", "joined", "shuffled"}
# What Rattle makes: goals, and steps of a proof's record.
GENERATED = re.compile(r"^(returns|loop|invariant-loop|decreases-loop|overflow|in-(ok|err|Ok|Err|Some|None|default|[A-Z])|from-residual|if|rows-|else|then)\b")


def texts(root):
    for folder, dirs, files in os.walk(os.path.join(root, "crates")):
        dirs[:] = sorted(d for d in dirs if d != "out")
        for f in sorted(files):
            if f.endswith((".antt", ".rt")):
                yield os.path.join(folder, f)


def declared(text, made):
    """Names that a text declares or binds."""
    found = set()
    for m in re.finditer(rf"(?m)^ *(?:(?:abbrev|unfoldable|pub|record|data|let) +)*({NAME})(?: [^:\n]*?)? :(?!:)(.*)$", text):
        if made and re.match(r"\s*(goal|given)\.", m.group(2)):
            continue
        found.add(m.group(1))
    for m in re.finditer(rf"[({{]((?:[\w'-]+ )+): ", text):
        found.update(w for w in m.group(1).split() if re.fullmatch(NAME, w))
    for m in re.finditer(r"λ ([^.λ\n]*)\.", text):
        found.update(re.findall(rf"(?<![\w.]){NAME}", m.group(1)))
    found.update(m.group(1) for m in re.finditer(rf"\blet ({NAME})\b", text))
    found.update(m.group(1) for m in re.finditer(rf"(?m)^ *pub (?:record|data) ({NAME})", text))
    found.update(m.group(1) for m in re.finditer(rf" as ({NAME})(?=[,}}])", text))
    return found


def imported(text):
    """Names that a text takes from a library."""
    found = set()
    for m in re.finditer(r"use (?:Rattle\.std|mathlib|Prim|native|lib|mir|logic)[\w.+-]*\.\{([^}]*)\}", text):
        found.update(w.strip().split(" as ")[0] for w in m.group(1).split(","))
    return found


def spelled(name):
    head, *tail = name.split("-")
    if len(tail) == 1 and tail[0] in LISTS and not head[0].isupper():
        return name
    if head[0].isupper():
        return "".join(p[:1].upper() + p[1:] for p in name.split("-"))
    return name.replace("-", "_")


def main():
    root = os.getcwd()
    own, library, words = set(), set(), {}
    for p in texts(root):
        with open(p, encoding="utf-8") as f:
            t = f.read()
        made = p.endswith(("/Answers.antt", "/Invariants.antt"))
        own |= declared(t, made) if p.endswith(".antt") else set(re.findall(rf" as ({NAME})(?=[,}}])", t))
        library |= imported(t)
        words[p] = t
    own -= library
    own = {n for n in own if not GENERATED.match(n)}
    to = {n: spelled(n) for n in sorted(own)}
    to = {n: s for n, s in to.items() if n != s}
    present = set()
    for t in words.values():
        present |= set(re.findall(r"[\w'◌]+(?:-[\w'◌]+)*", t))
    for n, s in to.items():
        if s in present:
            print(f"falls together: {n} -> {s}")
    seen = {}
    for n, s in to.items():
        if s in seen:
            print(f"two names: {n} and {seen[s]} -> {s}")
        seen[s] = n
    if "--list" in sys.argv:
        for n, s in to.items():
            print(n, s)
        return
    token = re.compile(r"(?<![\w'-])(" + "|".join(re.escape(n) for n in sorted(to, key=len, reverse=True)) + r")(?![\w'-])")
    for p, t in words.items():
        new = token.sub(lambda m: to[m.group(1)], t)
        if new != t:
            with open(p, "w", encoding="utf-8") as f:
                f.write(new)


main()
