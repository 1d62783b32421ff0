#!/usr/bin/env python3
"""Counts, in crates/*/src, the places where code may still be written in an older way. Each point is found by one rule below; what a rule
lists is a place to look at, not yet a fault. Usage: tools/design_count.py [--list] [POINT..]"""
import collections
import glob
import re
import sys

FILES = sorted(glob.glob("crates/*/src/**/*.rt", recursive=True))
COMMENT = re.compile(r"^\s*//")


def lines():
    for name in FILES:
        for number, line in enumerate(open(name, encoding="utf8"), 1):
            if not COMMENT.match(line):
                yield name, number, line.rstrip("\n")


def grep(pattern):
    rule = re.compile(pattern)
    return [f"{n}:{i}: {l.strip()}" for n, i, l in lines() if rule.search(l)]


def functions():
    """Each function: its file, its line, its name, its parameters, its clauses, its body."""
    for name in FILES:
        text = open(name, encoding="utf8").read()
        text = re.sub(r"^\s*//.*$", "", text, flags=re.M)
        for m in re.finditer(r"^( *)(?:pub |pub\(crate\) |final |extern \"C\" )*fn (\w+)", text, flags=re.M):
            indent = m.group(1)
            end = text.find("\n" + indent + "}", m.start())
            stop = text.find(";\n", m.start())
            brace = text.find("{", m.start())
            if end < 0 or (0 <= stop < brace):
                continue
            whole = text[m.start():end]
            head, _, body = whole.partition("\n" + indent + "{\n")
            if not body:
                head, _, body = whole.partition("{\n")
            clauses = re.findall(r"^\s*(?:requires|ensures)\*? ?\w* ?\{(.*)\}\s*$", head, flags=re.M)
            args = re.search(r"\((.*?)\)\s*(?:->|$|\n|\{)", head, flags=re.S)
            params = re.findall(r"(\w+): ([^,()]+(?:\([^)]*\))?)", args.group(1)) if args else []
            yield name, text.count("\n", 0, m.start()) + 1, m.group(2), params, clauses, body


def shape(code):
    """The code with every name, number and text taken as any other; words of the language stay."""
    words = "if else match for while let mut return in as Some None Ok Err self Self true false"
    keep = set(words.split())
    tokens = re.findall(r"b?'(?:\\.|[^'])'|\"[^\"]*\"|\w+|[^\w\s]", code)
    return " ".join(t if t in keep or not re.match(r"[\w'\"]", t) else "x" for t in tokens)


def alike(entries, least):
    groups = collections.defaultdict(list)
    for place, key in entries:
        if key.count(" ") >= least:
            groups[key].append(place)
    return [", ".join(g) for g in groups.values() if len(g) > 1]


def structs():
    for name in FILES:
        text = open(name, encoding="utf8").read()
        for m in re.finditer(r"struct (\w+)[^{;]*\{(.*?)\n\}", text, flags=re.S):
            fields = [f for f in m.group(2).split("\n") if ":" in f and not f.strip().startswith(("//", "ghost"))]
            yield f"{name}:{m.group(1)}", [re.sub(r"^\s*(?:pub(?:\(crate\))? )?", "", f).split(":") for f in fields]


def point_2():
    twins = alike(((f"{n}:{i}:{f}", shape(b)) for n, i, f, _, _, b in functions()), 6)
    by_names = collections.defaultdict(list)
    by_types = collections.defaultdict(list)
    for place, fields in structs():
        if len(fields) > 1:
            by_names[" ".join(sorted(f[0].strip() for f in fields))].append(place)
            by_types[" ".join(re.sub(r"\w+", "x", f[1]) for f in fields) + str(len(set(f[1] for f in fields)))].append(place)
    types = [g for g in by_names.values() if len(g) > 1] + [g for k, g in by_types.items() if len(g) > 1 and k.endswith("1")]
    return twins + [", ".join(g) for g in types]


def point_5():
    clauses = collections.defaultdict(set)
    pairs = collections.defaultdict(set)
    for n, i, f, params, cs, _ in functions():
        for c in cs:
            clauses[c.strip()].add(f"{n}:{i}:{f}")
        got = sorted({f"{p}: {t.strip()}" for p, t in params if p != "self"})
        for a in range(len(got)):
            for b in range(a + 1, len(got)):
                pairs[got[a] + ", " + got[b]].add(f"{n}:{i}:{f}")
    found = [f"{c} -- {len(v)} functions" for c, v in clauses.items() if len(v) > 2]
    return found + [f"({p}) -- {len(v)} functions" for p, v in pairs.items() if len(v) > 2]


POINTS = {
    "1 flags, sentinels, numbers for kinds": lambda: grep(
        r"^ *(pub |pub\(crate\) )?\w+: bool,|None => [\[(]?0|Some\(0\)|\w+\[\w+\] != 0|column: usize|refusal\.number\(\)|u32::from\(|Vec<u32>"
    ),
    "2 functions and types of the same shape": point_2,
    "3 loops with an index or a count by hand": lambda: grep(r"\bfor \w+ in [\w.]+\.\.|^\s*(let mut \w+ = 0|\w+ \+= 1;)|while "),
    "4 equality, order, conversion, printing by hand": lambda: grep(
        r"a\.\S+ == b\.|fn (same|number|told|\w+_of|pack_\w+|sort_key|rank|of|from)\b.*->|write!\(|derive\((?!.*PartialEq)(?=.*Copy)"
    ),
    "5 repeated clauses, parameters that travel together": point_5,
    "6 lengths beside buffers, parallel arrays, indices": lambda: grep(
        r"^ *(pub |pub\(crate\) )?(used|room|at|width|cells|replacements|corners): usize,|^ *(pub |pub\(crate\) )?\w+: Vec<|\w\[[a-z]\w*( [+-] 1)?\]"
    ),
    "7 switches on the step to run": lambda: grep(r"match (i|place|count|column|n) \{|column: usize|is_first\(|: fn\("),
    "8 answers in proof files": lambda: [
        f"{n}: {l.split()[1]}"
        for n in sorted(glob.glob("crates/*/proofs/**/Answers.antt", recursive=True))
        for l in open(n, encoding="utf8")
        if l.startswith("pub ") and " : goal." in l
    ],
}


def main():
    args = [a for a in sys.argv[1:] if a != "--list"]
    for title, rule in POINTS.items():
        if args and title[0] not in args:
            continue
        found = rule()
        print(f"{title}: {len(found)}")
        if "--list" in sys.argv:
            for f in found:
                print("   ", f)


main()
