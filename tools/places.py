#!/usr/bin/env python3
"""Lists the places in crates/*/src that docs/DESIGN-PASS.md counts, point by point, as FILE:LINE: TEXT, each point with its count.

    tools/places.py [-q]     -q: the counts alone

It goes by text: what of it is a place, and what is not, the page says.
"""
import collections
import glob
import os
import re
import sys

os.chdir(os.path.dirname(os.path.dirname(os.path.abspath(__file__))))
FILES = {f: open(f, encoding="utf-8").read() for f in sorted(glob.glob("crates/*/src/*.rt"))}
QUIET = "-q" in sys.argv[1:]


def lines(name, pattern):
    found = [f"{f}:{i}: {t.strip()}" for f, s in FILES.items() for i, t in enumerate(s.split("\n"), 1) if re.search(pattern, t.split("//")[0])]
    say(name, found)


def say(name, found):
    print(f"{name}: {len(found)}")
    if not QUIET:
        for it in found:
            print("    " + it)


def functions():
    """(FILE, NAME, parameters, the text of its requires clauses)"""
    for f, s in FILES.items():
        for m in re.finditer(r"\bfn (\w+)(?:<[^{]*?>)?\((.*?)\)(.*?)\n\s*(?:\{|$)", s, re.S):
            params = [" ".join(p.split()) for p in re.split(r",(?![^<\[(]*[>\])])", m.group(2)) if p.strip()]
            yield f, m.group(1), params, re.findall(r"requires(?: \w+)? \{ (.*?) \}\n", m.group(3) + "\n")


def parts(clause):
    """the facts of a clause"""
    out, depth, part = [], 0, ""
    for ch in clause:
        depth += ch in "({"
        depth -= ch in ")}"
        if ch == "×" and depth == 0:
            out.append(part)
            part = ""
        else:
            part += ch
    for p in out + [part]:
        p = p.strip()
        while p.startswith("(") and p.endswith(")"):
            p = p[1:-1].strip()
        yield p


lines("1a own enums", r"^\s*(pub(\(crate\))? )?enum ")
lines("1b flags in structs", r"^\s+(pub )?\w+: bool,$")
lines("1c refusals as numbers", r"\brefusal\(\d+\)|refusal: [1-9]|Refusal\(\w+\)")
lines("2a functions named for a sense", r"\bfn \w+_(ccw|cw)\(")
lines("3 loops that are no `for`", r"\bwhile\b|\bloop\b")
facts, travel = collections.defaultdict(list), collections.defaultdict(list)
for f, name, params, requires in functions():
    where = f"{f.split('/')[1]}::{name}"
    for clause in requires:
        for p in set(parts(clause)):
            facts[p].append(where)
    named = sorted({p for p in params if ":" in p})
    for i, a in enumerate(named):
        for b in named[i + 1:]:
            travel[a + ", " + b].append(where)
say("5a facts in three contracts or more", [f"{len(v)} {p} | {', '.join(v)}" for p, v in sorted(facts.items(), key=lambda x: -len(x[1])) if len(v) >= 3])
say("5b pairs of parameters in three functions or more", [f"{len(v)} {p} | {', '.join(v)}" for p, v in sorted(travel.items(), key=lambda x: -len(x[1])) if len(v) >= 3])
lines("6 arrays and lent buffers", r"\[\w+; \w+\]|&mut \[")
lines("7 choices by a flag that is handed in", r"^\s*(pub(\(crate\))? )?(extern \"C\" )?fn .*: bool|^\s+\w+: bool,?$")
answers = sorted(f for f in glob.glob("crates/*/proofs/**/Answers.antt", recursive=True) if "/out/" not in f)
say("8 answers", [f"{f}: {sum(1 for t in open(f, encoding='utf-8') if t.strip())} lines" for f in answers])
