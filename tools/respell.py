#!/usr/bin/env python3
"""Brings the repository's own names in specs/ and proofs/ to snake case: a-b and aB become a_b; a type's A-b becomes AB.

Run at the top, after the kit's port.py; a second run changes nothing. Own names are the definitions of the .antt files of
crates/, at the top and inside, and the fields of their records. A goal's name (its type is one of the function's) is
Rattle's and stays. A file's words are changed where they are defined in it, are imported by it from a crate of the
repository, or follow such an import's alias; the words of edits and of code in documents wherever a definition has them.
Names that would fall together are printed, and nothing is written.
"""
import glob
import re
import sys

WORD = r"[^\s(){}.,;:λ\[\]`]+"
HEAD = re.compile(r"^(?:(?:abbrev|unfoldable|opaque|pub|record|data)\s+)*(" + WORD + r")\s*(?:\([^()]*\)\s*|\{[^{}]*\}\s*)*:(.*)")
INSIDE = re.compile(r"^\s+(?:let |pub |abbrev |unfoldable )*(" + WORD + r")\s*(?::|=)\s")
USE = re.compile(r"^(?:ghost |pub )?(?:ghost )?use ([^\s{;]+?)(?:\.\{([^}]*)\})?(?: as (\S+?))?;?$", re.M)


# Where the name in snake case is another's.
OTHER = {"getD-tab": "get_or_tab", "getD_tab": "get_or_tab", "cursorAt": "cursor_after", "sameZ": "same_whole", "directionOf": "direction_of_point"}


def snake(name):
    if name in OTHER:
        return OTHER[name]
    if name[0].isupper():
        return "".join(w[0].upper() + w[1:] for w in name.split("-"))
    if re.match(r"told[A-Z]", name):
        return snake(name[4:]).lower() + "_told"
    return re.sub(r"(?<=[a-z0-9])([A-Z]+)", lambda m: "_" + m.group(1).lower(), name.replace("-", "_"))


def is_old(name):
    return "◌" not in name and (name[0].islower() or name[0].isupper() and "-" in name) and snake(name) != name


def is_goal(kind):
    return bool(re.search(r"\bNeed-|\bInv-|\bVar-|\bgoal\.|\btie\.", kind))


def module(path):
    """The path under which a file is named."""
    return ".".join(["Rattle"] + path[:-len(".antt")].split("/")[1:])


def defined(text):
    """The own names of a file that are to be changed, and all that it defines."""
    own, every = set(), set()
    for line in text.split("\n"):
        if line.startswith(("use ", "pub use ", "--", "mod ", "pub mod ")):
            continue
        inside = INSIDE.match(line)
        head = HEAD.match(line)
        if inside:
            every.add(inside.group(1))
            if is_old(inside.group(1)):
                own.add(inside.group(1))
        elif head:
            every.add(head.group(1))
            if is_old(head.group(1)) and not is_goal(head.group(2)):
                own.add(head.group(1))
    return own, every


def uses(text):
    """Each import: its module, its names and its alias."""
    for m in USE.finditer(text):
        yield m.group(1), [n.strip().split(" as ")[0] for n in (m.group(2) or "").split(",") if n.strip()], m.group(3)


def turn(text, names):
    return re.sub(WORD, lambda m: snake(m.group(0)) if m.group(0) in names else m.group(0), text)


def main():
    texts = {}
    for pattern in ("crates/*/specs/**/*.antt", "crates/*/proofs/**/*.antt", "crates/*/src/*.rt"):
        for p in sorted(glob.glob(pattern, recursive=True)):
            texts[p] = open(p, encoding="utf-8").read()
    own, every = {}, {}
    for p, t in texts.items():
        if p.endswith(".antt"):
            own[module(p)], every[module(p)] = defined(t)
    anywhere = set().union(*own.values())
    fields = {f for p, t in texts.items() if p.endswith(".antt") for f in re.findall(r"^  pub (" + WORD + r") :", t, re.M) if is_old(f)}
    new, bad = {}, []
    for p, t in texts.items():
        here = module(p) if p.endswith(".antt") else None
        names, taken = set(own.get(here, ())), set(every.get(here, ()))
        for mod, items, alias in uses(t):
            old = own.get(mod, set()) | {n for n in re.findall(WORD, t) if is_old(n) and snake(n) in every.get(mod, ())}
            names |= old if alias else old & set(items)
            taken |= set(items)
        bad += [(p, n) for n in sorted(names) if snake(n) in taken]
        new[p] = turn(t, names | {f for f in fields if "." + f in t})
    for p in sorted(glob.glob("crates/*/must-fail/*.edit")):
        texts[p] = open(p, encoding="utf-8").read()
        new[p] = re.sub(r"^(?:old|new): .*$", lambda m: turn(m.group(0), anywhere), texts[p], flags=re.M)
    for p in ["README.md"] + sorted(glob.glob("docs/*.md")):
        texts[p] = open(p, encoding="utf-8").read()
        new[p] = texts[p] if p == "docs/PORT.md" else re.sub(r"`[^`\n]*`", lambda m: turn(m.group(0), anywhere), texts[p])
    for p, n in bad:
        print(f"falls together: {p}: {n}")
    changed = [p for p in texts if new[p] != texts[p]]
    if "--write" in sys.argv and not bad:
        for p in changed:
            open(p, "w", encoding="utf-8").write(new[p])
    print(len(changed), "files" if "--write" in sys.argv and not bad else "files would change")


main()
