#!/usr/bin/env python3
"""Prints all that the prover says of a crate with one wrong program in it.

    tests/edit.py CRATE/LABEL..

rt prints the first error of an edit alone, and passes over errors of proof files that only name what the edit took away. Here each edit is
applied to a copy of the repository, in which `rt check` runs. For each it says how many of the errors are such names: where there are some,
a fact may be called not proved only because its answer could not be read.
"""
import os
import re
import shutil
import subprocess
import sys
import tempfile

os.chdir(os.path.dirname(os.path.dirname(os.path.abspath(__file__))))
GONE = re.compile(r"has no field|is not in scope|has no `|was not admitted")


def main(edits):
    with tempfile.TemporaryDirectory() as room:
        os.mkdir(f"{room}/.git")
        for name in ("crates.txt", "HANDLES"):
            if os.path.isfile(name):
                shutil.copy(name, room)
        shutil.copytree("crates", f"{room}/crates", ignore=shutil.ignore_patterns("out"))
        for edit in edits:
            crate, label = edit.split("/")
            folder, path, old, was = f"{room}/crates/{crate}", "", "", {}
            for line in open(f"crates/{crate}/must-fail/{label}.edit", encoding="utf-8").read().split("\n"):
                if line.startswith("file: "):
                    path = f"{folder}/{line[6:].strip()}"
                elif line.startswith("old: "):
                    old = line[5:]
                elif line.startswith("new:"):
                    text = open(path, encoding="utf-8").read()
                    was.setdefault(path, text)
                    if text.count(old) != 1:
                        sys.exit(f"{edit}: an 'old:' text is in {path} {text.count(old)} times")
                    open(path, "w", encoding="utf-8").write(text.replace(old, re.sub(r"\A ", "", line[4:])))
            ran = subprocess.run(["rt", "check"], cwd=folder, stdout=subprocess.PIPE, stderr=subprocess.STDOUT, text=True)
            said = [it for it in ran.stdout.split("\n") if re.match(r"(note: )?\S+:\d+:\d+: ", it) or it.startswith(("fn ", "logic=")) and not it.endswith(": proved")]
            gone = sum(bool(GONE.search(it)) for it in said)
            print(f"== {edit}: status {ran.returncode}, {gone} of its errors only name what is not there", *said, sep="\n", flush=True)
            for path, text in was.items():
                open(path, "w", encoding="utf-8").write(text)


main(sys.argv[1:])
