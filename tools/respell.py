#!/usr/bin/env python3
"""Brings this repository's own names to today's spelling: run once, at the top, right after the kit's port.py, before a commit.

A definition, a constructor or a field with humps gets snake case (`fieldByte`: `field_byte`, `intoRO`: `into_ro`). A law, and
a member of a record of laws, keeps its dashes: port.py turns some of them to underscores, and this puts back the name of the
last commit, unless src/ has the other one. What src/ declares has no such humps and keeps its name; its strings are left alone.
Prints each new name that stood somewhere before, or that two names get.
"""
import os
import re
import subprocess

NAME = re.compile(r"[\w'→-]+")
HUMP = re.compile(r"(?<=[a-z])[A-Z]+")
DECLARED = re.compile(r"^(?:abbrev |unfoldable | +)?(?:pub )?([\w'→-]+) :(?=\s|$)", re.M)
STRING = re.compile(r'("(?:[^"\\\n]|\\.)*")')


def paths():
    for folder, folders, files in os.walk("crates"):
        folders[:] = sorted(f for f in folders if f != "out")
        yield from (os.path.join(folder, f) for f in sorted(files) if f.endswith((".rt", ".antt", ".edit")))


def main():
    texts = {}
    for p in paths():
        with open(p, encoding="utf-8") as f:
            texts[p] = f.read()
    code = {n for p, t in texts.items() if p.endswith(".rt") for n in NAME.findall(t)}
    laws = {}
    for p, t in texts.items():
        if p.endswith(".antt"):
            before = subprocess.run(["git", "show", "HEAD:" + p], capture_output=True, text=True).stdout
            dashed = {n for n in DECLARED.findall(before) if "-" in n} - set(DECLARED.findall(t))
            laws |= {n.replace("-", "_"): n for n in dashed if n.replace("-", "_") not in code}
    had = {n for t in texts.values() for n in NAME.findall(t)}
    made = {}

    def respelled(m):
        n = m.group()
        to = laws.get(n) or (HUMP.sub(lambda h: "_" + h.group().lower(), n) if n[0].islower() else n)
        if to != n:
            made.setdefault(to, set()).add(n)
        return to

    for p, t in texts.items():
        pieces = STRING.split(t) if p.endswith(".rt") else [t]
        to = "".join(x if p.endswith(".rt") and i % 2 else NAME.sub(respelled, x) for i, x in enumerate(pieces))
        if to != t:
            with open(p, "w", encoding="utf-8") as f:
                f.write(to)
    for to in sorted(made):
        if to in had or len(made[to]) > 1:
            print(f"{to}: {', '.join(sorted(made[to]))}" + (", and had before" if to in had else ""))
    print(f"{len(made)} names")


if __name__ == "__main__":
    main()
