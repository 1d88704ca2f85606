#!/usr/bin/env python3
"""Respells the definitions and lemmas of this repository: words of specs/ and proofs/ in snake case, facts and types in camel case.

usage: python3 tools/respell.py          rewrites every .rt and .antt file below crates/
       python3 tools/respell.py --list   prints the new names, and changes nothing

Run once, right after the kit's own port.py, which respells only the names that a library shared. A name is respelled if a file of
specs/, or one that stands directly in proofs/, declares it. The names of goals, steps and std's lemmas stay; so do functions of src/.
"""

import os
import re
import sys

TOKEN = re.compile(r"(?<![\w'\-])[^\W\d][\w']*(?:-[\w']+)*(?![\w'\-])")
DECLARED = re.compile(r"^\s*(?:(?:abbrev|opaque|unfoldable|pub|record|data)\s+)*([^\W\d][\w']*(?:-[\w']+)+)(?=\s*:|\s*[({])", re.M)
# facts and relations whose old spelling hides that they are types
TYPES = {"flip": "Flip"}


def camel(name):
    return "".join(part[:1].upper() + part[1:] for part in name.split("-"))


def spelled(name):
    if name in TYPES:
        return TYPES[name]
    return camel(name) if name[0].isupper() else name.replace("-", "_")


def files(root):
    for folder, dirs, names in os.walk(os.path.join(root, "crates")):
        dirs[:] = sorted(d for d in dirs if d not in ("out", "data"))
        for name in sorted(names):
            if name.endswith((".rt", ".antt")):
                yield os.path.join(folder, name)


def declares(path, root):
    parts = os.path.relpath(path, root).split(os.sep)
    return path.endswith(".antt") and (parts[2] == "specs" or (parts[2] == "proofs" and len(parts) == 4))


def imported(text):
    """The names that a file takes from elsewhere than this repository's crates."""
    out = set()
    for m in re.finditer(r"use\s+(?:Rattle\.std|Rattle\.core|mathlib|Prim|lib|borrow|logic)[\w.'\-]*\.\{([^}]*)\}", text):
        out |= set(TOKEN.findall(m[1]))
    return out


def main():
    root = os.path.dirname(os.path.dirname(os.path.realpath(__file__)))
    texts = {p: open(p, encoding="utf-8").read() for p in files(root)}
    names = set(TYPES)
    for path, text in texts.items():
        if declares(path, root):
            names |= {n for n in DECLARED.findall(text) if "-" in n}
    foreign = set().union(*(imported(t) for t in texts.values()))
    names -= foreign
    new = {n: spelled(n) for n in names}
    for a in sorted(new):
        others = [b for b in new if b != a and new[b] == new[a]]
        if others:
            print(f"falls together: {a} {others}", file=sys.stderr)
    for path, text in texts.items():
        tokens = set(TOKEN.findall(text))
        for n in sorted(tokens & names):
            if new[n] in tokens:
                print(f"already there: {os.path.relpath(path, root)}: {n} -> {new[n]}", file=sys.stderr)
    if "--list" in sys.argv:
        print("\n".join(f"{n} -> {new[n]}" for n in sorted(new)))
        return
    for path, text in texts.items():
        turned = TOKEN.sub(lambda m: new.get(m[0], m[0]), text)
        if turned != text:
            with open(path, "w", encoding="utf-8") as f:
                f.write(turned)


if __name__ == "__main__":
    main()
