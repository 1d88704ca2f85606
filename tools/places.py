#!/usr/bin/env python3
"""Counts, in every crate's src/ (tests left out), the places where code of an older Rattle is looked for, one count for each point of
docs/DESIGN-PASS.md.

usage: python3 tools/places.py [ROOT]          counts, a row for each point and part
       python3 tools/places.py --list [ROOT]   and every place

A place is found by its text or its shape. What is found is looked at and not always wrong; docs/DESIGN-PASS.md says which are kept.
"""

import collections
import glob
import os
import re
import sys

CODES = r"\b(?:action|answer|code|mode|side|number): (?:u8|u32|usize)\b"
WORD = re.compile(r"[A-Za-z_][A-Za-z0-9_]*|\d+|'[^']'|\S")
KEPT = {"if", "else", "match", "for", "in", "while", "loop", "let", "mut", "return", "Ok", "Err", "Some", "None", "self", "Self", "fn"}


def sources(root):
    for path in sorted(glob.glob(os.path.join(root, "crates/*/src/*.rt"))):
        if not path.endswith("_tests.rt"):
            with open(path) as file:
                yield os.path.relpath(path, root), file.read().split("\n")


def bare(line):
    """The line without its comment."""
    return re.sub(r"//.*", "", line)


def lines_with(root, pattern):
    for path, lines in sources(root):
        for number, line in enumerate(lines, 1):
            for _ in re.finditer(pattern, bare(line)):
                yield f"{path}:{number}"


def functions(root):
    """Each function with a body: place, name, signature, clauses, body."""
    for path, lines in sources(root):
        at = 0
        while at < len(lines):
            start = re.match(r"(\s*)(?:pub(?:\(crate\))? )?fn (\w+)", lines[at])
            if not start:
                at += 1
                continue
            end = at
            while end < len(lines) and not re.match(start.group(1) + r"(\{|\}|.*;$|.*\{$|.*\{\}$)", lines[end]):
                end += 1
            head = lines[at:end + 1]
            clauses = [line.strip() for line in head if re.match(r"\s*(requires|ensures)\b", line)]
            signature = " ".join(line.strip() for line in head if not re.match(r"\s*(requires|ensures)\b", line))
            body = []
            if end < len(lines) and lines[end].rstrip().endswith("{"):
                close = end + 1
                while close < len(lines) and not re.match(start.group(1) + r"\}", lines[close]):
                    body.append(bare(lines[close]))
                    close += 1
                end = close
            yield f"{path}:{at + 1}", start.group(2), signature, clauses, body
            at = end + 1


def optional_enums(root):
    """Enums of two cases of which one holds a value."""
    for path, lines in sources(root):
        for number, line in enumerate(lines, 1):
            if re.match(r"\s*(?:pub(?:\(crate\))? )?enum ", line):
                cases = []
                for case in lines[number:]:
                    if case.strip() == "}":
                        break
                    if bare(case).strip():
                        cases.append(bare(case).strip())
                if len(cases) == 2 and sum("(" in case or "{" in case for case in cases) == 1:
                    yield f"{path}:{number}"


def twins(root):
    """Functions whose bodies have one shape: words and numbers apart, all the same."""
    shapes = collections.defaultdict(list)
    for place, name, _, _, body in functions(root):
        words = WORD.findall(" ".join(body))
        if len(words) >= 14:
            shape = " ".join("w" if re.match(r"\w", w) and w not in KEPT else w for w in words)
            shapes[shape].append(f"{place} {name}")
    for places in shapes.values():
        if len(places) > 1:
            yield " ~ ".join(places)


def said_often(root):
    """A `requires` that stands in three functions of one crate or more."""
    facts = collections.defaultdict(list)
    for place, name, _, clauses, _ in functions(root):
        for clause in clauses:
            fact = re.match(r"requires (?:\w+ )?\{ (.*) \}", clause)
            if fact:
                facts[place.split("/")[1], re.sub(r"\b(now|old)\b", "it", fact.group(1))].append(f"{place} {name}")
    for (_, fact), places in sorted(facts.items()):
        if len(places) >= 3:
            yield f"{fact}: " + ", ".join(places)


def together(root):
    """Two or more parameters, with their types, that stand side by side in three functions of one crate or more."""
    groups = collections.defaultdict(set)
    for place, name, signature, _, _ in functions(root):
        inside = re.search(r"\((.*)\)(?: ->|\s*\{|$|\s*where|\s*;)", signature)
        if not inside:
            continue
        given = re.sub(r"\bmut ", "", inside.group(1))
        names = [n for n in (re.match(r"\s*(\w+: .*)", p) for p in re.split(r",(?![^<(\[]*[>)\]])", given)) if n]
        names = [n.group(1).strip() for n in names]
        for first, second in zip(names, names[1:]):
            groups[place.split("/")[1], first, second].add(f"{place} {name}")
    for (_, first, second), places in sorted(groups.items()):
        if len(places) >= 3:
            yield f"({first}, {second}): " + ", ".join(sorted(places))


def answers(root):
    for path in sorted(glob.glob(os.path.join(root, "crates/*/proofs/**/Answers.antt"), recursive=True)):
        with open(path) as file:
            for line in file:
                found = re.match(r"(?:pub )?([\w'-]+) : goal\.", line)
                if found:
                    yield f"{os.path.relpath(path, root)} {found.group(1)}"


def lemmas(root):
    for path in sorted(glob.glob(os.path.join(root, "crates/*/proofs/*.antt"))):
        with open(path) as file:
            for number, line in enumerate(file, 1):
                if re.match(r"(?:pub )?[a-z][\w'-]* :", line):
                    yield f"{os.path.relpath(path, root)}:{number}"


COUNTS = [
    ("1", "numbers for kinds, moves, modes and sides in fields and parameters", lambda root: lines_with(root, CODES)),
    ("1", "a flag in a field", lambda root: lines_with(root, r"^\s*(?:pub )?\w+: bool,$")),
    ("1", "an enum of two cases, one with a value", optional_enums),
    ("2", "groups of functions of one shape", twins),
    ("3", "a loop over a range, `while` or `loop`", lambda root: lines_with(root, r"\bfor \w+ in [^{]*\.\.|\bwhile\b|\bloop \{")),
    ("4", "an `impl` of equality, order, copying, conversion or printing", lambda root: lines_with(root, r"^impl(?:<[^>]*>)? (?:\w+::)?(?:PartialEq|Eq|PartialOrd|Ord|Clone|Copy|From|TryFrom|Display|Debug|Hash)\b")),
    ("4", "a function that converts", lambda root: lines_with(root, r"\bfn (?:at|number|number_of|from_number|code|natural|whole|named|fresh|inner|bytes)\(")),
    ("5", "a `requires` in three functions or more of a crate", said_often),
    ("5", "parameters side by side in three functions or more of a crate", together),
    ("6", "an array, or a field with a count beside others", lambda root: lines_with(root, r"^\s*(?:pub(?:\(crate\))? )?\w+: (?:Box<)?\[|^\s*(?:pub(?:\(crate\))? )?(?:count|len|size|room): usize,$")),
    ("7", "an `impl` of a table of functions, a `fn` pointer or a `dyn`", lambda root: lines_with(root, r"^impl(?:<[^>]*>)? Listing<|\bdyn |: fn\(")),
    ("8", "answers in proofs/", answers),
    ("8", "lemmas in proofs/", lemmas),
]


def main():
    listed = "--list" in sys.argv
    rest = [word for word in sys.argv[1:] if word != "--list"]
    root = rest[0] if rest else "."
    for point, what, find in COUNTS:
        places = list(find(root))
        print(f"{point}  {len(places):4}  {what}")
        if listed:
            for place in places:
                print(f"         {place}")


if __name__ == "__main__":
    main()
