#!/usr/bin/env python3
"""Brings the repository's own definitions and lemmas to snake case, once, after the kit's port.py.

usage: python3 tools/snake_names.py        at the top of the repository; prints what it renamed and what it left

Names that .antt files define (definitions, lemmas, fields, constructors) are renamed wherever they stand as whole words: in .antt files,
in the ghost lines, clauses and comments of .rt files, in must-fail edits and, between backquotes, in pages. Types and modules keep their
capitals; names of src/, strings, inputs and outputs stay. Answers to Rattle's goals in a Proof.antt have Rattle's names and stay too.
"""
import glob
import os
import re
import sys

ROOT = os.path.realpath(os.path.join(os.path.dirname(os.path.realpath(__file__)), ".."))
WORD = re.compile(r"[^\s(){}\[\],;.@\"`|:]+")
SIGNATURE = re.compile(r"^(?:(?:unfoldable|abbrev|pub) )*([^\s(){},.;:]+)(?: \{[^}]*\})?\s+:(?:\s|$)(.*)$")
TYPE = re.compile(r"^\s*(?:(?:unfoldable|abbrev|pub) )*(record|data) ([^\s(){},.;:]+)")
FIELD = re.compile(r"^\s+(?:pub )?([^\s(){},.;:]+)((?: [^\s(){},.;:]+)*)\s+:(?:\s|$)")
OLDER = {"getD": "get_or"}


def files(pattern):
    return sorted(f for f in glob.glob(os.path.join(ROOT, pattern), recursive=True) if "/out/" not in f and "/target/" not in f)


def read(path):
    with open(path, encoding="utf-8") as f:
        return f.read()


def defined():
    names = set()
    for path in files("crates/**/*.antt"):
        within = False
        lines = read(path).split("\n")
        for at, line in enumerate(lines):
            if line.startswith("--"):
                continue
            type_line = TYPE.match(line)
            if type_line:
                names.add(type_line.group(2))
                within = True
                continue
            signature = SIGNATURE.match(line)
            if signature:
                within = False
                goal = re.match(r"\s*(?:\([^)]*\) → )*(?:goal|tie|[\w+-]+-lts|[\w+-]*lts)\.", signature.group(2))
                if not goal:
                    names.add(signature.group(1))
                continue
            if line and not line[0].isspace():
                within = False
            field = FIELD.match(line)
            if within and field:
                names.update([field.group(1)] + field.group(2).split())
            # a section's lemmas stand indented: a signature, and below it an equation of the same name
            inner = re.match(r"^(\s+)((?:(?:unfoldable|abbrev|pub) )*)([^\s(){},.;:]+)(?: \{[^}]*\})?\s+:(?:\s|$)", line)
            if inner and not (within and field):
                below = re.compile(re.escape(inner.group(1) + inner.group(3)) + r"(?: .*)?=")
                if "pub" in inner.group(2) or any(below.match(later) for later in lines[at + 1 : at + 9]):
                    names.add(inner.group(3))
    return names


def snake(name):
    for old, new in OLDER.items():
        name = re.sub(rf"(^|[-_]){old}(?![a-z])", rf"\g<1>{new}", name)
    name = re.sub(r"(?<=[a-z0-9₀-₉])([A-Z])", lambda m: "_" + m.group(1).lower(), name)
    return re.sub(r"(?<=\w)-(?=[\w'])", "_", name)


def wanted(name):
    if name[0].isupper() or name[0] in "+◌_" or not (name[0].isalpha()):
        return False
    return snake(name) != name


def turn(text, names):
    return WORD.sub(lambda m: names.get(m.group(0), m.group(0)), text)


def turn_source(text, names):
    out = []
    for line in text.split("\n"):
        pieces = re.split(r'(b?"(?:[^"\\]|\\.)*")', line)
        out.append("".join(p if i % 2 else turn(p, names) for i, p in enumerate(pieces)))
    return "\n".join(out)


def turn_page(text, names):
    return re.sub(r"`[^`\n]+`", lambda m: turn(m.group(0), names), text)


def main():
    names = {n: snake(n) for n in defined() if wanted(n)}
    taken = defined() - set(names)
    news = {}
    for old, new in sorted(names.items()):
        news.setdefault(new, []).append(old)
    together = {new: olds for new, olds in news.items() if len(olds) > 1 or new in taken}
    for new, olds in sorted(together.items()):
        print("together:", new, olds, "(taken)" if new in taken else "")
    # where a definition and a lemma fall together, the lemma gets _lem
    for new, olds in together.items():
        lemmas = [o for o in olds if "-" in o]
        if len(olds) == len(lemmas) + 1 or (new in taken and lemmas):
            names.update({o: new + "_lem" for o in lemmas})
        if new in taken and not lemmas:
            names[new] = new + "_lem"
    if "--dry" in sys.argv:
        for path in files("crates/**/*.antt") + files("crates/**/*.rt"):
            words = set(WORD.findall(read(path)))
            for old, new in names.items():
                if old in words and new in words:
                    print("beside:", os.path.relpath(path, ROOT), old, new)
        print(len(names), "names")
        return
    count = 0
    for pattern, how in [("crates/**/*.antt", turn), ("crates/**/*.rt", turn_source), ("crates/**/*.edit", turn), ("docs/*.md", turn_page), ("docs/landings/*.md", turn_page), ("README.md", turn_page), ("compare/**/*.md", turn_page), ("bindings/**/*.md", turn_page)]:
        for path in files(pattern):
            if os.path.basename(path) == "PORT.md":
                continue
            before = read(path)
            after = how(before, names)
            if after != before:
                count += 1
                with open(path, "w", encoding="utf-8") as f:
                    f.write(after)
    print(len(names), "names in", count, "files")


if __name__ == "__main__":
    main()
