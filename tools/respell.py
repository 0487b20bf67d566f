#!/usr/bin/env python3
"""Respells the repository's own definitions and lemmas: words in snake case, types in camel case.

usage: python3 tools/respell.py        at the top of the repository, once, after port.py

A name is ours where a file of specs/ or proofs/ declares it; names of goals and of the library stay. A dash beside an
operator stays too, as in `length-++`. Comments, strings and prose change only inside backticks. Names that fall together in
one file are printed, and nothing is written then.
"""
import os
import re
import sys

DECLARED = re.compile(r"^(\s*)((?:(?:abbrev|unfoldable|pub|data|record)\s+)*)([^\s(){}\[\];,.:]+)\s*(?:[({].*)?\s?:\s")
DERIVED = re.compile(r"deriving\s+\w+\s+as\s+(\S+)")
GOAL = re.compile(r":\s*(?:goal|need)\.")
NAME = re.compile(r"[^\s(){}\[\];,.`\"@λ:]+")
IMPORTED = re.compile(r"^\s*(?:pub |ghost )*use [^\s{]*\{([^}]*)\}")


def files(*endings):
    for folder, below, names in os.walk("crates"):
        below[:] = sorted(b for b in below if b != "out")
        for name in sorted(names):
            if name.endswith(endings):
                yield os.path.join(folder, name)


def read(path):
    with open(path, encoding="utf-8") as f:
        return f.read()


def respelled(name):
    if name[0].isupper():
        return "".join(word[0].upper() + word[1:] for word in name.split("-"))
    return re.sub(r"(?<=[A-Za-z0-9'])-(?=[A-Za-z0-9])", "_", name).replace("getD_", "get_or_")


def declared(text):
    """The names that a file declares, and those of them that are answers to goals."""
    own, goals = set(), set()
    for line in text.split("\n"):
        if line.lstrip().startswith(("--", "use ")):
            continue
        found = DECLARED.match(line)
        if found:
            (goals if GOAL.search(line) else own).add(found.group(3))
        own.update(DERIVED.findall(line))
    return own, goals


def locals_of(text, library):
    """Names with a dash that a file of lemmas binds itself: no import, no projection."""
    imported = set()
    for line in text.split("\n"):
        found = IMPORTED.match(line)
        if found:
            imported.update(re.split(r"[\s,]+", found.group(1)))
    bound = set()
    for line in text.split("\n"):
        if line.lstrip().startswith(("--", "use ")):
            continue
        for found in NAME.finditer(line.split("--")[0]):
            if line[: found.start()].endswith("."):
                continue
            bound.add(found.group(0))
    return {n for n in bound if re.fullmatch(r"[a-z][A-Za-z0-9']*(-[A-Za-z0-9']+)+", n) and n not in imported and n not in library}


def names():
    own, goals, library = set(), set(), set()
    for path in files(".antt"):
        ours, answers = declared(read(path))
        own |= ours
        goals |= answers
    for path in files(".antt", ".rt"):
        for line in read(path).split("\n"):
            found = IMPORTED.match(line)
            if found and re.search(r"use (Rattle\.std|native|lib|mathlib|Prim)\b", line):
                library.update(re.split(r"[\s,]+", found.group(1)))
    table = {n: respelled(n) for n in own - goals - library if "-" in n or n.startswith("getD")}
    for path in files(".antt"):
        if re.search(r"/(specs|proofs)/[A-Z]\w*\.antt$", path):
            table.update({n: respelled(n) for n in locals_of(read(path), library | goals)})
    return {a: b for a, b in table.items() if a != b}


def turned(text, table):
    return NAME.sub(lambda m: table.get(m.group(0), m.group(0)), text)


def turned_line(line, table, mark):
    """Code is turned whole, a comment or a string only inside backticks."""
    code, comment = line, ""
    at = line.find(mark)
    if at >= 0:
        code, comment = line[:at], line[at:]
    parts = re.split(r'("(?:[^"\\]|\\.)*")', code)
    parts = [p if p.startswith('"') else turned(p, table) for p in parts]
    return "".join(parts) + turned_prose(comment, table)


def turned_prose(text, table):
    return re.sub(r"`([^`]*)`", lambda m: "`" + turned(m.group(1), table) + "`", text)


def clashes(table):
    for path in files(".antt"):
        words = set(NAME.findall(read(path)))
        ours, _ = declared(read(path))
        for old, new in sorted(table.items()):
            if old in words and new in words and (old in ours and new in ours):
                yield path, old, new
    seen = {}
    for old, new in sorted(table.items()):
        if new in seen:
            yield "two names", f"{seen[new]}, {old}", new
        seen[new] = old


def main():
    table = names()
    found = list(clashes(table))
    for path, old, new in found:
        print(f"falls together: {path}: {old} and {new}")
    if found:
        sys.exit(1)
    for path in files(".antt", ".rt"):
        text = read(path)
        mark = "--" if path.endswith(".antt") else "//"
        out = "\n".join(turned_line(line, table, mark) for line in text.split("\n"))
        if out != text:
            with open(path, "w", encoding="utf-8") as f:
                f.write(out)
    for name in ["README.md"] + [os.path.join("docs", n) for n in sorted(os.listdir("docs")) if n.endswith(".md")]:
        text = read(name)
        out = turned_prose(text, table)
        if out != text:
            with open(name, "w", encoding="utf-8") as f:
                f.write(out)
    print(f"respelled {len(table)} names")


if __name__ == "__main__":
    main()
