#!/usr/bin/env python3
"""Brings this repository's own definitions and lemmas to the spelling of the library: words in snake case, types in camel case.

usage: python3 tools/snake_names.py          at the top of the repository, once, after the toolchain's own script

What follows `c.` in an answer, goals and invariants keep the names that the prover gives them, and so do the library's lemmas; text in quotes is left alone.
It says which names would fall together, and then changes nothing.
"""
import os
import re
import sys

NAME = r"[\w'·-]"
HEAD = re.compile(r"(?m)^ *(?:(?:abbrev|pub|unfoldable|record|data) )*(" + NAME + r"+)(?= (?:\{[^}]*\} |\([^)]*\) )*:(?: |$))")
GOAL = re.compile(r"\b(?:goal|given|need)\.(" + NAME + r"+)")
# Words of plain English that are also names: a comment keeps them.
ENGLISH = {"north-west", "line-feed"}


def files():
    for folder, dirs, names in os.walk("crates"):
        dirs[:] = sorted(d for d in dirs if d != "out")
        for name in sorted(names):
            if name.endswith((".rt", ".antt")):
                yield os.path.join(folder, name)


def respelled(name):
    if name[0].isupper():
        head, *rest = name.split("-")
        return head + "".join(word[:1].upper() + word[1:] for word in rest)
    return name.replace("eqZ", "eq_z").replace("-", "_")


def renamings(texts):
    own, goals, all_names = set(), set(), set()
    for path, text in texts.items():
        all_names.update(re.findall(NAME + "+", text))
        if path.endswith(".antt"):
            own.update(HEAD.findall(text))
            goals.update(GOAL.findall(text))
    table = {n: respelled(n) for n in own - goals if respelled(n) != n}
    clashes = [n for n in table if table[n] in all_names or list(table.values()).count(table[n]) > 1]
    return table, clashes


def rename(text, path, table):
    word = re.compile("(?<!" + NAME + ")(?<!\\bc\\.)(?:" + "|".join(sorted(map(re.escape, table), key=len, reverse=True)) + ")(?!" + NAME + ")")
    mark = "//" if path.endswith(".rt") else "--"
    lines = []
    for line in text.split("\n"):
        parts = re.split(r'("(?:[^"\\]|\\.)*")', line)
        comment = False
        for i, part in enumerate(parts):
            if i % 2 and not comment:
                continue
            at = part.find(mark)
            head, tail = (part, "") if comment or at < 0 else (part[:at], part[at:])
            if comment:
                head, tail = "", part
            comment = comment or at >= 0
            head = word.sub(lambda m: table[m.group()], head)
            tail = word.sub(lambda m: m.group() if m.group() in ENGLISH else table[m.group()], tail)
            parts[i] = head + tail
        lines.append("".join(parts))
    return "\n".join(lines)


def main():
    texts = {}
    for path in files():
        with open(path, encoding="utf-8") as f:
            texts[path] = f.read()
    table, clashes = renamings(texts)
    if "--list" in sys.argv:
        for n in sorted(table):
            print(n, table[n])
    if clashes:
        for n in clashes:
            print(f"{n} and another name would both be {table[n]}", file=sys.stderr)
        return 1
    if "--list" in sys.argv:
        return 0
    for path, text in texts.items():
        new = rename(text, path, table)
        if new != text:
            with open(path, "w", encoding="utf-8") as f:
                f.write(new)
    print(f"{len(table)} names")
    return 0


if __name__ == "__main__":
    sys.exit(main())
