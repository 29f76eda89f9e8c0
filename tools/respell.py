#!/usr/bin/env python3
"""Spells the repository's own definitions and lemmas as today's Rattle does: words in snake case.

Run once at the top, after the kit's port.py: python3 tools/respell.py
A name that an .antt file declares (`name : ..`, a record's field, a constructor) and that has a dash or
starts small and has a capital gets underscores, wherever it stands as a whole word in an .antt file or in a
ghost item or clause of an .rt file. Names that the check makes (answers to a goal) keep theirs, and so do
types, modules and functions.
"""
import re
import sys
from pathlib import Path

TOKEN = re.compile(r"[A-Za-z_'0-9·₀-₉-]+")
DECLARED = re.compile(r"^\s*(?:abbrev\s+)?(?:pub\s+)?(?:private\s+)?([a-z][A-Za-z0-9_'-]*)\s*:(?=\s|$)")
LET = re.compile(r"\blet\s+([a-z][A-Za-z0-9_'-]*)\s*(?:=|:)(?=\s)")


# Where the plain spelling is that of a function of the sources.
OTHERS = {"isSlot": "says_slot", "isUsed": "says_something"}


def spelled(name):
    if name in OTHERS:
        return OTHERS[name]
    snake = re.sub(r"(?<=[A-Za-z0-9'])-(?=[A-Za-z0-9])", "_", name)
    return re.sub(r"(?<=[a-z0-9])([A-Z])", lambda m: "_" + m.group(1).lower(), snake)


def declared(path):
    """The names that a file declares, but for answers to goals and the invariants that the check asks for."""
    for line in path.read_text().split("\n"):
        found = DECLARED.match(line)
        if found and not re.search(r":\s*goal\.", line):
            yield found.group(1)
        for name in LET.findall(line):
            yield name


def main():
    antt = sorted(Path("crates").glob("*/specs/**/*.antt")) + sorted(Path("crates").glob("*/proofs/**/*.antt"))
    source = sorted(Path("crates").glob("*/src/**/*.rt"))
    names = {}
    for path in antt:
        for name in declared(path):
            if spelled(name) != name:
                names[name] = spelled(name)
    answers = set()
    for path in antt:
        answers |= set(re.findall(r"^pub (\S+) : goal\.", path.read_text(), re.M))
    for name in sorted(answers & set(names)):
        print("kept, an answer's name:", name)
        del names[name]
    words = set()
    for path in antt + source:
        words |= set(TOKEN.findall(path.read_text()))
    new = {}
    for name, to in sorted(names.items()):
        if to in words:
            print("falls together:", name, to)
        if to in new:
            print("two become one:", new[to], name, to)
        new[to] = name
    if "--dry" in sys.argv:
        print(len(names), "names")
        print(*sorted(names), sep="\n")
        return
    for path in antt + source:
        old = path.read_text()
        text = TOKEN.sub(lambda m: names.get(m.group(0), m.group(0)), old)
        if text != old:
            path.write_text(text)
    print(len(names), "names respelled")


if __name__ == "__main__":
    main()
