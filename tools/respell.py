#!/usr/bin/env python3
"""Spells the project's own words in snake case, as the library's are: crcBit becomes crc_bit. Types, facts and modules keep their capitals.

usage: tools/respell.py [--check]

At the top of the repository. It rewrites each such word in specs/ and proofs/, in the clauses and `ghost use` lines of src/, in the
must-fail edits and in the pages; --check writes nothing, and prints the words that would fall together with another.
"""

import os
import re
import sys

WORD = re.compile(r"(?<![\w'₀-₉.-])[a-z][\w'₀-₉]*(?:-[\w'₀-₉]+)*|(?<=[.-])[a-z][\w'₀-₉]*(?:-[\w'₀-₉]+)*")
HUMP = re.compile(r"[a-z0-9][A-Z]")
# Lemmas that would have the name that a definition gets, and words that have the library's own in them.
APART = {
    "block_words": "block_words_lem",
    "getD-run": "get_or-run",
    "next_power": "next_power_lem",
    "one_by_one": "one_by_one_lem",
    "read_number": "read_number_lem",
}
LISTS = re.compile(r"use ([\w.+·'-]+)\.\{([^}]*)\}")


def files(ending, *tops):
    for top in tops:
        for folder, folders, names in os.walk(top):
            folders[:] = sorted(f for f in folders if f not in ("out", ".git", "target"))
            for name in sorted(names):
                if name.endswith(ending):
                    yield os.path.join(folder, name)


def read(path):
    with open(path, encoding="utf-8", newline="") as f:
        return f.read()


def part(word):
    if not HUMP.search(word) or not word[0].islower():
        return word
    return re.sub(r"(?<=[a-z0-9])([A-Z])", lambda m: "_" + m[1], word).lower()


def spelled(word):
    return APART.get(word) or "-".join(part(p) for p in word.split("-"))


def words():
    """Each word of specs/ and proofs/ that has a hump, and its new spelling."""
    found = dict(APART)
    for path in files(".antt", "crates"):
        for word in WORD.findall(read(path)):
            if HUMP.search(word) and spelled(word) != word:
                found[word] = spelled(word)
    for path in files(".rt", "crates"):
        for line in re.findall(r"(?m)^\s*ghost use .*", read(path)):
            for word in re.findall(r" as (\w+)", line):
                if HUMP.search(word) and spelled(word) != word:
                    found[word] = spelled(word)
    return found


def turned(text, table):
    return WORD.sub(lambda m: table.get(m[0]) or spelled_known(m[0], table), text)


def spelled_known(word, table):
    parts = word.split("-")
    return "-".join(table.get(p, p) for p in parts)


def clauses(text, table):
    """The text of a source file with its clauses, `ghost` lines and comments turned; the code stays."""
    out, depth = [], 0
    for line in text.split("\n"):
        ghost = re.match(r"\s*(ghost |requires|ensures|//)", line) or depth
        if re.match(r"\s*(ghost use|requires|ensures)", line) or depth:
            depth += line.count("{") - line.count("}")
        out.append(turned(line, table) if ghost else line)
    return "\n".join(out)


def main():
    table = words()
    news = {}
    for old, new in table.items():
        news.setdefault(new, []).append(old)
    together = {n: o for n, o in news.items() if len(o) > 1}
    for path in list(files(".antt", "crates")) + list(files(".rt", "crates")):
        text = read(path)
        here = set(WORD.findall(text))
        for new, olds in news.items():
            if new in here and any(o in here for o in olds):
                print(f"{path}: {new} stands beside {olds}")
    for n, o in together.items():
        print(f"{n}: {o}")
    if "--check" in sys.argv:
        return
    texts = [(p, turned) for p in files(".antt", "crates")]
    texts += [(p, clauses) for p in files(".rt", "crates")]
    texts += [(p, turned) for p in files(".edit", "crates")]
    texts += [(p, turned) for p in list(files(".md", "docs")) + ["README.md", "CONTRIBUTING.md"]]
    for path, turn in texts:
        old = read(path)
        new = turn(old, table)
        if new != old:
            with open(path, "w", encoding="utf-8", newline="") as f:
                f.write(new)


if __name__ == "__main__":
    main()
