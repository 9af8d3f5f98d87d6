#!/usr/bin/env python3
"""Brings this repository's own definitions and lemmas to today's spelling, after port.py: definitions and lemmas in snake case.

usage: python3 tools/respell.py        at the top, once, right after port.py and before any edit by hand

respell.tsv has the names, old and new. A lemma that would have the name of a definition gets _lem. It also derives Clone and Copy where
port.py derives Drop (every type of this repository is plain data, which was copied before), and lets the check try its tactics.
"""

import glob
import os
import re
import sys

HERE = os.path.dirname(os.path.realpath(__file__))
ROOT = os.path.dirname(HERE)
NEW = re.compile("-|[a-z][A-Z]")
TOKEN = re.compile(r'[^\s(){}\[\].,;"`]+')


def names():
    with open(os.path.join(HERE, "respell.tsv"), encoding="utf-8") as f:
        return dict(line.rstrip("\n").split("\t") for line in f)


def turned(text, table):
    """A name that is no more than snake case may also be a function's, so it is left alone in a path."""

    def one(m):
        it = m.group()
        if it in table and not NEW.search(it) and "." in text[m.start() - 1 : m.start()] + text[m.end() : m.end() + 1]:
            return it
        return table.get(it, it)

    return TOKEN.sub(one, text)


def comment(text, table):
    """In prose a name is known by its capital inside, or by the backticks round it."""
    plain = {k: v for k, v in table.items() if re.search("[a-z][A-Z]", k)}
    parts = text.split("`")
    return "`".join(turned(p, table if i % 2 else plain) for i, p in enumerate(parts))


def antt(text, table):
    out = []
    for line in text.split("\n"):
        code, mark, rest = line, "", ""
        at = re.search(r"(^|\s)--( |$)", line)
        if at:
            code, rest = line[: at.start()], line[at.start() :]
        out.append(turned(code, table) + (comment(rest, table) if rest else ""))
    return "\n".join(out)


def source(text, table):
    """Functions keep their names: of a source file only names that no function can have are turned."""
    table = {k: v for k, v in table.items() if NEW.search(k)}
    out = []
    for line in text.split("\n"):
        at = line.find("//")
        code, rest = (line, "") if at < 0 else (line[:at], line[at:])
        parts = re.split(r'("(?:[^"\\]|\\.)*")', code)
        out.append("".join(p if i % 2 else turned(p, table) for i, p in enumerate(parts)) + comment(rest, table))
    text = "\n".join(out)
    return text.replace("#[derive(Drop)]", "#[derive(Clone, Copy)]")


def with_tactic(text):
    """The line stands above the first item, below the page's own comment."""
    if "#![tactic(auto)]" in text:
        return text
    lines = text.split("\n")
    at = next((i for i, l in enumerate(lines) if not l.startswith("//")), len(lines))
    return "\n".join(lines[:at] + ["#![tactic(auto)]", ""] + lines[at:])


def main():
    table = names()
    for path in sorted(glob.glob(os.path.join(ROOT, "crates/*/**/*"), recursive=True)):
        if "/out/" in path or not path.endswith((".rt", ".antt")):
            continue
        with open(path, encoding="utf-8") as f:
            before = f.read()
        after = antt(before, table) if path.endswith(".antt") else source(before, table)
        if re.search(r"/src/(lib|main)\.rt$", path):
            after = with_tactic(after)
        if after != before:
            with open(path, "w", encoding="utf-8") as f:
                f.write(after)
    return 0


if __name__ == "__main__":
    sys.exit(main())
