#!/usr/bin/env python3
"""Spells the repository's own definitions and lemmas as Rattle spells its own: tools/respelled.tsv has the old name and the new one, a line each.

usage: tools/respell.py [FILE..]     without a file: each .rt and .antt file below crates/

In a .rt or .antt file each name is turned, but in a comment only between backticks, and in no string. In any other file only between backticks.
It was run once, right after the kit's port.py, and changes nothing where it has run.
"""
import os
import re
import sys

HERE = os.path.dirname(os.path.realpath(__file__))
TOKEN = re.compile(r"(--|//)[^\n]*|\"(?:[^\"\\]|\\.)*\"|[^\s(){}.;,@\"«»\[\]\\]+")
WORD = re.compile(r"[^\s(){}.;,@\"«»\[\]\\`]+")


def names():
    with open(os.path.join(HERE, "respelled.tsv"), encoding="utf-8") as rows:
        return dict(row.rstrip("\n").split("\t") for row in rows)


def quoted(text, to):
    """Turns the names between backticks."""
    return re.sub(r"`[^`\n]*`", lambda q: WORD.sub(lambda w: to.get(w[0], w[0]), q[0]), text)


def turned(text, to):
    """Turns the names of a source file."""
    def each(token):
        it = token[0]
        if it.startswith('"'):
            return it
        if it.startswith(("--", "//")):
            return quoted(it, to)
        return to.get(it, it)
    return TOKEN.sub(each, text)


def sources():
    for folder, folders, files in os.walk(os.path.join(os.path.dirname(HERE), "crates")):
        folders[:] = [it for it in folders if it != "out"]
        yield from (os.path.join(folder, it) for it in files if it.endswith((".rt", ".antt")))


def main(paths):
    to = names()
    for path in paths or sources():
        with open(path, encoding="utf-8") as file:
            text = file.read()
        new = turned(text, to) if path.endswith((".rt", ".antt")) else quoted(text, to)
        if new != text:
            with open(path, "w", encoding="utf-8") as file:
                file.write(new)


if __name__ == "__main__":
    main(sys.argv[1:])
