#!/usr/bin/env python3
"""Spells the repository's own definitions and lemmas in snake case, by names.tsv beside this file.

usage: python3 tools/spell_names.py, once, at the top of a checkout that Rattle's port.py has just turned

A row of names.tsv has an old name and its new one. In specs/ and proofs/ each row is applied to whole names, but not to a
label that Rattle makes in a function's Answers and Invariants. In src/, in comments and in what documents quote, only rows
whose old name Rust could not have written are applied, and in a comment none with a dash, since plain words have dashes too.
Functions of src/, strings, inputs, outputs and edits stay as they are.
"""

import os
import re

HERE = os.path.dirname(os.path.realpath(__file__))
TOP = os.path.dirname(HERE)
NAME = re.compile(r'[^\s(){}.;,@"«»]+')
WORD = re.compile(r"(?<![\w-])[A-Za-z][\w-]*(?![\w-])")
LABELLED = re.compile(r"/proofs/(.*/)?(Answers|Invariants)\.antt$")
MADE = re.compile(r"(?<![^\s(){}.;,])(goal|c|w|l|g)\.$")


def rows():
    with open(os.path.join(HERE, "names.tsv"), encoding="utf-8") as table:
        return dict(line.rstrip("\n").split("\t") for line in table)


def comment_from(line, mark):
    """Where the comment of a line begins: at its end where it has none."""
    found = re.search(rf"(^|\s){mark}(\s|$)", line)
    return found.start() if found else len(line)


def spelled(text, names, labelled):
    def turn(found):
        if labelled and MADE.search(found.string, max(0, found.start() - 6), found.start()):
            return found[0]
        return names.get(found[0], found[0])

    def of_line(line):
        at = comment_from(line, "--")
        return NAME.sub(turn, line[:at]) + spelled_words(line[at:], plain(names))

    return "\n".join(map(of_line, text.split("\n")))


def plain(names):
    return {old: new for old, new in names.items() if "-" not in old and re.search("[A-Z]", old)}


def spelled_source(text, names):
    def of_line(line):
        at = comment_from(line, "//")
        return spelled_words(line[:at], names) + spelled_words(line[at:], plain(names))

    return "\n".join(map(of_line, text.split("\n")))


def spelled_words(text, names):
    return WORD.sub(lambda found: names.get(found[0], found[0]), text)


def spelled_page(text, names):
    return re.sub(r"`[^`\n]+`", lambda found: spelled_words(found[0], names), text)


def turned(path, text, names, foreign):
    if path.endswith(".antt"):
        return spelled(text, names, LABELLED.search(path) is not None)
    if path.endswith(".rt"):
        return spelled_source(text, foreign)
    return spelled_page(text, foreign)


def main():
    names = rows()
    foreign = {old: new for old, new in names.items() if re.search("[A-Z-]", old)}
    for folder in ("crates", "docs", "README.md"):
        top = os.path.join(TOP, folder)
        paths = [top] if os.path.isfile(top) else [os.path.join(at, it) for at, _, its in os.walk(top) for it in its]
        for path in paths:
            if "/out/" in path or not path.endswith((".antt", ".rt", ".md")):
                continue
            with open(path, encoding="utf-8") as source:
                text = source.read()
            new = turned(path, text, names, foreign)
            if new != text:
                with open(path, "w", encoding="utf-8") as target:
                    target.write(new)


if __name__ == "__main__":
    main()
