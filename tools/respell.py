#!/usr/bin/env python3
"""Spells this repository's own definitions and lemmas in snake case, by the table respell.tsv beside it.

usage: tools/respell.py [FOLDER]     once, at the top, right after the scripts that turn an older repository's spelling

A row is: old name, new name, and for a name that means two things a third column, the files in which it turns.
It turns whole words alone: in .antt files everywhere, in .rt files in clauses and ghost items, in pages between backticks.
Functions, fields and types of src/ keep their names. It also writes #![tactic(auto)] into each root file that has no such line."""

import glob
import os
import re
import sys

HERE = os.path.dirname(os.path.abspath(__file__))
TOKEN = re.compile(r'"(?:[^"\\\n]|\\.)*"|[^\s(){}.;,@"«»\[\]\\`]+')
CLAUSE = re.compile(r"ghost use\b[^;]*;|(?:requires|ensures)\*?\s*(?:\w+\s*)?\{|ghost\s+\w+\s*:\s*\{|ghost\s+\w+\s*\{")
SPAN = re.compile(r"`[^`\n]+`")


def table(folder):
    everywhere, somewhere = {}, {}
    with open(os.path.join(HERE, "respell.tsv"), encoding="utf-8") as rows:
        for row in rows:
            old, new, *files = row.rstrip("\n").split("\t")
            if files:
                for file in files[0].split():
                    somewhere.setdefault(os.path.join(folder, file), {})[old] = new
            else:
                everywhere[old] = new
    return everywhere, somewhere


def turn(text, names):
    return TOKEN.sub(lambda it: it[0] if it[0].startswith('"') else names.get(it[0], it[0]), text)


def end_of_block(text, at):
    """The place behind the brace that closes the one that stands right before `at`."""
    deep = 1
    while deep and at < len(text):
        deep += (text[at] == "{") - (text[at] == "}")
        at += 1
    return at


def turn_clauses(text, names):
    out, at = [], 0
    for found in CLAUSE.finditer(text):
        if found.start() < at:
            continue
        line = text.rfind("\n", 0, found.start()) + 1
        if "//" in text[line : found.start()]:
            continue
        end = found.end() if found[0].endswith(";") else end_of_block(text, found.end())
        out += [text[at : found.start()], turn(text[found.start() : end], names)]
        at = end
    return "".join(out) + text[at:]


def with_tactic(text):
    if "#![tactic(" in text:
        return text
    lines = text.split("\n")
    at = next((i for i, line in enumerate(lines) if not line.startswith("//")), len(lines))
    return "\n".join(lines[:at] + ["#![tactic(auto)]"] + lines[at:])


def rewrite(path, new):
    with open(path, encoding="utf-8", newline="") as file:
        old = file.read()
    text = new(old)
    if text != old:
        with open(path, "w", encoding="utf-8", newline="") as file:
            file.write(text)


def main():
    folder = os.path.abspath(sys.argv[1] if len(sys.argv) > 1 else ".")
    everywhere, somewhere = table(folder)
    for path in sorted(glob.glob(folder + "/crates/*/specs/**/*.antt", recursive=True) + glob.glob(folder + "/crates/*/proofs/**/*.antt", recursive=True)):
        rewrite(path, lambda text, names={**everywhere, **somewhere.get(path, {})}: turn(text, names))
    for path in sorted(glob.glob(folder + "/crates/*/src/**/*.rt", recursive=True)):
        rewrite(path, lambda text: turn_clauses(text, everywhere))
    for path in sorted(glob.glob(folder + "/crates/*/src/*.rt")):
        if os.path.basename(path) in ("lib.rt", "main.rt"):
            rewrite(path, with_tactic)
    pages = glob.glob(folder + "/*.md") + glob.glob(folder + "/docs/*.md") + glob.glob(folder + "/host/*.md")
    for path in sorted(pages):
        rewrite(path, lambda text: SPAN.sub(lambda it: turn(it[0], everywhere), text))


if __name__ == "__main__":
    main()
