#!/usr/bin/env python3
"""Renames the two operators of crates/language/specs/Text.antt whose names today's library has for something else.

usage: python3 tools/own_operators.py      at the top of the repository; a second run changes nothing

`s == t` of texts becomes `s ≟ t`, and `if c then a else b` of any type becomes `when c then a else b`, in each file that takes them from
there, and in the edits of such files: `rt ci` refuses a clause or a definition in which the library's own `◌==◌` and `if◌then◌else◌` stand
for another thing. Strings and comments stay.
"""

import os
import re

TEXT = "Rattle.language.specs.Text"
HOME = "crates/language/specs/Text.antt"
NAMES = {"◌==◌": "◌≟◌", "if◌then◌else◌": "when◌then◌else◌"}
WORDS = {"◌==◌": ("==", "≟"), "if◌then◌else◌": ("if", "when")}
# a word, a string, a comment, or a mark by itself
PIECE = re.compile(r'"(?:\\.|[^"\\])*"|--[^\n]*|[^\s(){}.;,@"«»\[\]`]+|[\s\S]')
RUST_PIECE = re.compile(r'"(?:\\.|[^"\\])*"|//[^\n]*|[^\s(){}.;,@"«»\[\]`]+|[\s\S]')


def taken(path, text):
    """The operators that a file takes from Text.antt, or declares there."""
    found = set()
    for item in re.findall(r"use\s+" + re.escape(TEXT) + r"\.\{([^}]*)\}", text):
        found |= {it.strip() for it in item.split(",")} & {*NAMES, *NAMES.values()}
    if path == HOME:
        found |= {*NAMES}
    return {old for old, new in NAMES.items() if old in found or new in found}


def spelled(text, names, piece=PIECE):
    out = []
    for m in piece.finditer(text):
        word = m.group(0)
        for name in names:
            if word == name:
                word = NAMES[name]
            elif word == WORDS[name][0]:
                word = WORDS[name][1]
        out.append(word)
    return "".join(out)


def close(text, at):
    """Where the brace that opens at `at` is closed."""
    depth = 0
    for m in RUST_PIECE.finditer(text, at):
        depth += {"{": 1, "}": -1}.get(m.group(0), 0)
        if depth == 0:
            return m.end()
    return len(text)


def of_source(text, names):
    """A file of src/: its ghost uses, clauses and ghost items alone."""
    out, done = [], 0
    for m in re.finditer(r"ghost use [^;]*;|^ *(?:requires|ensures)\*?(?: \w+)? \{|\bghost \w+ ?[:=] ?\{", text, re.M):
        if m.start() < done:
            continue
        end = m.end() if m.group(0).endswith(";") else close(text, m.end() - 1)
        out += [text[done : m.start()], spelled(text[m.start() : end], names, RUST_PIECE)]
        done = end
    return "".join(out) + text[done:]


def of_edit(text, names_of, folder):
    lines = text.split("\n")
    names = set()
    for i, line in enumerate(lines):
        if line.startswith("file: "):
            path = f"{folder}/{line[6:].strip()}"
            names = names_of.get(path, set()) if path.endswith(".antt") else set()
        elif names and line.startswith(("old: ", "new: ")):
            lines[i] = line[:5] + spelled(line[5:], names)
    return "\n".join(lines)


def files(ending):
    for folder, dirs, names in os.walk("crates"):
        dirs[:] = sorted(d for d in dirs if d != "out")
        for name in sorted(names):
            if name.endswith(ending):
                yield f"{folder}/{name}"


def main():
    names_of = {}
    changed = 0
    for path in [*files((".antt", ".rt")), *files(".edit")]:
        with open(path, encoding="utf-8") as f:
            text = f.read()
        if path.endswith(".edit"):
            new = of_edit(text, names_of, os.path.dirname(os.path.dirname(path)))
        else:
            names_of[path] = names = taken(path, text)
            new = (of_source if path.endswith(".rt") else spelled)(text, names) if names else text
        if new != text:
            changed += 1
            with open(path, "w", encoding="utf-8") as f:
                f.write(new)
    print(f"own_operators: {changed} files")


main()
