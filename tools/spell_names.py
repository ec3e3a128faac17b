#!/usr/bin/env python3
"""Respells the names that this repository declares in specs/ and proofs/ as CONTRACT_STYLE.md of the kit wants them.

usage: python3 tools/spell_names.py [--list]      at the top of the repository, once, right after the kit's port.py

Definitions, lemmas, fields and constructors become snake case, also where a dash joined words; a definition whose value is a type becomes
upper camel case. Functions and types of src/ keep their names, and so do strings and the names that Rattle makes from the source (which
Proof.antt files cite). --list prints the table and the names that would fall together, and writes nothing.
"""

import collections
import os
import re
import sys

ROOT = "crates"
TOKEN = re.compile(r"[^\s(){}.;,@\"«»\[\]`]+")
DECLARES = re.compile(r"^( *)((?:(?:abbrev|unfoldable|pub|data|record|mutual)\s+)*)([^\s(){}.;,@\"]+)((?:\s+(?:\{[^{}]*\}|\([^()]*\)))*)\s*:(?=\s|$)(.*)$")
# what a script before this one turned in uses and left in the declaration
OPERATORS = {"◌orElse◌": "◌or_else◌"}
# lemmas and fields that already had the snake-case name which a definition gets now
GIVES_WAY = {
    "same_assertion": "same_assertion_lem",
    "same_bool": "same_bool_lem",
    "same_class": "same_class_lem",
    "same_flag": "same_flag_lem",
    "first_byte": "first_byte_lem",
    "is_word": "is_word_lem",
    "is_name": "name_holds",
}
# names that want another spelling
OTHERWISE: dict[str, str] = {}


def sources(root):
    for folder, dirs, files in os.walk(root):
        dirs[:] = sorted(d for d in dirs if d not in ("out", "target", ".git"))
        for f in sorted(files):
            if f.endswith((".antt", ".rt", ".edit")):
                yield os.path.join(folder, f)


def snake(name):
    word = name.replace("-", "_").replace("′", "'")
    word = re.sub(r"(?<=[a-z0-9])([A-Z])", lambda m: "_" + m.group(1).lower(), word)
    return word


def camel(name):
    word = re.sub(r"[-_]([a-z])", lambda m: m.group(1).upper(), name).replace("′", "'")
    return word[0].upper() + word[1:]


def signature(lines, i, rest):
    """The type that stands behind the colon, also over the lines below it."""
    text = rest
    indent = len(lines[i]) - len(lines[i].lstrip())
    j = i + 1
    while j < len(lines) and lines[j].strip() and len(lines[j]) - len(lines[j].lstrip()) > indent:
        text += " " + lines[j].strip()
        j += 1
    return text.strip()


def declared():
    """Each name that specs/ or a file of laws declares, with what its type ends in."""
    kinds = collections.defaultdict(set)
    for path in sources(ROOT):
        part = path.split(os.sep)
        if not path.endswith(".antt") or part[2] not in ("specs", "proofs") or part[-1] == "Proof.antt":
            continue
        with open(path, encoding="utf-8") as f:
            lines = f.read().split("\n")
        for i, line in enumerate(lines):
            if line.lstrip().startswith("--"):
                continue
            m = DECLARES.match(line)
            if not m:
                continue
            words = m.group(2).split()
            name = m.group(3)
            if name in ("where", "→", "λ", "let", "in", "=", "use", "elim", "|", "_") or name.startswith("("):
                continue
            ends = signature(lines, i, m.group(5))
            is_type = "data" in words or "record" in words or bool(re.search(r"(?:^|→ )Type(?: \d| ℓ)?$", ends))
            kinds[name].add("type" if is_type else "word")
    return kinds


def table(kinds):
    rows = {}
    for name, kind in sorted(kinds.items()):
        if "◌" in name:
            new = OPERATORS.get(name, name)
        elif kind == {"type"}:
            new = camel(name)
        elif name[0].isupper() and kind == {"word"}:
            new = name
        elif kind == {"type", "word"}:
            new = camel(name) if name[0].isupper() else snake(name)
        else:
            new = snake(name)
        new = OTHERWISE.get(name, new)
        if new != name:
            rows[name] = new
    # A lemma that would have its definition's name gets _lem.
    taken = set(kinds) | {new for old, new in rows.items() if "-" not in old}
    for old, new in list(rows.items()):
        if "-" in old and new in taken:
            rows[old] = new + "_lem"
    return rows


def tokens(text):
    """The names that stand by themselves: a word behind a dot is a field or a part of a path, and hides nothing."""
    return [m.group(0) for m in TOKEN.finditer(text) if m.start() == 0 or text[m.start() - 1] != "."]


QUIET = re.compile(r'"(?:[^"\\\n]|\\.)*"')


def turned(text, rows):
    out, at = [], 0
    for m in QUIET.finditer(text):
        out.append(TOKEN.sub(lambda t: rows.get(t.group(0), t.group(0)), text[at:m.start()]))
        out.append(m.group(0))
        at = m.end()
    out.append(TOKEN.sub(lambda t: rows.get(t.group(0), t.group(0)), text[at:]))
    return "".join(out)


def main(argv):
    if not os.path.isdir(ROOT):
        raise SystemExit("run it at the top of the repository")
    rows = table(declared())
    texts = {}
    for path in sources(ROOT):
        with open(path, encoding="utf-8") as f:
            texts[path] = f.read()
    meets = collections.defaultdict(set)
    by_new = collections.defaultdict(set)
    for old, new in rows.items():
        by_new[new].add(old)
    for path, text in texts.items():
        here = set(tokens(QUIET.sub(" ", text)))
        for old in here & rows.keys():
            if rows[old] in here:
                meets[(old, rows[old])].add(path)
    if argv == ["--list"]:
        for old, new in sorted(rows.items()):
            print(f"{old}\t{new}")
        for new, olds in sorted(by_new.items()):
            if len(olds) > 1:
                print(f"together: {sorted(olds)} -> {new}")
        for (old, new), paths in sorted(meets.items()):
            print(f"meets: {old} -> {new}: {len(paths)} {sorted(paths)[:3]}")
        return 0
    for path, text in texts.items():
        new = turned(text, GIVES_WAY) if path.endswith(".antt") else text
        new = turned(new, rows)
        if new != text:
            with open(path, "w", encoding="utf-8") as f:
                f.write(new)
    return 0


if __name__ == "__main__":
    raise SystemExit(main(sys.argv[1:]))
