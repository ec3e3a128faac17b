#!/usr/bin/env python3
"""Counts, in crates/*/src, the places that docs/DESIGN-PASS.md speaks of. usage: tools/places.py [--list] [POINT..]

By text alone, so that it can be run on any commit. A point's rule stands at its function."""
import collections
import glob
import os
import re
import sys


def sources():
    for path in sorted(glob.glob("crates/*/src/**/*.rt", recursive=True)):
        yield path, re.sub(r"//[^\n]*", "", open(path, encoding="utf-8").read())


def functions(text):
    """Each function with its head, its clauses and its body."""
    for m in re.finditer(r"^( *)(?:#\[[^\n]*\n\1)*(?:pub(?:\([a-z]+\))? )?(?:extern \"C\" )?fn (\w+)", text, re.M):
        indent = m[1]
        end = re.compile(r"^" + indent + r"\}", re.M).search(text, m.end())
        if not end:
            continue
        whole = text[m.start() : end.end()]
        cut = re.compile(r"^" + indent + r"\{", re.M).search(whole)
        at = cut.start() if cut else whole.index("{")
        yield m[2], whole[:at], whole[at:]


def line(text, at):
    return text.count("\n", 0, at) + 1


def point_1():
    """Enums with one variant that holds something beside one to three that hold nothing and stand for its absence or for a refusal; functions
    that answer 0, 1 or 2 for a kind."""
    for path, text in sources():
        for m in re.finditer(r"^(?:pub )?enum (\w+) \{\n(.*?)^\}", text, re.M | re.S):
            flat = re.sub(r"\{[^}]*\}|\([^)]*\)", "()", m[2])
            variants = [v.strip() for v in flat.split(",") if v.strip()]
            empty = [v for v in variants if "()" not in v]
            full = [v for v in variants if "()" in v]
            gone = {"No", "Missing", "Bad", "End", "Absent", "Broken", "Full", "Denied", "Failed", "Heavy", "Mistaken", "Defined"}
            if full and len(full) <= 2 and (any(v in gone for v in empty) or any(v.startswith(("Refused", "Over")) for v in full)) and all(v in gone for v in empty):
                yield f"{path}:{line(text, m.start())} enum {m[1]}"
        for name, head, body in functions(text):
            if re.search(r"-> (?:usize|u8|u16|u32|u64)\b", head) and len(re.findall(r"(?:return [012];|^ +[012]$)", body, re.M)) >= 2:
                yield f"{path} fn {name} answers 0, 1 or 2"


def normal(body):
    body = re.sub(r'b?"[^"]*"|b?\'[^\']*\'|\b\d+\b', "L", body)
    body = re.sub(r"\b[A-Z]\w*(?:::[A-Z]\w*)*", "T", body)
    return re.sub(r"\s+", " ", body)


def point_2():
    """Functions whose bodies are the same but for literals, types and variants, and two statements long at least."""
    same = collections.defaultdict(list)
    for path, text in sources():
        for name, head, body in functions(text):
            if body.count(";") + body.count("=>") >= 2:
                same[normal(body)].append(f"{path} fn {name}")
    for group in same.values():
        if len(group) > 1:
            yield " = ".join(group)


def point_3():
    """Loops that move an index by one."""
    for path, text in sources():
        for m in re.finditer(r"^( *)(?:'\w+: )?(?:while ([^\n]*)|loop) \{\n(.*?)^\1\}", text, re.M | re.S):
            step = re.findall(r"^\s*(\w+) [+-]= 1;", m[3], re.M)
            if m[2] and any(re.search(rf"\b{v}\b", m[2]) for v in step):
                yield f"{path}:{line(text, m.start())} while {m[2]}"


def point_4():
    """Functions whose whole body is a cast, one operator or one comparison, and loops that compare two texts byte by byte."""
    for path, text in sources():
        for name, head, body in functions(text):
            flat = re.sub(r"\s+", " ", body.strip()[1:-1]).strip()
            if re.fullmatch(r"\w+ as \w+|(?:\w+|0) [-+*/%<>] \w+|\w+ (?:==|!=|<=|>=) \w+", flat):
                yield f"{path} fn {name}: {flat}"
            elif "while" in body and re.search(r"(\w+)\[(\w+)\] != (\w+)\[\2\]", body):
                yield f"{path} fn {name}: compares two texts"


def point_5():
    """Groups of three parameters or more, with their types, that five functions or more have in a row; and `at ≤ length text` in contracts."""
    groups = collections.Counter()
    where = collections.defaultdict(set)
    bound = 0
    for path, text in sources():
        for name, head, body in functions(text):
            bound += bool(re.search(r"at ≤ length text\.now", head))
            sig = head.split("->")[0]
            params = re.findall(r"(\w+): ([^,()]+(?:\([^)]*\))?)", sig)
            seen = set()
            for n in range(3, len(params) + 1):
                for i in range(len(params) - n + 1):
                    seen.add(tuple(f"{a}: {b.strip()}" for a, b in params[i : i + n]))
            for g in seen:
                groups[g] += 1
                where[g].add(path)
    kept = {g: k for g, k in groups.items() if k >= 5}
    maximal = [g for g in kept if not any(len(h) > len(g) and set(g) < set(h) and kept[h] == kept[g] for h in kept)]
    for g in sorted(maximal, key=lambda g: -kept[g]):
        if not any(len(h) > len(g) and set(g) < set(h) and kept[h] * 2 >= kept[g] for h in maximal):
            yield f"{kept[g]} functions in {len(where[g])} files: {', '.join(g)}"
    if bound:
        yield f"{bound} functions: at ≤ length text.now"


def point_6():
    """Arrays of a fixed size that are passed with a count of what is used, or are a field beside one."""
    for path, text in sources():
        for name, head, body in functions(text):
            if re.search(r"\w+: &?(?:mut )?\[\w+; \d+\],\s*\w+: usize", head):
                yield f"{path} fn {name}"
        for m in re.finditer(r"struct (\w+)[^{]*\{([^}]*)\}", text):
            if re.search(r"\[\w+; \d+\]", m[2]) and "usize" in m[2]:
                yield f"{path} struct {m[1]}"


def point_7():
    """Functions that are told by an enum without values, a letter or a flag which of their steps to take."""
    for path, text in sources():
        for name, head, body in functions(text):
            for p in re.findall(r"(\w+): (?:bool|Way|Form|Alphabet)\b", head):
                if re.search(rf"match {p}\b|if !?{p}\b", body):
                    yield f"{path} fn {name} by {p}"


def point_8():
    """Files of answers, and lemmas."""
    answers = glob.glob("crates/*/proofs/**/Answers.antt", recursive=True)
    lines = sum(len(open(p, encoding="utf-8").read().splitlines()) for p in answers)
    lemmas = 0
    for p in glob.glob("crates/*/proofs/*.antt"):
        lemmas += len(re.findall(r"^ *pub (?!mod)[\w'◌]+", open(p, encoding="utf-8").read(), re.M))
    yield f"{len(answers)} files of answers, {lines} lines"
    yield f"{lemmas} lemmas and definitions of proofs that others may cite"


def main():
    words = sys.argv[1:]
    show = "--list" in words
    points = [w for w in words if w != "--list"] or [str(n) for n in range(1, 9)]
    os.chdir(os.path.join(os.path.dirname(os.path.abspath(__file__)), ".."))
    for n in points:
        places = list(globals()[f"point_{n}"]())
        print(f"point {n}: {len(places)}")
        if show or n in "58":
            for p in places:
                print("   ", p)


main()
