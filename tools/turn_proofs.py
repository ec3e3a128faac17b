#!/usr/bin/env python3
"""Turns a Proof.antt of the older toolchain, a list of needs passed to tie.spec, into Invariants.antt and Answers.antt.

usage: python3 tools/turn_proofs.py NAMES CRATE [FUNCTION..]     at the top of the repository

NAMES is the folder that 'rattle check --generated NAMES --old-names' wrote for the crate. Of each function it maps the places of the code, which a
Proof.antt reaches by a chain of '.before', to the steps by name of an answer. An answer that only says 'search rules' is left out, since the check
tries that and more. What cannot be turned is said, and the Proof.antt then stays.
"""

import json
import os
import re
import sys

NAME = r"[^\s(){}.;,@\"«»\[\]`]+"
PATH = re.compile(rf"(?<![^\s(){{}};,\[\]←])({NAME})((?:\.{NAME})*)")
LET = re.compile(rf"let +({NAME}) += +({NAME}(?:\.{NAME})*) +in(?=\s)[ ]*\n?")


def blocks(text):
    """The top-level declarations of a file, with the comments above each."""
    out, now = [], []
    seen = None
    for line in text.split("\n"):
        head = re.match(rf"(?:(?:abbrev|pub|unfoldable) +)*({NAME})", line)
        if line[:1].strip() and not line.startswith(("--", "}", ")")):
            name = line.split(" ")[0] if line.startswith(("use ", "module ", "infix", "open ", "data ", "record ")) else head.group(1)
            follows = seen == name and name not in ("use", "module", "open", "data", "record") and not re.match(rf"(?:(?:abbrev|pub|unfoldable) +)*{re.escape(name)} +:(\s|$)", line)
            if line.startswith("unfolding "):
                follows = True
            if not follows:
                out.append((seen, now))
                kept = []
                while now and now[-1].startswith("--"):
                    kept.insert(0, now.pop())
                now = kept
                seen = name
        now.append(line)
    out.append((seen, now))
    return [(n, "\n".join(b).strip("\n")) for n, b in out if "\n".join(b).strip()]


def inner(segs):
    """A path without the '.before's that lead it; a variable of the code may have that name too."""
    k = 0
    while k < len(segs) and segs[k] == "before":
        k += 1
    return segs[k:]


def plain(name):
    return name.replace("-", "_").lower()


CLAUSES = {}
SEGMENTS = {"type-inv": "type_inv", "well-formed": "well_formed"}


def clauses(crate):
    """The clauses of each function of a crate by kind, as (name of the function, file) to {'requires': names, 'ensures': names}."""
    if crate in CLAUSES:
        return CLAUSES[crate]
    found = {}
    for folder, _, files in os.walk(f"crates/{crate}/src"):
        for f in files:
            if not f.endswith(".rt"):
                continue
            with open(os.path.join(folder, f), encoding="utf-8") as it:
                text = it.read()
            for m in re.finditer(r"\bfn (\w+)\b.*?(?=\n *\{\n|\{\n|;\n|\Z)", text, re.S):
                # from the name to the body, which begins a line
                head = re.match(r".*?(?=\n *\{ *(?:\n|\}))", text[m.start():] + "\n{\n", re.S).group(0)
                row = {"requires": [], "ensures": []}
                for kind, name in re.findall(r"\b(requires|ensures)\b *(\w*) *\{", head):
                    row[kind].append(name)
                found.setdefault(m.group(1), row)
                found[(m.group(1), f[:-3])] = row
    CLAUSES[crate] = found
    return found


def contract(path):
    """The clauses of crate::module::function."""
    parts = path.split("::")
    rows = clauses(parts[0])
    return rows.get((parts[-1], parts[-2])) or rows.get(parts[-1]) or {"requires": [], "ensures": []}


def ending(body):
    """A body as its leading lets and what follows them."""
    at = 0
    while True:
        m = re.match(r"\s*let\b", body[at:])
        if not m:
            break
        depth, i = 0, at + m.end()
        lets = 1
        while i < len(body):
            ch = body[i]
            if ch in "([{":
                depth += 1
            elif ch in ")]}":
                depth -= 1
            elif depth == 0 and re.match(r"(?<=\s)let\b(?=\s)", body[i:]) and body[i - 1].isspace():
                lets += 1
            elif depth == 0 and body[i - 1].isspace() and re.match(r"in(?=\s)", body[i:]):
                lets -= 1
                if lets == 0:
                    break
            i += 1
        else:
            break
        at = i + 2
    return body[:at], body[at:]


def parts(text):
    """The members of a tuple, or None."""
    t = text.strip()
    if not (t.startswith("(") and t.endswith(")")):
        return None
    depth, out, start = 0, [], 1
    for i, ch in enumerate(t):
        if ch in "([{":
            depth += 1
        elif ch in ")]}":
            depth -= 1
            if depth == 0 and i != len(t) - 1:
                return None
        elif ch == "," and depth == 1:
            out.append(t[start:i])
            start = i + 1
    out.append(t[start:-1])
    out = [o.strip() for o in out]
    if out and not out[-1]:
        out.pop()
    return out


def by_clause(body, names):
    """The answer to a goal of several clauses, by their names."""
    if not names or "" in names:
        return body
    lead, last = ending(body)
    if len(names) == 1:
        if re.match(r"\s*(?:search|grind|omega)\b", last):
            return body
        return lead + (" " if lead else "") + "record { " + names[0] + " = " + last.strip() + " }"
    members = parts(last)
    if members is None:
        if re.match(r"\s*(?:search|grind|omega|elim|λ|record|absurd|cc|rw|simp|subst)\b", last):
            return body
        return lead + (" " if lead else "") + "let both = " + last.strip() + " in record { " + "; ".join(f"{n} = both.{i}" for i, n in enumerate(names)) + " }"
    while len(members) < len(names) and parts(members[-1]) and len(parts(members[-1])) > 1:
        members = [*members[:-1], *parts(members[-1])]
    if len(members) != len(names):
        return body
    return lead + (" " if lead else "") + "record {\n      " + ";\n      ".join(f"{n} = {x}" for n, x in zip(names, members)) + ";\n    }"


def by_name(rest, names):
    """The path behind several clauses, which were nested pairs: .0, .1.0, .1.1 of three."""
    n = len(names)
    for k in range(n):
        want = ["1"] * k + (["0"] if k < n - 1 else [])
        if rest[: len(want)] == want:
            return [names[k], *rest[len(want):]]
    return None


class Function:
    def __init__(self, info, crate, where):
        self.info = info
        self.own = contract("::".join([crate, *where.split(".")]))
        self.callees = {}
        self.params = {}
        self.args = {}
        for a, b in info["args"]:
            a, b = (tuple(w.lstrip(".") for w in x.split()) for x in (a, b))
            self.args[a] = b
        self.needs = {}
        for old, new in info["needs"]:
            self.needs[plain(old)] = new
        self.fields = {}
        self.sub = {}
        self.clause = {}
        self.arm = {}
        for i, (place, parent, (old, new), callee, subs) in enumerate(info["places"]):
            if not old:
                continue
            self.fields.setdefault(plain(old), []).append(new)
            for a, b in subs:
                self.sub.setdefault((plain(old), a), b)
            if callee:
                self.callees[new + "-requires"] = callee
                self.params.setdefault(plain(old), info["params"].get(callee, []))
            c = info["clauses"][i]
            if c and c.get("fields"):
                self.clause[plain(old)] = c["fields"]
            arm = info["arms"][i]
            if arm:
                name, depth, rows = arm
                for field, of, path in rows:
                    if field.endswith("-own"):
                        continue
                    key = (plain(of), tuple(path))
                    self.arm.setdefault(key, (name, field))
        self.places = {plain(p[0]): n for p, n in zip(info["places"], info["places_by_name"])}
        self.places.update({plain(a): b for a, b in info["asked_at"]})

    def need(self, old):
        return self.needs.get(plain(old)) or self.needs.get(plain(re.sub(r"^overflow-", "", old))) or self.needs.get(plain("overflow-" + old))

    def path(self, segs):
        """What stands behind 'c', turned."""
        segs = [SEGMENTS.get(s, s) for s in inner(segs)]
        if not segs:
            return []
        for n in (2, 1):
            if tuple(segs[:n]) in self.args:
                segs = [*self.args[tuple(segs[:n])], *segs[n:]]
                break
        first = plain(segs[0])
        if first == "pre":
            segs = ["requires", *segs[1:]]
            first = "requires"
        if first == "name_holds" and "is_name" in self.fields:
            first = "is_name"
        if first not in self.fields and first.endswith("_lem") and first[:-4] in self.fields:
            first = first[:-4]
        rest = segs[1:]
        if first == "requires" and (rest and len(self.own["requires"]) > 1 or len(self.own["requires"]) == 1 and self.own["requires"][0]):
            return ["requires", *(by_name(rest, self.own["requires"]) or rest)]
        for n in range(len(rest), 0, -1):
            hit = self.arm.get((first, tuple(rest[:n])))
            if hit:
                return [*hit, *rest[n:]]
        if first in self.fields:
            new = self.fields[first]
            out = [new[0]]
            if rest and (first, rest[0]) in self.sub:
                rest = [self.sub[(first, rest[0])], *rest[1:]]
            if rest[:1] == ["ensures"] and first in self.clause and (len(rest) > 1 or len(self.clause[first]) == 1):
                rest = ["ensures", *(by_name(rest[1:], self.clause[first]) or rest[1:])]
            if len(rest) > 1 and rest[0] in ("new", "auto", "kept", "last") and self.params.get(first):
                k = 1
                while k < len(rest) and rest[k] == "1":
                    k += 1
                if k < len(rest) and rest[k] == "0" and k - 1 < len(self.params[first]):
                    rest = [rest[0], self.params[first][k - 1], *rest[k + 1:]]
            return out + rest
        return [segs[0], *rest]


def is_turned_whole(segs, fn):
    """Whether an alias for this path has to be written out, since what stands behind it is named otherwise now."""
    left = inner(segs)
    if not left:
        return True
    if left[0] in ("requires", "pre"):
        return len(fn.own["requires"]) > 1
    if left[0] in ("args", "ranges"):
        return False
    if plain(left[0]) in ("loop",) or re.fullmatch(r"loop\d*", left[0]):
        return False
    return re.sub("_lem$", "", plain(left[0])) in fn.fields or plain(left[0]) in fn.fields


def inline(text, fn, roots):
    """Writes out each alias of a place, and drops the chains of '.before'."""
    alias = {}

    def root_of(path):
        segs = path.split(".")
        if segs[0] in alias:
            segs = alias[segs[0]] + segs[1:]
        return segs if segs[0] in roots else None

    while True:
        hit = None
        for m in LET.finditer(text):
            segs = root_of(m.group(2))
            if segs is None or not is_turned_whole(segs[1:], fn):
                continue
            if re.search(rf"λ[^.]*(?<![^\s(]){re.escape(m.group(1))}(?![^\s:).])", text[m.end():]):
                continue
            hit = (m, segs)
            break
        if not hit:
            break
        m, segs = hit
        name = m.group(1)
        tail = text[m.end():]
        # up to the next binding of the same name
        stop = re.search(rf"let +{re.escape(name)} +[=:]", tail)
        upto = tail[: stop.start()] if stop else tail
        after = tail[stop.start():] if stop else ""
        if stop:
            # the right side of that binding still sees the older one
            right = re.match(rf"let +{re.escape(name)} +[=:].*?(?= in\s)", after, re.S)
            if right:
                upto += after[: right.end()].replace(f"let {name} ", f"let {name}\x00 ", 1)
                after = after[right.end():]
        upto = PATH.sub(lambda p: ".".join(segs) + p.group(2) if p.group(1) == name else p.group(0), upto)
        upto = upto.replace("\x00", "")
        lead = text[: m.start()]
        text = lead + upto.lstrip(" ") + after if not lead.endswith("\n" ) else lead + upto + after
    return text


def turned(text, fn, roots):
    def one(m):
        if m.group(1) not in roots:
            return m.group(0)
        segs = [s for s in m.group(2).split(".") if s]
        return ".".join([m.group(1), *fn.path(segs)])

    return PATH.sub(one, text)


def arguments(clause_head):
    return clause_head.split()


def main(argv):
    names, crate, only = argv[0], argv[1], argv[2:]
    with open(os.path.join(names, "names.json"), encoding="utf-8") as f:
        table = json.load(f)
    base = f"crates/{crate}/proofs"
    for folder, _, files in sorted(os.walk(base)):
        if "Proof.antt" not in files:
            continue
        where = os.path.relpath(folder, base).replace(os.sep, ".")
        if only and where not in only:
            continue
        key = f"Rattle-{crate}-proofs.{where}.Lts"
        if key not in table:
            print(f"left: {crate}: {where}: no names")
            continue
        with open(os.path.join(folder, "Proof.antt"), encoding="utf-8") as f:
            text = f.read()
        try:
            done = turn(text, Function(table[key], crate, where), crate, where)
        except Left as e:
            print(f"left: {crate}: {where}: {e}")
            continue
        invariants, answers, notes = done
        for n in notes:
            print(f"look: {crate}: {where}: {n}")
        for name, body in (("Invariants.antt", invariants), ("Answers.antt", answers)):
            if body:
                with open(os.path.join(folder, name), "w", encoding="utf-8") as f:
                    f.write(body)
        os.remove(os.path.join(folder, "Proof.antt"))
        if not invariants and not answers:
            os.rmdir(folder) if not os.listdir(folder) else None
    return 0


class Left(Exception):
    pass


TRIVIAL = re.compile(r"^\s*(?:search rules|omega arith)\s*$")


def turn(text, fn, crate, where):
    notes = []
    uses, needs, invariants, helpers, head = [], [], [], [], []
    shifts = set()
    for name, block in blocks(text):
        code = "\n".join(l for l in block.split("\n") if not l.startswith("--"))
        code = re.sub(r"(tie\.[^\s()]+)((?: (?:invariant|decreases)[^\s(),]*)+)", r"\1", code)
        comments = [l for l in block.split("\n") if l.startswith("--")]
        if name is None:
            head += comments
            continue
        if name == "use":
            if re.search(r"\.(Statement|Tie)(\.|\s|$)", code):
                if comments and not head:
                    head += comments
                continue
            if comments and not head:
                head += comments
            uses.append(code)
            continue
        sig = re.match(rf"(?:(?:abbrev|pub|unfoldable) +)*{re.escape(name)}\s*:\s*(.*?)(?=\n(?:unfolding |{re.escape(name)}[ \n]))", code, re.S)
        if "tie.close" in code:
            continue
        if not sig:
            helpers.append((name, comments, code, None))
            continue
        type_ = sig.group(1).strip()
        m = re.match(r"tie\.(invariant|decreases)-(\S+)$", type_)
        if m:
            invariants.append((m.group(1), m.group(2), comments, code[sig.end():].strip("\n")))
            continue
        m = re.match(rf"tie\.Need-({NAME})", type_)
        if m:
            needs.append((name, m.group(1), comments, code[sig.end():].strip("\n")))
            continue
        m = re.match(rf"(?:\(?{NAME} *: *)?tie\.{NAME}\)? → tie\.({NAME})$", type_)
        if m:
            shifts.add(name)
            continue
        helpers.append((name, comments, code, type_))
    full = f"Rattle.{crate}.proofs.{where}"

    # helpers over a place become lets
    lets = {}
    rest = []
    for name, comments, code, type_ in helpers:
        if type_ is None or "tie." not in code:
            if "tie." in code:
                raise Left(f"{name} names a place without a signature")
            rest.append((name, comments, code))
            continue
        m = re.match(rf"\(({NAME}) *: *tie\.({NAME})\)\s*(?:→)?\s*(.*)$", type_, re.S) or re.match(rf"()tie\.({NAME})\s*→\s*(.*)$", type_, re.S)
        equations = code[code.index(type_[-30:]) + len(type_[-30:]):]
        clauses = re.findall(rf"^{re.escape(name)}(?: .*?)?=(?= |\n)", equations, re.M)
        if not m or len(clauses) != 1:
            raise Left(f"{name} is a helper over a place that cannot be a let: {type_[:80]!r} {len(clauses)} clauses")
        var, result = m.group(1) or "c", m.group(3)
        body = re.split(rf"^{re.escape(name)}(?: .*?)?=(?= |\n)", equations, flags=re.M)[1]
        args = re.search(rf"^{re.escape(name)}( .*?)?=(?= |\n)", equations, re.M).group(1).split()
        if args and args[0] != var:
            body = PATH.sub(lambda p: var + p.group(2) if p.group(1) == args[0] else p.group(0), body)
        if re.search(r"\bwhere\b", body):
            raise Left(f"{name} has a where")
        lets[name] = (var, result, args[1:], body.strip(), re.search(r"unfolding [^\n]*", code))
        if "tie." in result or "tie." in body:
            raise Left(f"{name} names a place inside its type")

    def shift(text):
        for s in shifts:
            text = re.sub(rf"\(({re.escape(s)}) +({NAME}(?:\.{NAME})*)\)", r"\2", text)
            text = re.sub(rf"(?<![^\s(]){re.escape(s)} +({NAME}(?:\.{NAME})*)", r"\1", text)
        return text

    def body_of(name, code, var="c"):
        """A body with its aliases written out, and with the helpers that it needs as lets before it."""
        code = shift(code)
        code = inline(code, fn, {var})
        used = []
        for h in lets:
            if re.search(rf"(?<![^\s(\[,]){re.escape(h)}\s+\(*{re.escape(var)}(?![^\s).,;\]])", code):
                used.append(h)
        code = turned(code, fn, {var})
        return code, used

    ready = {}

    def let_text(h, seen=()):
        if h in seen:
            raise Left(f"{h} calls itself")
        var, result, args, body, unfolding = lets[h]
        if h not in ready:
            r, used1 = body_of(h, result, var)
            b, used2 = body_of(h, body, var)
            if var != "c":
                r = PATH.sub(lambda p: "c" + p.group(2) if p.group(1) == var else p.group(0), r)
                b = PATH.sub(lambda p: "c" + p.group(2) if p.group(1) == var else p.group(0), b)
            ready[h] = (r, b, sorted(set(used1 + used2), key=list(lets).index))
        return ready[h]

    def with_lets(code, used, indent="    "):
        order = []

        def go(h, seen=()):
            r, b, more = let_text(h, seen)
            for k in more:
                if k != h:
                    go(k, (*seen, h))
            if h not in order:
                order.append(h)

        for h in used:
            go(h)
        def call(text):
            for k in order:
                text = re.sub(rf"\({re.escape(k)} +(?:c|\(c\))\)", k, text)
                text = re.sub(rf"(?<![^\s(\[,]){re.escape(k)} +(?:c(?![^\s),;\]])|\(c\))", k, text)
            return text
        out = []
        for h in order:
            r, b, _ = ready[h]
            args = lets[h][2]
            r1, b1 = call(" ".join(r.split())), call(b)
            if args:
                b1 = f"λ {' '.join(args)}. {b1}"
            out.append(f"{indent}let {h} : {r1} = {b1} in")
        return out, call(code)

    goals = []
    for name, need, comments, code in needs:
        new = fn.need(need) or fn.need(name)
        if new is None:
            notes.append(f"no goal for {need}")
            continue
        m = re.match(rf"((?:unfolding [^\n]*\n)?){re.escape(name)}((?: +[^\s=]+)*) *=(.*)$", code, re.S)
        if not m:
            raise Left(f"{name} is not one clause")
        args = m.group(2).split()
        body = m.group(3).strip("\n")
        if "κs" in args:
            args.remove("κs")
        extra = "".join(" " + a for a in args[1:])
        if re.search(r"\bκs\b", body):
            notes.append(f"{new} uses κs")
        if args and args[0] not in ("c", "_"):
            body = PATH.sub(lambda p: "c" + p.group(2) if p.group(1) == args[0] else p.group(0), body)
        if TRIVIAL.match(body) and not m.group(1):
            continue
        body, used = body_of(name, body)
        if re.match(r"returns(-|$)", new):
            if extra and (len(fn.own["ensures"]) > 1 or "" not in fn.own["ensures"]):
                notes.append(f"{new} takes {args} and has several clauses")
            else:
                body = by_clause(body, fn.own["ensures"])
        elif new in fn.callees or re.sub(r"-\d+$", "", new) in fn.callees:
            body = by_clause(body, contract(fn.callees.get(new) or fn.callees[re.sub(r"-\d+$", "", new)])["requires"])
        more, body = with_lets(body, used)
        if more:
            body = "\n" + "\n".join(more) + "\n    " + body.strip()
        elif "\n" in body.strip():
            body = "\n    " + body.strip()
        else:
            body = body.strip()
        unfolds = m.group(1) + "".join(lets[h][4].group(0) + "\n" for h in used if lets[h][4])
        goals.append((new, comments, unfolds, body, extra))

    inv = []
    for kind, loop, comments, code in invariants:
        row = None
        for (old, new), variables in fn.info["loops"]:
            if plain(old) == plain(loop):
                row = (new, variables, fn.info["changed"][[l[0][0] for l in fn.info["loops"]].index(old)])
        m = re.match(rf"((?:unfolding [^\n]*\n)?)({NAME})((?: +[^\s=]+)*) *=(.*)$", code, re.S)
        if not row or not m:
            raise Left(f"no loop {loop}")
        new, variables, changed = row
        want = [f"l.initial.{v}" if ch else f"l.{v}" for v, ch in zip(variables, changed)]
        want += [f"l.{v}" for v, ch in zip(variables, changed) if ch]
        args = m.group(3).split()
        if len(args) > len(want):
            # a name that the older toolchain made for a value between, which no invariant speaks of
            args = [a for a in args if not re.fullmatch(r"t\d+", a)]
        if len(args) != len(want):
            raise Left(f"the invariant of {new} takes {args}, and the loop has {want}")
        rows = {a: w for a, w in zip(args, want) if a != "_"}
        body = PATH.sub(lambda p: rows[p.group(1)] + p.group(2) if p.group(1) in rows else p.group(0), m.group(4))
        if re.search(r"λ *\(?[^.]*(?<![^\s(])(?:" + "|".join(re.escape(a) for a in rows) + r")(?![^\s:).])[^.]*\.", m.group(4)):
            notes.append(f"the invariant of {new} binds a name of the loop")
        inv.append((f"{kind}-{new}", comments, m.group(1), body.strip("\n")))

    def file(head, uses, more_uses, decls):
        out = [*head, *uses, *more_uses, ""]
        for d in decls:
            out += [d, ""]
        return "\n".join(out).rstrip("\n") + "\n"

    invariants_text = answers_text = None
    inner = "\n".join(b for _, _, _, b in inv)
    shared = []
    todo = [(n, c, code) for n, c, code in rest]
    grow = True
    while grow:
        grow = False
        for it in todo:
            n = it[0]
            if it not in shared and n not in ("module",) and re.search(rf"(?<![^\s(\[,]){re.escape(n)}(?![^\s).,;\]])", inner):
                shared.append(it)
                inner += "\n" + it[2]
                grow = True
    local = [it for it in rest if it not in shared]
    if inv:
        decls = ["\n".join([*c, re.sub(r"^((?:abbrev +|unfoldable +)?)(?:pub +)?", lambda m: m.group(1) + "pub ", code, count=1) if "pub" not in code.split(":")[0] else code]) for n, c, code in rest if (n, c, code) in shared]
        for name, comments, unfolds, body in inv:
            decls.append("\n".join([*comments, f"abbrev pub {name} : goal.{name}", f"{unfolds}{name} l ={body}" if body.startswith(("\n", " ")) else f"{unfolds}{name} l = {body}"]))
        invariants_text = file([], uses, [f"use {full}.Given as goal"], decls)
    if goals:
        decls = ["\n".join([*c, code]) for n, c, code in local]
        for new, comments, unfolds, body, extra in goals:
            head_ = f"{unfolds}{new} c{extra} ="
            decls.append("\n".join([*comments, f"pub {new} : goal.{new}", head_ + body if body.startswith(("\n", " ")) else f"{head_} {body}"]))
        more = [f"use {full}.Goals as goal"]
        if shared:
            more.insert(0, f"use {full}.Invariants.{{{', '.join(n for n, _, _ in shared)}}}")
        answers_text = file(head, uses, more, decls)
    elif local:
        notes.append("helpers without an answer: " + ", ".join(n for n, _, _ in local))
    return invariants_text, answers_text, notes


if __name__ == "__main__":
    raise SystemExit(main(sys.argv[1:]))
