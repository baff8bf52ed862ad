#!/usr/bin/env python3
"""Turns the older proofs by hand of a crate's functions (proofs/F/Proof.antt, over `tie`) into Invariants.antt and
Answers.antt, with the names of goals and steps that `rt check --generated FOLDER --old-names` lists.

usage: in the repository: python3 tools/turn_proofs.py NAME FOLDER

An argument of tie.spec that is no `search rules` becomes an answer of its own; what is left by hand is printed.
"""
import json
import os
import re
import sys

NAME = r"[^\s(){}\[\];:.,@\"`|«»]+"


def norm(s):
    return s.replace("-", "_")


def blocks(text):
    """The header comment, the use lines, and the declarations, each with the comments right above it."""
    lines = text.rstrip("\n").split("\n")
    i = 0
    head = []
    while i < len(lines) and lines[i].startswith("--"):
        head.append(lines[i])
        i += 1
    uses = []
    while i < len(lines) and (lines[i].startswith("use ") or lines[i].strip() == "" or lines[i].startswith("  ")):
        if lines[i].startswith("use "):
            uses.append(lines[i])
        elif lines[i].strip():
            uses[-1] += " " + lines[i].strip()
        i += 1
    out, now = [], []
    for line in lines[i:]:
        if line.strip() == "":
            if now:
                out.append(now)
                now = []
            continue
        now.append(line)
    if now:
        out.append(now)
    return head, uses, out


class Function:
    def __init__(self, key, it):
        self.it = it
        self.places = it["places"]
        self.by_new = it["places_by_name"]
        self.needs = [(o, n) for o, n in it["needs"]]
        self.at = it["asked_at"]
        self.said = []

    def index(self, new):
        return self.by_new.index(new) if new in self.by_new else None

    def old_index(self, old):
        for i, p in enumerate(self.places):
            if norm(p[0]) == norm(old):
                return i
        return None

    def parent(self, i):
        p = self.places[i][1]
        if p is None:
            return None
        # the nearest earlier place of that old name
        for j in range(i - 1, -1, -1):
            if self.places[j][0] == p:
                return j
        return None

    def goal(self, old):
        for k, (o, n) in enumerate(self.needs):
            for form in (old, "overflow-" + o if not old.startswith("overflow") else None):
                if norm(o) == norm(old) or norm("overflow-" + o) == norm(old):
                    place = self.index(self.at[k][1]) if k < len(self.at) else None
                    return n, place
        return None, None

    def field(self, place, name):
        """The new path for the old field of a step at or above a place; `name` and what follows it."""
        i = place
        while i is not None:
            p = self.places[i]
            arm = self.it["arms"][i]
            if norm(p[2][0]) == norm(name):
                return i, p[2][1], arm
            i = self.parent(i)
        return None, None, None


def paths(f, body, place, aliases):
    """Rewrites the paths that begin at c, or at a name that stands for a step above it."""
    out, i = [], 0
    names = "|".join(re.escape(a) for a in sorted(aliases, key=len, reverse=True))
    token = re.compile(r"(?<![\w.'₀-])(" + names + r")((?:\.[^\s(){}\[\];,:.]+)*)(?![\w-])")

    def one(m):
        at = aliases[m.group(1)]
        steps = [s for s in m.group(2).split(".") if s]
        while steps and steps[0] == "before":
            at = f.parent(at) if at is not None else None
            steps = steps[1:]
        if not steps:
            return m.group(0) if m.group(1) == "c" else "c"
        first = steps[0]
        if first in ("args", "requires", "ranges"):
            return "c." + ".".join(steps)
        j, new, arm = f.field(at, first) if at is not None else (None, None, None)
        if new is None:
            f.said.append(f"step {m.group(0)} is not found")
            return m.group(0)
        rest = steps[1:]
        if arm:
            for to, field, path in arm[2]:
                if norm(field) == norm(first) and rest[: len(path)] == path and path:
                    return ".".join(["c", arm[0], to] + rest[len(path):])
        return ".".join(["c", new] + rest)

    return token.sub(one, body)


def answer(f, body, place):
    """The body of an answer with c for each step; let-bound names for steps are resolved and dropped."""
    aliases = {"c": place}
    body = re.sub(r"\bκs\b ?", "", body)
    let = re.compile(r"let ([^\s:]+) =\s+(\S+?)((?:\.before)+) in\s*")
    while True:
        for m in let.finditer(body):
            if m.group(2) in aliases:
                at = aliases[m.group(2)]
                for _ in range(m.group(3).count(".before")):
                    at = f.parent(at) if at is not None else None
                aliases[m.group(1)] = at
                body = body[: m.start()] + body[m.end():]
                break
        else:
            break
    return paths(f, body, place, aliases)


def invariant(f, lines, name):
    """invariant-loop a b c = body  becomes  invariant-loop-i l = body at l's fields"""
    text = "\n".join(lines)
    m = re.search(r"^(invariant|decreases)-\S+((?:\s+\S+)*?)\s+=\s*", text, re.M)
    binders = m.group(2).split()
    body = text[m.end():]
    to = {}
    for b in binders:
        to[b] = "l.initial." + b.rstrip("₀") if b.endswith("₀") else "l." + b
    tok = re.compile(r"(?<![\w.'₀-])([^\s(){}\[\];,:.]+)")
    body = tok.sub(lambda x: to.get(x.group(1), x.group(1)), body)
    return body


def split_args(text):
    """The parenthesised and bare arguments of tie.spec"""
    args, depth, now = [], 0, ""
    for c in text:
        if c == "(":
            depth += 1
        if c == ")":
            depth -= 1
            if depth < 0:
                break
        if c.isspace() and depth == 0:
            if now:
                args.append(now)
            now = ""
        else:
            now += c
    if now:
        args.append(now)
    return args


def used(uses, body):
    words = set(re.findall(NAME, body))
    kept = []
    for u in uses:
        m = re.match(r"use (\S+)\.\{(.*)\}$", u)
        if not m:
            m2 = re.match(r"use (\S+)(?: as (\S+))?$", u)
            n = m2.group(2) or m2.group(1).split(".")[-1]
            if n in words:
                kept.append(u)
            continue
        items = []
        for item in m.group(2).split(","):
            item = item.strip()
            n = item.split(" as ")[-1].split(".")[-1].strip()
            mid = n.strip("◌")
            ops = [w for w in n.split("◌") if w]
            if n in words or (("◌" in n) and any(o in body for o in ops)):
                items.append(item)
        if items:
            kept.append(f"use {m.group(1)}." + "{" + ", ".join(items) + "}")
    return kept


def turn(path, key, it, crate, where):
    text = open(path, encoding="utf-8").read()
    head, uses, decls = blocks(text)
    f = Function(key, it)
    uses = [u for u in uses if not re.search(r"\.(Statement|Tie)(\.|\s|$)", u)]
    inv, ans, helpers, spec = [], [], [], None
    alias_of = {}
    for d in decls:
        comments = [l for l in d if l.startswith("--")]
        code = d[len(comments):]
        if not code:
            continue
        m = re.match(r"(?:abbrev |pub )*(" + NAME + r") :(.*)$", code[0])
        if not m:
            f.said.append("not read: " + code[0])
            helpers.append("\n".join(d))
            continue
        name, typ = m.group(1), m.group(2)
        if re.match(r"(invariant|decreases)-", name) and "tie." in typ:
            new = None
            kind, loop = name.split("-", 1)
            for (o, n), *_ in it["loops"]:
                if norm(o) == norm(loop):
                    new = f"{kind}-{n}"
            if new is None:
                f.said.append(f"{name}: no such loop; loops {[l[0] for l in it['loops']]}")
                new = name
            unf = [l for l in code[1:] if l.startswith("unfolding")]
            rest = [l for l in code[1:] if not l.startswith("unfolding")]
            body = invariant(f, rest, name)
            inv.append("\n".join(comments + [f"abbrev pub {new} : goal.{new}"] + unf + [f"{new} l = {body}"]))
        elif "statement M" in typ or name.endswith("spec") and "statement" in " ".join(code):
            spec = "\n".join(code)
        elif re.search(r"tie\.Need-", typ) and not re.search(r"→", typ):
            old = re.search(r"tie\.Need-(" + NAME + ")", typ).group(1)
            new, place = f.goal(old)
            if new is None:
                f.said.append(f"{name}: goal {old} is not found in {f.needs}")
                new, place = old, None
            alias_of[name] = new
            unf = [l for l in code[1:] if l.startswith("unfolding")]
            rest = "\n".join(l for l in code[1:] if not l.startswith("unfolding"))
            b = re.match(re.escape(name) + r"\s+c( κs)?\s*=\s*", rest)
            if not b:
                f.said.append(f"{name}: clause is not read: {rest[:80]}")
                body = rest
            else:
                body = answer(f, rest[b.end():], place)
            ans.append((new, comments, unf, body))
        else:
            helpers.append("\n".join(d))
            if "tie." in "\n".join(d):
                f.said.append("by hand, names a step: " + code[0])
    given = {a[0] for a in ans}
    if spec:
        i = spec.index("tie.spec") + len("tie.spec")
        args = split_args(spec[i:])
        n = 2 * len(it["loops"])
        rest = [a for a in args]
        # the invariants and measures stand first
        rest = [a for a in rest if not re.match(r"(invariant|decreases)-", a)]
        if len(rest) != len(f.needs):
            asked = [n for _, n in f.needs]
            f.said.append(f"tie.spec has {len(rest)} answers, and {len(asked)} goals are asked: {asked}")
            for a in rest:
                if a.startswith("(") and "search rules)" not in a:
                    f.said.append("  inline: " + " ".join(a.split()))
        else:
            for a, (o, n), at in zip(rest, f.needs, f.at):
                if a.startswith("(λ"):
                    b = re.match(r"\(λ c( κs)?\.\s*(.*)\)$", a, re.S)
                    if not b:
                        f.said.append(f"inline is not read: {a}")
                    elif b.group(2).strip() != "search rules":
                        ans.append((n, [], [], answer(f, b.group(2), f.index(at[1]))))
                elif not re.match(NAME + "$", a):
                    f.said.append(f"inline is not read: {a}")
                elif a not in alias_of:
                    f.said.append(f"argument {a} is not an answer")
    folder = os.path.dirname(path)
    base = f"Rattle.{crate}.proofs.{where}"
    title = head[0] if head else ""
    fix = lambda us: [u.replace("use borrow.Author.Rules.{", "use Rattle.std.proofs.Common.{") for u in us]
    if inv:
        body = "\n\n".join(inv)
        u = used(uses, body) + [f"use {base}.Given as goal"]
        open(os.path.join(folder, "Invariants.antt"), "w").write("\n".join(head + fix(u)) + "\n\n" + body + "\n")
    ans = [a for a in ans if a[3].strip() != "search rules" or a[2]]
    if ans:
        # a body that begins on a line of its own keeps its indent
        texts = [h for h in helpers]
        for new, comments, unf, body in ans:
            sep = "\n    " if "\n" in body else " "
            texts.append("\n".join(comments + [f"pub {new} : goal.{new}"] + unf + [f"{new} c ={sep}{body}"]))
        body = "\n\n".join(texts)
        u = used(uses, body) + [f"use {base}.Goals as goal"]
        fn = re.search(r"`([^`]+)`", title)
        own = [f"-- The answers that `{fn.group(1) if fn else where}` is asked for.", "-- Assumes nothing."]
        head2 = head if not inv else own
        open(os.path.join(folder, "Answers.antt"), "w").write("\n".join(head2 + fix(u)) + "\n\n" + body + "\n")
    elif helpers:
        f.said.append("helpers without answers: dropped")
    os.remove(path)
    for s in f.said:
        print(f"{path}: {s}")


def main():
    crate, names = sys.argv[1], json.load(open(os.path.join(sys.argv[2], "names.json")))
    top = f"crates/{crate}/proofs"
    for folder, _, files in sorted(os.walk(top)):
        if "Proof.antt" not in files:
            continue
        where = os.path.relpath(folder, top).replace("/", ".")
        key = f"Rattle-{crate}-proofs.{where}.Lts"
        if key not in names:
            print(f"{folder}: no names for {key}")
            continue
        turn(os.path.join(folder, "Proof.antt"), key, names[key], crate, where)


if __name__ == "__main__":
    main()
