#!/usr/bin/env python3
"""Brings this repository's own names to the kit's spelling, once, after the kit's port.py.

usage: python3 tools/respell.py [--show]       at the top of the repository

A definition or a lemma is in snake case, a type or a fact (what is declared as data, as a record or with a result in
Type) in upper camel case. The names of functions in src/, of exported C symbols, of files, and the document's letters
(E, D, P, A, B, F, K7) stay. Names of the kit's library, and those that the kit makes for the goals of a function
(below proofs/ in a folder of the function), are left alone. Each name is turned wherever it stands: in specs/, proofs/,
src/, and between backticks in comments, README.md and docs/. It stops, and writes nothing, where two names of one file
would fall together; --force goes on (a name beside a module, a file's folder or a function of that spelling is no clash).
"""
import collections
import glob
import os
import re
import sys

TOKEN = re.compile(r"[^\s(){}\[\];:.,@\"`|«»]+")
KIT = "/opt/rattle/rattle"
LIBRARY = ["logic", "antt", "core", "std", "std_alloc", "std_collections", "std_heap", "std_io"]
MARKS = r"(?:(?:abbrev|unfoldable|pattern|pub|axiom)\s+)*"
DECLARED = re.compile(r"^(\s*)" + MARKS + r"(data\s+|record\s+)?([^\s(){};:.,|]+)((?:\s+[({].*?)?)\s*:(?:\s(.*)|)$")
RULESET = re.compile(r"^(?:pub\s+)?ruleset\s+(\S+)")
OF_FUNCTION = re.compile(r"crates/\w+/proofs/.+/")
TEXTS = ["README.md", "docs/*.md", "docs/notes/*.md"]


def bare(line):
    """A line without its comment."""
    found = re.search(r"(^|\s)--(\s|$)", line)
    return line[: found.start()] if found else line


def result(text):
    """What stands behind the last arrow that stands in no bracket."""
    depth, last = 0, 0
    for i, c in enumerate(text):
        if c in "({[":
            depth += 1
        elif c in ")}]":
            depth -= 1
        elif c == "→" and depth == 0:
            last = i + 1
    return text[last:].strip()


def signature(lines, i, indent, first):
    """The declared type: the rest of its line, and the lines that stand deeper."""
    text = [first or ""]
    for line in lines[i + 1 :]:
        line = bare(line)
        if line.strip() == "" or len(line) - len(line.lstrip()) <= indent:
            break
        text.append(line.strip())
    return " ".join(text)


def snake(name):
    return name.replace("-", "_")


def camel(name):
    return "".join(part[:1].upper() + part[1:] for part in re.split(r"[-_]", name))


def value(name):
    """A value's name: in snake case, begun small, but for a letter of the document that stands alone."""
    name = snake(name)
    return name[:1].lower() + name[1:] if "_" in name else name


def declared(files):
    """Each name that a file of definitions or laws declares, and whether it is a type."""
    found = collections.defaultdict(set)
    for path in files:
        if OF_FUNCTION.match(path):
            continue
        lines = open(path, encoding="utf-8").read().split("\n")
        for i, line in enumerate(lines):
            if re.match(r"^(--|use |pub use |mod |pub mod )", line):
                continue
            line = bare(line)
            rules = RULESET.match(line)
            if rules:
                found[rules.group(1)].add(False)
                continue
            it = DECLARED.match(line)
            if it:
                of = result(signature(lines, i, len(it.group(1)), it.group(5)))
                found[it.group(3)].add(bool(it.group(2)) or bool(re.match(r"^Type\b", of)))
    return found


def of_library():
    names = set()
    for folder in LIBRARY:
        for path in glob.glob(f"{KIT}/{folder}/**/*.antt", recursive=True):
            for line in open(path, encoding="utf-8", errors="replace"):
                names.update(t for t in TOKEN.findall(bare(line)) if "-" in t)
    return names


def mapping(files):
    to = {}
    library = of_library()
    found = declared(files)
    both = []
    for name, kinds in sorted(found.items()):
        if not re.search(r"[A-Za-z]", name) or not re.match(r"^[A-Za-z]", name):
            continue
        if len(kinds) > 1:
            both.append(name)
        new = camel(name) if True in kinds else value(name)
        if new != name:
            to[name] = new
    for path in files:
        if OF_FUNCTION.match(path):
            continue
        for line in open(path, encoding="utf-8"):
            for t in TOKEN.findall(bare(line)):
                if "-" in t and re.match(r"^[a-z]", t) and t not in found and t not in library:
                    to[t] = snake(t)
    return to, library, both


def brought(text):
    """The names that a file takes from the kit's library."""
    names = set()
    for it in re.finditer(r"^(?:pub )?use ([\w.'·]+)\.\{([^}]*)\}", text, re.M | re.S):
        own = re.match(r"Rattle\.(?!std\b)", it.group(1))
        if not own:
            for item in it.group(2).split(","):
                names.add(item.split(" as ")[0].strip())
    return names


def quoted(text, to):
    """The names that stand between backticks are turned."""
    name = re.compile(r"(?<![\w/-])([A-Za-z][\w'-]*)(?![\w-])")
    return re.sub(r"`[^`\n]+`", lambda q: name.sub(lambda m: to.get(m.group(1), m.group(1)), q.group()), text)


def turned(text, to, kept, mark):
    """The names of a text are turned; in its comments, which `mark` begins, those between backticks."""
    to = {n: m for n, m in to.items() if n not in kept}
    lines = []
    for line in text.split("\n"):
        found = re.search(r"(^|\s)" + mark + r"(\s|$)", line)
        at = found.start() if found else len(line)
        lines.append(TOKEN.sub(lambda m: to.get(m.group(), m.group()), line[:at]) + quoted(line[at:], to))
    return "\n".join(lines)


def main():
    files = sorted(glob.glob("crates/*/specs/**/*.antt", recursive=True) + glob.glob("crates/*/proofs/**/*.antt", recursive=True))
    to, library, both = mapping(files)
    if "--show" in sys.argv:
        for name in sorted(to):
            print(name, to[name], "LIBRARY" if name in library else "", "BOTH" if name in both else "")
        return 0
    write, bad = {}, []
    for path in files + sorted(glob.glob("crates/*/src/**/*.rt", recursive=True)):
        text = open(path, encoding="utf-8").read()
        kept = brought(text)
        own = set(TOKEN.findall(text))
        back = collections.defaultdict(set)
        for t in own:
            if t not in kept:
                back[to.get(t, t)].add(t)
        fell = {n: sorted(ts) for n, ts in back.items() if len(ts) > 1}
        if fell:
            bad.append((path, fell))
        write[path] = turned(text, to, kept, "//" if path.endswith(".rt") else "--")
    for path, fell in bad:
        print(f"{path}: fall together: {fell}")
    if bad and "--force" not in sys.argv:
        return 1
    for path, text in write.items():
        open(path, "w", encoding="utf-8").write(text)
    # a page may cite a name that the kit's port.py turned
    named = set(to.values()) | set(declared(files))
    for path in glob.glob("crates/*/specs/**/*.antt", recursive=True) + glob.glob("crates/*/proofs/**/*.antt", recursive=True):
        for t in TOKEN.findall(open(path, encoding="utf-8").read()):
            if t in named and "_" in t and t.replace("_", "-") not in library:
                to.setdefault(t.replace("_", "-"), t)
    # the command line's questions keep their names
    to = {n: m for n, m in to.items() if n not in ("overload-size", "overload-list", "overload-replay")}
    for pattern in TEXTS:
        for path in sorted(glob.glob(pattern)):
            if path.endswith("01-scope.md"):
                continue
            text = open(path, encoding="utf-8").read()
            open(path, "w", encoding="utf-8").write(quoted(text, to))
    return 0


if __name__ == "__main__":
    sys.exit(main())
