#!/usr/bin/env python3
"""Brings the names of this repository's own definitions and lemmas to one spelling: words in snake case, types in upper camel case.

usage: python3 tools/port_names.py      at the top of the repository, once, right after port.py

It reads which names specs/ and proofs/ declare (the proofs of functions aside), and respells those that have a dash, a capital
inside or a prime, in every .rt, .antt and .edit file of crates/ and in the pages. Functions of src/, exported names and strings
keep theirs. Where two names would fall together, the definition keeps the plain one, and the lemma gets _lem.
"""
import collections
import os
import re

WORDS = {"abbrev", "unfoldable", "pub", "record", "data", "opaque"}
OTHERS = {"use", "mod", "where", "module", "let", "in", "elim", "open", "ruleset", "syntax", "infixl", "infixr", "infix", "--", "unfolding"}
TOKEN = re.compile(r"\s+|[(){};,\"λ.]|[^\s(){};,\"λ.]+")
OF_FUNCTIONS = {"Proof.antt", "Answers.antt", "Invariants.antt"}


def declared_in(line):
    """The names that a line declares, as in `pub NAME NAME (x : A) : TYPE`, and the type's text."""
    names, depth, rest = [], 0, TOKEN.findall(line)
    for i, t in enumerate(rest):
        if t.isspace() or (depth == 0 and not names and t in WORDS):
            continue
        if t in "({":
            depth += 1
        elif t in ")}":
            depth -= 1
        elif depth == 0:
            if not names and t in OTHERS:
                return [], ""
            if t == ":":
                return names, "".join(rest[i + 1 :])
            if t in ("=", "↦", "≡", "→", ",", ";", ".", "λ", '"'):
                return [], ""
            names.append(t)
    return [], ""


def texts(folder, endings):
    for d, inner, files in os.walk(folder):
        inner[:] = sorted(x for x in inner if x not in ("out", ".git"))
        for f in sorted(files):
            if f.endswith(endings):
                yield os.path.join(d, f)


def read(path):
    with open(path, encoding="utf-8") as f:
        return f.read()


def spelled(name, is_type):
    name = name.replace("′", "'")
    if name[0].isupper() or is_type:
        return "".join(w[0].upper() + w[1:] for w in re.split("[-_]", name) if w)
    name = name.replace("-", "_")
    return re.sub(r"(?<=[a-z0-9'₀-₉])([A-Z])", lambda m: "_" + m.group(1).lower(), name)


def rank(name, where):
    """Who keeps the plain name: a definition of specs/, then another in camel case, then what has it already, then the others."""
    return (not any("/specs/" in p for p in where), not re.search("[a-z][A-Z]", name), "-" in name, name)


def respelled(root):
    where, types = collections.defaultdict(set), set()
    for p in texts(os.path.join(root, "crates"), (".antt",)):
        if "/proofs/" in p and os.path.basename(p) in OF_FUNCTIONS:
            continue
        for line in read(p).splitlines():
            if not line.lstrip().startswith("--"):
                names, kind = declared_in(line)
                for n in names:
                    where[n].add(p)
                    if re.search(r"Type [01]\b( where)?$", kind):
                        types.add(n)
    together = collections.defaultdict(list)
    for n in where:
        if re.fullmatch(r"[A-Za-z0-9_\-'′₀-₉]+", n):
            together[spelled(n, n in types)].append(n)
    to = {}
    for new, olds in together.items():
        olds.sort(key=lambda n: rank(n, where[n]))
        for k, n in enumerate(olds):
            to[n] = new + "_lem" * k
    return {n: new for n, new in to.items() if n != new}, set(to.values())


NAME = re.compile(r"(?<![\w\-'′·])[A-Za-z][\w\-'′]*(?![\w\-'′])")


def turned(text, to):
    return NAME.sub(lambda m: to.get(m.group(0), m.group(0)), text)


def in_source(text, to):
    """Outside strings; a name that Rust could have stays."""
    to = {n: new for n, new in to.items() if re.search("[-A-Z′]", n)}
    return "".join(t if t.startswith('"') else turned(t, to) for t in re.split(r'("(?:[^"\\\n]|\\.)*")', text))


def in_quotes(text, to):
    return re.sub(r"`[^`\n]+`", lambda m: turned(m.group(0), to), text)


class OfPages(dict):
    """For the pages: also the names that port.py respelled already."""

    def __init__(self, to, new):
        super().__init__(to)
        self.new = new

    def get(self, name, default):
        if name in self:
            return self[name]
        by = spelled(name, False)
        return by if re.search("[-a-z][A-Za-z]", name) and by in self.new else default


def main():
    root = os.path.dirname(os.path.dirname(os.path.realpath(__file__)))
    to, new_names = respelled(root)
    how = [(p, turned if p.endswith(".antt") else in_source) for p in texts(os.path.join(root, "crates"), (".rt", ".antt", ".edit"))]
    how += [(p, in_quotes) for p in [os.path.join(root, "README.md"), *texts(os.path.join(root, "docs"), (".md",))]]
    changed = 0
    for p, by in how:
        text = read(p)
        new = by(text, OfPages(to, new_names) if by is in_quotes else to)
        if new != text:
            changed += 1
            with open(p, "w", encoding="utf-8") as f:
                f.write(new)
    for old, new in sorted(to.items()):
        print(old, new)
    print(f"{len(to)} names in {changed} files")


if __name__ == "__main__":
    main()
