#!/usr/bin/env python3
"""Respells this repository's own definitions and lemmas as the newer Rattle has them: run once, at the top, after the kit's port.py.

A word is in snake case, a type or a module in camel case. The first dash in a lemma's name stays where it joins the names of two definitions, as
in `length-exchange`, and any other is `_`; a lemma that would have its definition's name gets `_lem`. Functions of src/, exported names, strings, inputs and outputs keep their names. The names are taken from the
tree itself: what specs/*.antt and proofs/*.antt declare at the line's start, the fields of their records, and the lemmas beside a function's proof.
With --list it prints the names and what they become, and writes nothing; it stops where two names would fall together.
"""
import os
import re
import sys

# names of the library that lemmas are named after, beside those that the files import
STD = {"append", "snoc", "cons", "map", "length", "take", "drop", "reverse", "replicate", "sum", "suc", "zero"}
# definitions whose names are plain words in most names of lemmas
PLAIN = {"all", "at", "each", "in", "least", "more", "most", "none", "of", "one", "other", "same", "some", "three", "to"}
TOKEN = re.compile(r"[^\s(){}\[\],;.:\"`|]+")
DECLARED = re.compile(r"^((?:unfoldable |abbrev |private |pub )*)(record |data )?(?:(?:abbrev|pub) )*([^\s:({\[\]]+)((?: *[({][^)}]*[)}])*) ?:(?!:)", re.M)
FIELD = re.compile(r"^  (?:pub )?([^\s:({\[\]λ]+) :(?!:)", re.M)
# answers beside a function's proof: Rattle makes their names
MADE = re.compile(r"^(invariant|decreases|first-Inv|first-μ|μ|returns)(?![^-])|-(requires|spec)(-\d+)?$|^in-range$")


def files(root, ends):
    for folder, dirs, names in os.walk(root):
        dirs[:] = sorted(d for d in dirs if d not in ("out", ".git", "target"))
        for n in sorted(names):
            if n.endswith(ends):
                yield os.path.join(folder, n)


def read(p):
    with open(p, encoding="utf-8") as f:
        return f.read()


def snake(part):
    if part[:1].isupper() or not re.search("[a-z]", part):
        return part
    return re.sub(r"(?<=[a-z0-9])(?=[A-Z])", "_", part).lower()


def declared(path):
    """(names of definitions, names of lemmas, names of fields) that a file declares."""
    text = read(path)
    words, lemmas, fields = set(), set(), set()
    beside = os.path.basename(path) == "Proof.antt"
    for m in DECLARED.finditer(text):
        name = m.group(3)
        if name.startswith(("--", "use", "infix")) or name in ("pub", "mod"):
            continue
        if beside and (MADE.search(name) or "Need-" in text[m.end() : m.end() + 120].split("\n")[0] or "-kinds" in text[m.end() : text.find("\n", m.end() + 400)][:400] and "\n" + name + " " in text[m.end() : m.end() + 400] and name.endswith(("-at", "-below", "-calls"))):
            continue
        (words if m.group(2) or "/specs/" in path or "abbrev" in m.group(1) else lemmas).add(name)
    for m in re.finditer(r"^(?:pub )?record .*? where\n((?:  .*\n|\n)*)", text, re.M):
        fields |= {f.group(1) for f in FIELD.finditer(m.group(1))}
    return words, lemmas, fields


def table(root):
    words, lemmas, fields, std = set(), set(), set(), set(STD)
    for p in files(os.path.join(root, "crates"), ".antt"):
        w, l, f = declared(p)
        words |= w
        lemmas |= l
        fields |= f
        for m in re.finditer(r"^use (\S+)\.\{([^}]*)\}", read(p), re.M):
            if not m.group(1).startswith("Rattle."):
                std |= {x.strip() for x in m.group(2).split(",")}
    names = {snake(w.replace("-", "_")) for w in words} | {s for s in std if "-" not in s}
    to = {}
    for name in words | lemmas | fields:
        if "◌" in name:
            continue
        parts = ["get_or" if x == "getD" else snake(x) for x in name.split("-")]
        joins = name in lemmas and len(parts) > 1 and parts[0] in names and parts[1] in names - PLAIN
        new = "_".join(parts) if not joins else parts[0] + "-" + "_".join(parts[1:])
        if name in lemmas and name not in words and new in names and new != name:
            new += "_lem"
        if new != name:
            to[name] = new
    return to, words | lemmas | fields


def together(to, kept):
    seen, bad = {}, []
    for old, new in sorted(to.items()):
        if new in seen or (new in kept and new not in to):
            bad.append(f"{old} and {seen.get(new, new)} would both be {new}")
        seen[new] = old
    return bad


def turned(text, to):
    return TOKEN.sub(lambda m: to.get(m.group(0), m.group(0)), text)


def source(text, to):
    """A .rt file or an edit of one: strings stay."""
    return "".join(p if i % 2 else turned(p, to) for i, p in enumerate(re.split(r'("(?:[^"\\\n]|\\.)*")', text)))


def page(text, to):
    return re.sub(r"`[^`\n]+`", lambda m: turned(m.group(0), to), text)


def main():
    root = os.getcwd()
    to, all_names = table(root)
    if "--list" in sys.argv:
        for old, new in sorted(to.items()):
            print(old, new)
    bad = together(to, all_names)
    if bad:
        print("\n".join(bad))
        if "--list" not in sys.argv:
            raise SystemExit(1)
    if "--list" in sys.argv:
        return
    for p in files(os.path.join(root, "crates"), (".antt", ".rt", ".edit")):
        old = read(p)
        new = turned(old, to) if p.endswith(".antt") else source(old, to)
        if new != old:
            with open(p, "w", encoding="utf-8") as f:
                f.write(new)
    for p in [os.path.join(root, "README.md"), *files(os.path.join(root, "docs"), ".md")]:
        old = read(p)
        new = page(old, to)
        if new != old:
            with open(p, "w", encoding="utf-8") as f:
                f.write(new)


main()
