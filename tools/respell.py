#!/usr/bin/env python3
"""Spells the names that crates/ defines in antt as today's Rattle does, once, right after the kit's port.py.

usage: respell.py [--list]            at the top of the repository

A definition or a lemma is in snake case, a type in camel case; a dash stays only where it joins two names of definitions. Names that
Rattle makes, names of Rust and words in strings are left alone. --list prints 'old new' for each name and writes nothing.
"""
import collections
import os
import re
import sys

WORD = r"[^\s(){}.;,@\"«»\[\]\\:=|→×λ∙+*/<>≤≡∷←`']+'*"
DEFINED = re.compile(r"^\s*((?:abbrev |unfoldable |pub |record |data )*)(" + WORD + r")((?:\s*[({][^)}]*[)}])*)\s*:(?:\s|$)")
# words of std that a lemma's name may join by a dash
STD = set("length take drop replicate append put set get_or map reverse".split())


def files(root, *ends):
    for folder, dirs, names in os.walk(os.path.join(root, "crates")):
        dirs[:] = sorted(d for d in dirs if d not in ("out", ".git"))
        for f in sorted(names):
            if f.endswith(ends):
                yield os.path.join(folder, f)


def lemma_file(path):
    part = path.split("/crates/")[1].split("/")
    return part[1] == "specs" or len(part) == 3 or part[-1] != "Proof.antt"


def defined(root):
    found = collections.OrderedDict()
    for p in files(root, ".antt"):
        if not lemma_file(p):
            continue
        for line in open(p, encoding="utf-8"):
            m = DEFINED.match(line)
            if m:
                found.setdefault(m.group(2), []).append(p)
    return found


def snake(word):
    if re.match(r"[A-Z]", word):
        return word
    word = re.sub(r"(?<=[a-z0-9])([A-Z])", lambda m: "_" + m.group(1).lower(), word)
    return re.sub(r"([A-Z]+)", lambda m: m.group(1).lower(), word)


def target(name, names):
    if not re.match(r"[a-z]", name):
        return name
    parts = name.split("-")
    if len(parts) == 1:
        return snake(name)
    out = snake(parts[0])
    for a, b in zip(parts, parts[1:]):
        joins = (a in names or snake(a) in STD) and (b in names or snake(b) in STD)
        out += ("-" if joins else "_") + snake(b)
    return out


def table(root):
    found = defined(root)
    plain = {n for n in found if re.search(r"[a-z0-9][A-Z]|_", n) and "-" not in n}
    new = {}
    for n in found:
        t = target(n, plain)
        if t != n:
            new[n] = t
    # a lemma that would have its function's name
    taken = {new.get(n, n) for n in found if "-" not in n}
    for n, t in new.items():
        if "-" in n and t in taken:
            new[n] = t + "_lem"
    return found, new


def turned(text, new):
    token = re.compile(r"\"(?:[^\"\\\n]|\\.)*\"|" + r"[A-Za-z_][\w'₀-₉-]*")
    return token.sub(lambda m: new.get(m.group(0), m.group(0)), text)


def main(argv):
    root = os.getcwd()
    found, new = table(root)
    if "--list" in argv:
        for a, b in new.items():
            print(a, b)
        by = collections.defaultdict(set)
        for n in found:
            by[new.get(n, n)].add(n)
        for t, ns in by.items():
            if len(ns) > 1:
                print("together:", t, *ns)
        return 0
    for p in files(root, ".antt", ".rt", ".edit"):
        text = open(p, encoding="utf-8").read()
        out = turned(text, new)
        if out != text:
            open(p, "w", encoding="utf-8").write(out)
    return 0


if __name__ == "__main__":
    sys.exit(main(sys.argv[1:]))
