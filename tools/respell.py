#!/usr/bin/env python3
"""Brings the names of definitions and lemmas of specs/ and proofs/ to snake case, once.

Run at the top of a checkout, after the kit's port.py. A name in lower camel case gets underscores. A dash stays between a
function of the library and a definition, and is an underscore beside a plain word. A lemma whose name falls together with a definition's gets _lem
after it. Types, facts and modules keep their capitals; names of src/, of what the kit generates, and strings stay as they are.

    python3 tools/respell.py [--list]      writes the files; --list prints old and new names, and what falls together, and writes nothing
"""
import collections
import glob
import re
import sys

WORDS = set("length take drop set get_or map sum sum_by cond min max not append filter reverse pos neg_ℤ slice_index codes".split())
NAME = re.compile(r"[A-Za-z_][A-Za-z0-9_']*(?:-[A-Za-z0-9_']+)*")
DEFINED = re.compile(r"^\s*(?:(abbrev|unfoldable) )?(?:pub )?(record |data |ruleset )?([A-Za-z][A-Za-z0-9_'-]*)(?: *[({][^\n]*)? *:(?= )", re.M)


def antt():
    return sorted(glob.glob("crates/*/specs/**/*.antt", recursive=True) + glob.glob("crates/*/proofs/**/*.antt", recursive=True))


def rt():
    return sorted(glob.glob("crates/*/src/**/*.rt", recursive=True))


def snake(name):
    return re.sub(r"([a-z0-9])([A-Z])", lambda m: m.group(1) + "_" + m.group(2).lower(), name)


def of_a_function(path):
    return re.search(r"/(Answers|Invariants|Proof)\.antt$", path)


def defined():
    """The names that the repository defines, and those of them that are definitions and no lemmas."""
    names, functions = collections.OrderedDict(), set()
    for path in antt():
        text = open(path, encoding="utf-8").read()
        generated = set(re.findall(r"goal\.([A-Za-z0-9_'-]+)", text))
        for m in DEFINED.finditer(text):
            name = m.group(3)
            if name in generated:
                continue
            if of_a_function(path) and "-" in name and re.match(r"^\s*(abbrev )?pub ", m.group(0)):
                continue
            names.setdefault(name, path)
            if m.group(1) or m.group(2):
                functions.add(snake(name))
    return names, functions


def new_name(name, functions):
    if not name[0].islower() and "-" not in name:
        return name
    parts = [p if p[0].isupper() else snake(p) for p in name.split("-")]
    if len(parts) == 2 and parts[0] in WORDS and parts[1] in functions:
        return "-".join(parts)
    out = "_".join(parts)
    return out


def renamings():
    names, functions = defined()
    new = {n: new_name(n, functions) for n in names}
    # a variable in lower camel case, and a name that another crate is still to define
    for path in antt():
        for name in NAME.findall(open(path, encoding="utf-8").read()):
            if re.fullmatch(r"[a-z][a-z0-9]*([A-Z][a-z0-9]*)+", name):
                new.setdefault(name, snake(name))
    takers = collections.defaultdict(list)
    for old, name in new.items():
        takers[name].append(old)
    for name, olds in takers.items():
        if len(olds) > 1:
            for old in olds:
                if old != name and "-" in old:
                    new[old] = name + "_lem"
    return {o: n for o, n in new.items() if o != n}


def respell(text, new, ghost_only):
    def word(m):
        name, before = m.group(0), text[max(0, m.start() - 1):m.start()]
        if name not in new:
            return name
        if "-" in name and before == ".":
            return name
        return new[name]

    if not ghost_only:
        return NAME.sub(word, text)
    # of a source file, only names that Rust cannot have, and none in a string
    pieces = re.split(r'("(?:[^"\\]|\\.)*")', text)
    for i in range(0, len(pieces), 2):
        piece = pieces[i]
        pieces[i] = NAME.sub(lambda m: new[m.group(0)] if m.group(0) in new and (re.search("[A-Z]", m.group(0)) or "-" in m.group(0)) else m.group(0), piece)
    return "".join(pieces)


def main():
    new = renamings()
    if "--list" in sys.argv:
        for old, name in sorted(new.items()):
            print(old, name)
        after = collections.defaultdict(list)
        for old, name in new.items():
            after[name].append(old)
        for name, olds in sorted(after.items()):
            if len(olds) > 1:
                print("together:", name, olds)
        for path in antt() + rt():
            words = collections.Counter(NAME.findall(open(path, encoding="utf-8").read()))
            for old in set(words) & set(new):
                if new[old] in words:
                    print("look:", path, old, new[old])
        return
    for path in antt() + rt():
        text = open(path, encoding="utf-8").read()
        turned = respell(text, new, path.endswith(".rt"))
        if turned != text:
            open(path, "w", encoding="utf-8").write(turned)


main()
