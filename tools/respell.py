#!/usr/bin/env python3
"""Spells the repository's own definitions and lemmas in snake case, after port.py has turned those that the library has too.

usage: respell.py [--check]     at the top of the repository

A name is the repository's own if an .antt file of specs/ or a file of lemmas declares it: a definition, a lemma, a ruleset, a field or a constructor.
Its dashes become underscores, and so does each hump in it. Names that begin in upper case (types, facts, modules) stay, and so do the goals in
a function's Proof.antt, which the check names. A file that imports a name of the same spelling from a library keeps it there.
A lemma that would be called as a definition gets `_lem` behind its name.
Names that a file gives to what it imports are turned in that file.
Turned are .antt and .rt files, must-fail edits, and what stands in back quotes in the pages.
"""
import collections
import os
import re
import sys

WORD = re.compile(r'[^\s(){}\[\].;,@"«»|⟨⟩⌜⌝λ\x60]+')
DECLARED = re.compile(r"(?m)^[ \t]*(?:(?:pub|abbrev|unfoldable|instance|mutual) )*([^\s(){}.;,:@\"]+)(?: \{[^{}\n]*\})* : *(.*)$")
RULESET = re.compile(r"(?m)^[ \t]*(?:pub )?ruleset (\S+)")
USE = re.compile(r"\buse ([^\s;{]+?)\.?(\{[^;}]*\})")
LIBRARIES = ("mathlib", "Prim", "native", "lib", "borrow", "denote", "logic", "seplogic", "place", "Rattle.std", "Rattle.core", "Rattle.io", "Rattle.libc")
# Lemmas that port.py has turned and that a definition would now meet, with the files that they stand in (all, where none is named).
MET = {
    "any_below": (),
    "at_slot": (),
    "by_first": (),
    "close_at": (),
    "items_at": (),
    "no_value": (),
    "numbers_of": (),
    "list_length": ("spelling/proofs/Summing.antt",),
    "other_key": ("json/proofs/Growing.antt", "json/proofs/Walking.antt"),
}
# A dash that is no lemma's: the field of a record, which meets no definition in its own files.
FIELDS = {"tree-of": "crates/emptiness/"}


# A crate that a library of the kit is named as.
CRATES = {"json": "jsonrows"}


def snake(name):
    name = re.sub(r"(?<=[a-z0-9?])[A-Z]", lambda m: "_" + m[0].lower(), name)
    return name.replace("-", "_") if re.match(r"[a-z]", name) else name


def texts(root, endings):
    for folder, dirs, files in os.walk(root):
        dirs[:] = sorted(d for d in dirs if d not in ("out", "target", ".git", ".ci", "tools"))
        for f in sorted(files):
            if f.endswith(endings):
                yield os.path.join(folder, f)


def read(path):
    with open(path, encoding="utf-8") as f:
        return f.read()


def without_comments(text):
    return re.sub(r"(?m)(?<![^\s(){}])--[^\n]*", "", text)


def declared(path, text):
    if path.endswith("/Proof.antt"):
        return set()
    names = {name for name, _ in DECLARED.findall(without_comments(text))} | set(RULESET.findall(text))
    return {name for name in names if re.match(r"[a-z]", name)}


def borrowed(text):
    """The names that a file imports from a library."""
    found = set()
    for path, items in USE.findall(text):
        if path.startswith(LIBRARIES):
            found.update(w for it in items.strip("{}").split(",") for w in it.split(" as ")[-1:] for w in [w.strip()])
    return found


ALIAS = re.compile(r" as ([a-z][^\s(){}.;,]*)(?=[,}])")


def main(argv):
    check = "--check" in argv
    # Names that port.py left are told from those that are turned by this alone, so a second run would turn some again.
    if not all(os.path.isdir(f"crates/{old}") for old in CRATES):
        print("the names are turned already: nothing is written")
        return
    files = {p: read(p) for p in texts("crates", (".antt", ".rt", ".edit"))}
    own = collections.defaultdict(set)
    for p, t in files.items():
        if p.endswith(".antt"):
            for name in declared(p, t):
                own[name].add(p)
    table = {name: snake(name) for name in own if snake(name) != name}
    for old, new in table.items():
        humps = any(it != old and "-" not in it and snake(it) == new for it in own)
        table[old] = new + "_lem" if "-" in old and humps else new
    back = collections.defaultdict(set)
    for old, new in table.items():
        back[new].add(old)
    for new, olds in sorted(back.items()):
        if len(olds) > 1 or new in own and new not in MET:
            print("fall together:", new, sorted(olds))
    changed = 0
    for p, t in files.items():
        kept = borrowed(t) if p.endswith((".antt", ".rt")) else set()
        for name in sorted(kept & set(table)):
            print("of a library here:", p, name)

        def word(m):
            name = m[0]
            if name in kept:
                return name
            if name in MET and p.endswith(".antt") and (not MET[name] or p.endswith(MET[name])):
                return name + "_lem"
            if name in FIELDS and p.startswith(FIELDS[name]):
                return snake(name)
            return table.get(name, name)

        new = WORD.sub(word, t)
        # names that a file gives to what it imports
        given = {it: snake(it) for it in ALIAS.findall(new) if snake(it) != it}
        new = WORD.sub(lambda m: given.get(m[0], m[0]), new)
        if new != t:
            changed += 1
            if not check:
                with open(p, "w", encoding="utf-8") as f:
                    f.write(new)
    span = re.compile(r"\x60[^\x60\n]+\x60")
    for p in texts(".", (".md",)):
        t = read(p)
        new = span.sub(lambda m: WORD.sub(lambda w: table.get(w[0], w[0]), m[0]), t)
        if new != t:
            changed += 1
            if not check:
                with open(p, "w", encoding="utf-8") as f:
                    f.write(new)
    for old, new in CRATES.items():
        if not check and os.path.isdir(f"crates/{old}"):
            rename(old, new)
    print(f"{len(table)} names, {changed} files")


def rename(old, new):
    """Moves a crate, and turns its name in paths of the code, of clauses and of proofs, and in crates.txt."""
    os.rename(f"crates/{old}", f"crates/{new}")
    turns = [(rf"\bRattle\.{old}\.", f"Rattle.{new}."), (rf"(?<![\w:]){old}::", f"{new}::"), (rf"\buse {old}\b", f"use {new}")]
    for p in texts("crates", (".antt", ".rt", ".edit")):
        t = turned = read(p)
        for a, b in turns:
            turned = re.sub(a, b, turned)
        if turned != t:
            with open(p, "w", encoding="utf-8") as f:
                f.write(turned)
    t = read("crates.txt")
    with open("crates.txt", "w", encoding="utf-8") as f:
        f.write(re.sub(rf"(?m)(?<=[ :]){old}(?= |$)|^{old}(?=:)", new, t))


if __name__ == "__main__":
    main(sys.argv[1:])
