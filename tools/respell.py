#!/usr/bin/env python3
"""Respells this repository's own words of antt in snake case: definitions, lemmas, constructors and fields.

usage: tools/respell.py [--dry]      at the top of a checkout that the kit's port.py has turned, without further edits

A word is one that specs/ or proofs/ of a crate declares. Types and modules keep their camel case, names that the checker
makes (those of goals) and names of src/ stay as they are. The words are turned in crates/ (.antt, the clauses of .rt, and
must-fail/), in .ci/misuses and, between back quotes, in docs/ and README.md. A new word that something else has already is
listed under RENAMED with a word of its own.
"""

import os
import re
import sys

WORD = r"[^\s(){}\[\].,;:λ«»⟦⟧\"`]+"
DECLARED = re.compile(rf"^(?P<indent> *)(?:unfoldable |abbrev |pub |data |record |ruleset )*(?P<name>{WORD})(?: [({{].*)? :(?= |$)", re.M)
MADE = re.compile(r"^(?: *)(?:abbrev |pub )*(\S+) : (?:goal|need|given)\.", re.M)
RENAMED = {
    # A lemma that would have the name of the definition that it is about.
    name: name.replace("-", "_") + "_lem"
    for name in ("byte-value", "figure-at", "hop-by", "lines-in", "no-route", "offered-all", "on-ok", "reached-by", "route-at", "route-from", "tree-at")
}


def texts(top, endings):
    for folder, folders, files in os.walk(top):
        folders[:] = sorted(d for d in folders if d not in ("out", ".git", "target"))
        for name in sorted(files):
            if name.endswith(endings):
                yield os.path.join(folder, name)


def read(path):
    with open(path, encoding="utf-8") as it:
        return it.read()


def snake(name):
    if name in RENAMED:
        return RENAMED[name]
    return re.sub(r"(?<=[a-z0-9])([A-Z])", lambda m: "_" + m.group(1).lower(), name).replace("-", "_")


def declared():
    """The words that specs/ and proofs/ declare and that are not yet in snake case, each with the files that declare it."""
    found, made = {}, set()
    for path in texts("crates", ".antt"):
        text = read(path)
        goals = set(MADE.findall(text))
        made |= goals
        for m in DECLARED.finditer(text):
            name = m.group("name")
            if name not in goals and name[0].islower() and snake(name) != name:
                found.setdefault(name, []).append(path)
    return found, made


def turned(text, words, quoted=False):
    def one(m):
        return words.get(m.group(0), m.group(0))

    if quoted:
        return re.sub(r"`[^`\n]*`", lambda m: turned(m.group(0), words), text)
    return re.sub(WORD, one, text)


def main(dry):
    found, made = declared()
    for name in sorted(made & set(found)):
        print(f"both a goal and a word: {name} {found[name]}")
    words = {name: snake(name) for name in found}
    taken = {}
    for name, new in sorted(words.items()):
        taken.setdefault(new, []).append(name)
    for new, names in sorted(taken.items()):
        if len(names) > 1:
            print(f"fall together: {new}: {names}")
    seen = {}
    for path in texts("crates", (".antt", ".rt")):
        for w in set(re.findall(WORD, read(path))):
            seen.setdefault(w, []).append(path)
    for new, names in sorted(taken.items()):
        if new in seen:
            print(f"taken: {new} ({names[0]}, declared in {found[names[0]]}): {seen[new][:6]}")
    if dry:
        return
    for path in [*texts("crates", (".antt", ".rt", ".edit")), *texts(".ci", ".edit")]:
        old = read(path)
        new = turned(old, words)
        if new != old:
            with open(path, "w", encoding="utf-8") as it:
                it.write(new)
    for path in [*texts("docs", ".md"), "README.md"]:
        old = read(path)
        new = turned(old, words, quoted=True)
        if new != old:
            with open(path, "w", encoding="utf-8") as it:
                it.write(new)
    print(f"respell: {len(words)} words")


if __name__ == "__main__":
    main("--dry" in sys.argv[1:])
