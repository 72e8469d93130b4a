#!/usr/bin/env python3
"""Brings the repository's own definitions, lemmas and fields to snake case, after port.py.

A name of specs/ or proofs/ that begins with a small letter and has a capital inside, as keepsLimits, becomes keeps_limits; getD, which is
get_or in today's library, becomes get_or inside a name of ours. A dash that joins two names stays. Renamed are definitions, clauses, proofs,
edits, and the names where documents and tests speak of them. Code, strings of code, exported names, inputs and outputs keep theirs. It ends
with status 1 where two names of one file would fall together.

Usage: respell.py   at the top of the repository, once, right after port.py
"""

import glob
import re
import sys

NAME = re.compile(r"[A-Za-z_\u0370-\u03ff\u2080-\u2089\u2115\u211d][\w'\-\u2080-\u2089⊕∘≤<≡∷+]*")
OURS = re.compile(r"[a-z][\w'\-]*[A-Z]")
# Words of today's library, or parts of names that Rattle makes.
THEIRS = re.compile(r"Tells|Lawful|Makes|Meets|_Steps|_Chunk|_Rule")


# Lemmas that port.py named as a definition will be named here: each gets the name that it had, or one of its own (CONTRACT_STYLE, Names, 3).
LEMMAS = {
    "crates/calls/proofs/Need.antt": {"number_by": "number_by_lem"},
    "crates/cells/proofs/Tables.antt": {"load_at": "load-at"},
    "crates/cells/proofs/outline/put_loads/Proof.antt": {"load_at": "load-at"},
    "crates/lines/proofs/Numbers.antt": {"is_digit": "is-digit"},
    "crates/lines/proofs/reading/read_numbers/Proof.antt": {"is_digit": "is-digit"},
    "crates/planner/proofs/Planner/mark/Proof.antt": {"mark_set": "mark-set"},
    "crates/tables/proofs/Changes.antt": {"mark_set": "mark-set"},
}


def snake(name):
    name = name.replace("getD", "get_or").replace("lenL", "len_l").replace("lenR", "len_r").replace("lenS", "len_s")
    # A capital alone is a word, as in notAPage.
    name = re.sub(r"(?<=[a-z])A(?=[A-Z])", "_a", name)
    return re.sub(r"(?<=[a-z0-9])([A-Z])", lambda m: "_" + m.group(1).lower(), name)


def files(*patterns):
    found = []
    for pattern in patterns:
        found += glob.glob(pattern, recursive=True)
    return sorted(found)


def read(path):
    with open(path, encoding="utf-8") as it:
        return it.read()


def code_of(path, text):
    """The text without its comments."""
    mark = {"antt": "--", "rt": "//"}.get(path.rpartition(".")[2])
    return re.sub(rf"{mark}.*", "", text) if mark else text


def names_of(paths):
    """Our names that are to be respelled: those that stand in a definition or a proof."""
    found = set()
    for path in paths:
        for word in NAME.findall(code_of(path, read(path))):
            if OURS.match(word) and not THEIRS.search(word):
                found.add(word)
    return found


def respelled(text, names):
    return NAME.sub(lambda m: snake(m.group(0)) if m.group(0) in names else m.group(0), text)


def quoted(text, names):
    """A document's text: names between backquotes alone."""
    return re.sub(r"`[^`\n]*`", lambda m: respelled(m.group(0), names), text)


def as_lemmas():
    """Gives those lemmas their names."""
    for path, names in LEMMAS.items():
        text = read(path)
        with open(path, "w", encoding="utf-8") as it:
            it.write(NAME.sub(lambda m: names.get(m.group(0), m.group(0)), text))


def main():
    as_lemmas()
    antt = files("crates/*/specs/**/*.antt", "crates/*/proofs/**/*.antt")
    names = names_of(antt)
    for path in antt:
        here = set(NAME.findall(code_of(path, read(path))))
        defined = set(re.findall(r"(?m)^\s*(?:(?:pub|abbrev|unfoldable)\s+)*([\w'\-]+)\s*:", read(path)))
        both = [n for n in here & names if snake(n) in defined and n in defined]
        if both:
            print(f"{path}: would fall together with a name that stands: {', '.join(sorted(both))}")
            return 1
    turned = {snake(n) for n in names}
    if len(turned) != len(names):
        print("two of the names become one")
        return 1
    changed = 0
    for path in antt + files("crates/*/src/**/*.rt", "crates/*/must-fail/*.edit", "crates/*/wrong/*.edit"):
        old = read(path)
        new = respelled(old, names)
        if new != old:
            with open(path, "w", encoding="utf-8") as it:
                it.write(new)
            changed += 1
    for path in files("README.md", "docs/**/*.md"):
        old = read(path)
        new = quoted(old, names)
        if new != old:
            with open(path, "w", encoding="utf-8") as it:
                it.write(new)
            changed += 1
    print(f"{len(names)} names respelled in {changed} files")
    return 0


if __name__ == "__main__":
    sys.exit(main())
