#!/usr/bin/env python3
"""Turns the definitions and lemmas of this repository from camel case to snake case, once, after the kit's port.py.

usage: tools/respell.py     at the top of the repository

It goes by tokens: a name of specs/ or proofs/ that begins with a small letter and has a capital is spelled with
underscores everywhere in crates/ (in antt, in the ghost text of the sources, in the must-fail edits) and in the
backticks of README.md and docs/. Types, modules, facts and the names of Rust functions stay. A lemma that would then
have its definition's name ends in `_lem`.
"""
import os
import re
import sys

# Lemmas whose definition takes their name, with the folder in which they are used.
LEMMAS = {
    "in_one": "crates/image/specs",
    "by_name": "crates/listing/specs/order",
    "other_length": "crates/tables/specs/by_name",
    "row_is": "crates/tables/specs/by_name/TagLaws.antt",
    "all_digits": "crates/hex/specs",
    "one_more": "crates/image/specs/GatherLaws.antt",
}
# Names whose capitals begin no word.
SPECIAL = {
    "closed2A": "closed_2a", "closing2A": "closing_2a", "lacks-2A": "lacks-2a", "w2A": "w2a",
    "matchesP4": "matches_p4", "headM": "head_m", "endM": "end_m", "relCJNE": "rel_cjne",
}
# Names that the kit makes, and a byte.
KEPT = {"is_Known", "store-Kept", "b'A'", "b'F'"}
TOKEN = re.compile(r"(?<![\w'-])[a-z][\w'-]*(?<![-])(?![\w'])")


def snake(name):
    return SPECIAL.get(name) or re.sub(r"(?<=[a-z0-9'])([A-Z])", lambda m: "_" + m.group(1).lower(), name)


def files(folder, endings):
    for place, folders, names in os.walk(folder):
        folders[:] = sorted(f for f in folders if f != "out")
        for name in sorted(names):
            if name.endswith(endings):
                yield os.path.join(place, name)


def is_camel(name):
    return name not in KEPT and re.search(r"[A-Z]", name) and snake(name) != name


def uncommented(path, text):
    mark = "--" if path.endswith(".antt") else "//"
    return "\n".join(line.split(mark, 1)[0] for line in text.split("\n"))


def main():
    known = set()
    for path in files("crates", (".antt",)):
        with open(path, encoding="utf-8") as f:
            known |= {t for t in TOKEN.findall(uncommented(path, f.read())) if is_camel(t)}

    def turn(text):
        return TOKEN.sub(lambda m: snake(m.group(0)) if m.group(0) in known else m.group(0), text)

    for path in files("crates", (".antt", ".rt", ".edit")):
        with open(path, encoding="utf-8") as f:
            old = f.read()
        new = old
        for lemma, place in LEMMAS.items():
            if path.startswith(place):
                new = re.sub(rf"(?<![\w'.-]){lemma}(?![\w'-])", lemma + "_lem", new)
        new = turn(new)
        if new != old:
            with open(path, "w", encoding="utf-8") as f:
                f.write(new)
    pages = ["README.md"] + [p for p in files("docs", (".md",)) if os.path.basename(p) not in ("LANDINGS.md",)]
    for path in pages:
        with open(path, encoding="utf-8") as f:
            old = f.read()
        new = re.sub(r"`[^`\n]+`", lambda m: turn(m.group(0)), old)
        if new != old:
            with open(path, "w", encoding="utf-8") as f:
                f.write(new)
    print(f"respell: {len(known)} names")
    return 0


sys.exit(main())
