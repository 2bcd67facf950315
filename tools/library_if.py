#!/usr/bin/env python3
"""library_if.py [CRATE..]: the choice by a test, `if t then a else b`, is the library's own, Rattle.std.specs.Prelude's.

`rt ci` refuses an operator of a crate's own under that name. Run at the top of the repository: each .antt file of the
crates named (of all, if none is) that took it from lent's Choice takes it from the library. A second run changes nothing.
"""
import os
import re
import sys

NAME = "if◌then◌else◌"
OLD = re.compile(r"(?m)^((?:pub )?use Rattle\.lent\.specs\.Choice\.)\{([^{}]*)\}\n")
PRELUDE = re.compile(r"(?m)^use Rattle\.std\.specs\.Prelude\.\{([^{}]*)\}$")
DEFINED = re.compile(r"(?m)^infix 10 if◌then◌else◌\nabbrev pub if◌then◌else◌ :.*\nif true then.*\nif false then.*\n\n")


def names_in(text):
    return [it.strip() for it in text.split(",") if it.strip()]


def turned(text):
    taken = False

    def without(found):
        nonlocal taken
        names = names_in(found[2])
        if NAME not in names:
            return found[0]
        taken = True
        left = [it for it in names if it != NAME]
        return f"{found[1]}{{{', '.join(left)}}}\n" if left else ""

    new = OLD.sub(without, text)
    if not taken:
        return text
    here = PRELUDE.search(new)
    if not here:
        line = f"use Rattle.std.specs.Prelude.{{{NAME}}}\n"
        first = re.search(r"(?m)^use ", new)
        return new[: first.start()] + line + new[first.start() :] if first else line + new
    if NAME in names_in(here[1]):
        return new
    return new[: here.end() - 1] + f", {NAME}}}" + new[here.end() :]


def main():
    crates = sys.argv[1:] or sorted(os.listdir("crates"))
    for crate in crates:
        for folder, folders, files in os.walk(f"crates/{crate}"):
            folders[:] = sorted(it for it in folders if it != "out")
            for name in sorted(files):
                if not name.endswith(".antt"):
                    continue
                path = f"{folder}/{name}"
                with open(path, encoding="utf-8") as file:
                    text = file.read()
                new = turned(text)
                if path == "crates/lent/specs/Choice.antt":
                    new = DEFINED.sub("", new)
                if new != text:
                    with open(path, "w", encoding="utf-8") as file:
                        file.write(new)
                    print(path)


main()
