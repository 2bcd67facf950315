#!/usr/bin/env python3
"""Records what HEX texts import as and what images export as, by the model (model/hex.py): the file of cases of the program
crate `replay_hex`, whose README.md describes it. The same seed gives the same file."""
import argparse
import random
import struct
from collections import Counter
from pathlib import Path

from cases import hex_texts
from model import hex as model
from record import digest

IMPORT, EXPORT = 0, 1
# How many bytes the program has room for.
ROOM = 70000


def rooms(rng, size):
    """As much as is needed, one byte less, nothing, more; no more than the program has."""
    if size > ROOM:
        return [ROOM, 0]
    return [size, ROOM if rng.random() < 0.1 else size + rng.randrange(1, 9), *([size - 1, 0] if size and rng.random() < 0.2 else [])]


def case(job, given, room):
    outcome = (model.imported if job == IMPORT else model.exported)(given)
    number, size, left = model.stored(outcome, room)
    return number, struct.pack("<BBIIII", job, number, len(given), room, size, digest(left)) + given


def cases(rng, texts, images):
    """All cases, each by its job, what it comes to and its bytes in the file."""
    seen = set()
    for job, some in ((IMPORT, hex_texts.texts(rng, texts)), (EXPORT, hex_texts.images(rng, images))):
        for given in some:
            if (job, given) in seen:
                continue
            seen.add((job, given))
            made = (model.imported if job == IMPORT else model.exported)(given)[1]
            for room in rooms(rng, len(made)) if made is not None else [rng.choice((0, 8, 64))]:
                yield job, *case(job, given, room)


def told(found):
    """What the program has to say."""
    by_number = Counter(number for _, number, _ in found)
    refused = "".join(f", refused with {n} {k}" for n, k in sorted(by_number.items()) if n)
    exports = sum(job == EXPORT for job, _, _ in found)
    return (f"{len(found)} of {len(found)} recorded cases agree: done {by_number[0]}{refused}; "
            f"exports, of which each that was done came back: {exports}\n")


def main():
    words = argparse.ArgumentParser(description=__doc__)
    words.add_argument("--seed", type=int, default=1)
    words.add_argument("--texts", type=int, default=700, help="random texts")
    words.add_argument("--images", type=int, default=400, help="random images")
    words.add_argument("--out", type=Path, required=True, help="the crate's folder: data/cases and stdout are written")
    asked = words.parse_args()
    rng = random.Random(asked.seed)
    found = list(cases(rng, asked.texts, asked.images))
    (asked.out / "data" / "cases").write_bytes(b"hex\x01" + b"".join(bytes_ for _, _, bytes_ in found))
    (asked.out / "stdout").write_text(told(found))
    for job, name in ((IMPORT, "import"), (EXPORT, "export")):
        by_number = Counter(number for j, number, _ in found if j == job)
        print(name, sum(by_number.values()), "cases:", ", ".join(f"{n}: {k}" for n, k in sorted(by_number.items())))


if __name__ == "__main__":
    main()
