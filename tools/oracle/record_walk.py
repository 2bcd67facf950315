#!/usr/bin/env python3
"""Records what walks come to, by the model (model/walk.py): the file of cases of the program crate `replay_walk`, whose
README.md describes it. The same seed gives the same file. Where something is withheld, the model must find the same in an
image with other bytes there."""
import argparse
import random
import struct
from collections import Counter
from pathlib import Path

from cases import routines
from model import walk as model
from record import digest

# How many numbers the program has room for.
ROOM = 800


def rooms(rng, image, stretches, start):
    """Rows that are exact, one number short, more, and none."""
    needed = 3 * model.outcome(image, stretches, start, ROOM)[1]
    yield needed
    if needed and rng.random() < 0.4:
        yield needed - 1
    if rng.random() < 0.3:
        yield rng.choice((0, 1, needed + 1, needed + 3, ROOM))


def case(image, stretches, start, lent):
    number, steps, why, left = model.outcome(image, stretches, start, lent)
    pairs = [n for pair in stretches for n in pair]
    kept = image.lstrip(b"\0")
    head = struct.pack("<BBBxIIIIIQ", number, why, len(stretches), len(image) - len(kept), len(kept), lent, steps, digest(left), start)
    return number, why, steps, head + struct.pack(f"<{len(pairs)}Q", *pairs) + kept


def other_bytes(image, stretches):
    """Every withheld byte is another one."""
    changed = bytearray(image)
    hidden = {at for first, size in stretches if first + size <= len(image) for at in range(first, first + size)}
    for at in hidden:
        changed[at] ^= 0x5A
    return bytes(changed)


def cases(rng, n):
    seen = set()
    for image, stretches, start in routines.walks(rng, n):
        key = image, tuple(stretches), start
        if key in seen:
            continue
        seen.add(key)
        changed = other_bytes(image, stretches)
        for lent in rooms(rng, image, stretches, start):
            assert model.outcome(image, stretches, start, lent) == model.outcome(changed, stretches, start, lent), key
            yield case(image, stretches, start, lent)


def told(found, instructions):
    """What the program has to say."""
    by_number = Counter(number for number, _, _, _ in found)
    refused = "".join(f", refused with {n} {k}" for n, k in sorted(by_number.items()) if n)
    return (f"{len(found)} of {len(found)} recorded walks agree: done {by_number[0]}{refused}\n"
            f"{instructions} of {instructions} instructions are as dis51 tells them\n")


def main():
    words = argparse.ArgumentParser(description=__doc__)
    words.add_argument("--seed", type=int, default=1)
    words.add_argument("--walks", type=int, default=2000, help="random walks")
    words.add_argument("--out", type=Path, required=True, help="the crate's folder: data/cases and stdout are written")
    asked = words.parse_args()
    found = list(cases(random.Random(asked.seed), asked.walks))
    (asked.out / "data" / "cases").write_bytes(b"wlk\x01" + b"".join(bytes_ for _, _, _, bytes_ in found))
    instructions = ((asked.out / "data" / "told").stat().st_size - 4) // 9
    (asked.out / "stdout").write_text(told(found, instructions))
    by_number = Counter(number for number, _, _, _ in found)
    by_why = Counter(why for number, why, _, _ in found if not number)
    print(len(found), "walks:", ", ".join(f"{n}: {k}" for n, k in sorted(by_number.items())))
    names = ("return", "limit", "reserved", "end", "withheld")
    print("done:", ", ".join(f"{names[w]} {k}" for w, k in sorted(by_why.items())), "; no step:", sum(not number and not steps for number, _, steps, _ in found))


if __name__ == "__main__":
    main()
