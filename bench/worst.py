#!/usr/bin/env python3
"""Loads for counting the collection: libraries of three sizes, most of them shaped so that a plain search through definitions, contents or symbols
takes time that grows with the square of their number. The same seed gives the same bytes.

worst.py --out FOLDER writes SHAPE-128k, -512k and -1m for each of
  modules, records   as loads.py makes them: many ordinary modules; one module of many ids, each with some definitions, contents and fixups
  fixups             contents of a few segments, with as many fixups as fit
  lookups            one half definitions of different ids, one half fixups that name them
  definitions        a kept segment, a public and an external of each id, as many ids as fit, and no contents
  contents           contents of one byte, all of one id
  apart              absolute contents of one byte, and as many publics of id 0, none of them in a content
  inside             the same, one public in each content
  shared             the same, every public in every content
  doubled            kept segments of one id, and as many publics of that id: each segment has them all
  tiny               modules of one segment, one public, one content of a byte and one fixup
  empty              modules of nothing
Each file is the longest of its shape that does not pass its size (1m: 1,048,576 bytes). All but `modules`, `tiny` and `empty` are one module. All are whole, and
nothing in them is due for 10 to 13; `shared` and `doubled` have more symbols than any memory holds."""
import argparse
import random
from pathlib import Path

from loads import modules, records
from cases.records import (INBLOCK, RELATIVE, TO_NAME, TO_SEGMENT, WORD, Content, External, Fixup, Module, Public, Segment, content, end, entries,
                     entry, header, plain)

SIZES = {"128k": 1 << 17, "512k": 1 << 19, "1m": 1 << 20}
FRAME = len(header(b"WORST") + end(b"WORST"))
# The entries of a record fit in its body, which is not longer than this.
LONGEST_BODY = 65000


def packed(items, wide):
    """Records of one sort, as few as hold the items."""
    each = len(entry(items[0], wide))
    most = LONGEST_BODY // each
    return b"".join(entries(items[i:i + most], wide) for i in range(0, len(items), most))


def library(definitions, contents):
    return header(b"WORST") + b"".join(definitions) + b"".join(contents) + end(b"WORST")


def longest(size, make):
    """The library of the most items that does not pass the size; make(n) has n of them, all equally long but for the frames of their records."""
    n = 1000
    for _ in range(3):
        n = n * size // len(make(n))
    while len(make(n)) > size:
        n -= 1
    while len(make(n + 1)) <= size:
        n += 1
    return make(n)


def short(number):
    """Names of three letters, so that entries of a sort are equally long."""
    return bytes(65 + number // 26 ** i % 26 for i in range(3))


def some_fixups(rng, count, ids):
    return [Fixup(rng.randrange(31), rng.choice((WORD, RELATIVE, INBLOCK)), rng.choice((TO_SEGMENT, TO_NAME)), rng.choice(ids), rng.randrange(8))
            for _ in range(count)]


def fixups(rng, size):
    ids = range(1, 9)
    definitions = packed([Segment(i, 32, name=b"SEG") for i in ids], False) + packed([External(i, b"EXT") for i in ids], False)
    each = len(content(Content(1, 0, bytes(32)))) + len(packed(some_fixups(rng, 1000, ids), False))
    count = (size - FRAME - len(definitions)) // each
    data = [content(Content(rng.choice(ids), 0, rng.randbytes(32))) + packed(some_fixups(rng, 1000, ids), False) for _ in range(count)]
    return library([definitions], data)


def lookups(rng, size):
    seed = rng.random()

    def make(n):
        ids = range(1, n + 1)
        named = [packed([Segment(i, 32, name=short(i)) for i in ids], True), packed([External(i, short(i)) for i in ids], True)]
        return library(named, [content(Content(n, 0, bytes(32)), True), packed(some_fixups(random.Random(seed), 3 * n, ids), True)])
    return longest(size, make)


def definitions(rng, size):
    def make(n):
        ids = range(1, n + 1)
        return library([packed([Segment(i, 1, name=short(i)) for i in ids], True), packed([Public(i, 0, short(i)) for i in ids], True),
                        packed([External(i, short(i)) for i in ids], True)], [])
    return longest(size, make)


def contents(rng, size):
    def make(n):
        return library([entries([Segment(1, 0)])], [content(Content(1, i % 65536, b"%c" % (i % 255 + 1))) for i in range(n)])
    return longest(size, make)


def absolute(size, places):
    """places(n): where n contents start, and where n publics are."""
    def make(n):
        starts, offsets = places(n)
        return library([packed([Public(0, at, short(at)[:2]) for at in offsets], False)], [content(Content(0, at, b"\2")) for at in starts])
    return longest(size, make)


def apart(rng, size):
    return absolute(size, lambda n: ([i % 32768 for i in range(n)], [32768 + i % 32768 for i in range(n)]))


def inside(rng, size):
    mixed = rng.sample(range(65536), 65536)
    return absolute(size, lambda n: (mixed[:n], mixed[:n][::-1]))


def shared(rng, size):
    return absolute(size, lambda n: ([7] * n, [7] * n))


def doubled(rng, size):
    def make(n):
        return library([packed([Segment(1, 1, name=b"S") for _ in range(n)], False), packed([Public(1, 0, b"P") for _ in range(n)], False)],
                       [content(Content(1, 0, b"\2"))])
    return longest(size, make)


def repeated(size, module):
    one = b"".join(plain(module))
    return one * (size // len(one))


def tiny(rng, size):
    return repeated(size, Module([Segment(1, 1), Public(1, 0, b"P")], [Content(1, 0, b"\2", [Fixup(0, RELATIVE, TO_SEGMENT, 1)])], b""))


def empty(rng, size):
    return repeated(size, Module([], [], b""))


SHAPES = (modules, records, fixups, lookups, definitions, contents, apart, inside, shared, doubled, tiny, empty)


def main():
    options = argparse.ArgumentParser(description=__doc__, formatter_class=argparse.RawDescriptionHelpFormatter)
    options.add_argument("--out", type=Path, required=True)
    options.add_argument("--seed", type=int, default=1)
    given = options.parse_args()
    given.out.mkdir(parents=True, exist_ok=True)
    for shape in SHAPES:
        for label, size in SIZES.items():
            data = shape(random.Random(given.seed), size)
            (given.out / f"{shape.__name__}-{label}").write_bytes(data)
            print(f"{shape.__name__}-{label}: {len(data)} bytes", flush=True)


if __name__ == "__main__":
    main()
