#!/usr/bin/env python3
"""Loads for counting: libraries of four sizes and two shapes. The same seed gives the same bytes.

loads.py --out FOLDER writes
  modules-16k, -64k, -256k, -1m   many ordinary bare modules
  records-16k, -64k, -256k, -1m   one module with many records
Each file is the longest of its shape that does not pass its size (1m: 1,048,576 bytes). All are whole and sound: ids refer to what
is defined, contents fit their segments, and no fixup is refused."""
import argparse
import random
import sys
from pathlib import Path

sys.path.insert(0, str(Path(__file__).resolve().parent.parent / "tools" / "oracle"))
from cases.records import (INBLOCK, RELATIVE, TO_NAME, TO_SEGMENT, WORD, Content, External, Fixup, Module, Public, Segment,  # noqa: E402
                     content, end, entries, header, plain)

SIZES = {"16k": 1 << 14, "64k": 1 << 16, "256k": 1 << 18, "1m": 1 << 20}


def name(rng, number):
    return rng.choice((b"_f%d", b"?C?L%d", b"?PR?MAIN?%d", b"_table_%d")) % number


def some_fixups(rng, count, size, segments, externals):
    """References of the usual kinds, each inside the content, to segments and externals by their ids."""
    found = []
    for _ in range(count):
        block, ids = rng.choice(((TO_SEGMENT, segments), (TO_NAME, externals), (TO_NAME, externals)))
        kind = rng.choice((WORD, WORD, RELATIVE, INBLOCK))
        found.append(Fixup(rng.randrange(size - 1), kind, block, rng.choice(ids), rng.choice((0, 0, 0, rng.randrange(8)))))
    return found


def ordinary(rng, number):
    """A module of 2 to 4 segments with a public each, some externals, and a content of 40 to 100 bytes for each
    segment with up to 5 fixups."""
    segments = range(1, rng.randrange(3, 6))
    externals = range(1, rng.randrange(3, 8))
    sizes = {i: rng.randrange(40, 101) for i in segments}
    definitions = [Segment(i, sizes[i], name=name(rng, number)) for i in segments]
    definitions += [Public(i, rng.choice((0, rng.randrange(40))), name(rng, number)) for i in segments]
    definitions += [External(i, name(rng, rng.randrange(number + 1))) for i in externals]
    contents = [Content(i, 0, rng.randbytes(sizes[i]), some_fixups(rng, rng.randrange(6), sizes[i], segments, externals))
                for i in segments]
    return b"".join(plain(Module(definitions, contents, b"MODULE%d" % number)))


def modules(rng, size):
    out, number = [], 0
    while True:
        one = ordinary(rng, number)
        size -= len(one)
        if size < 0:
            return b"".join(out)
        out.append(one)
        number += 1


def group(rng, id_):
    """The records of one segment in a large module: its definitions, each in a record of its own, and its content of 16
    to 48 bytes with up to two records of 2 to 6 fixups. Ids have two bytes, and reach back to what is defined before."""
    size = rng.randrange(16, 49)
    known = range(max(1, id_ - 40), id_ + 1)
    defined = [[Segment(id_, size, name=name(rng, id_))], [Public(id_, i, name(rng, id_)) for i in range(rng.randrange(1, 3))],
               [External(id_, name(rng, id_))]]
    fixups = [some_fixups(rng, rng.randrange(2, 7), size, known, known) for _ in range(rng.randrange(3))]
    data = [content(Content(id_, 0, rng.randbytes(size)), True)] + [entries(each, True) for each in fixups]
    return b"".join(entries(each, True) for each in defined), b"".join(data)


def records(rng, size):
    first, last = header(b"LARGE"), end(b"LARGE")
    size -= len(first + last)
    groups = []
    while True:
        one = group(rng, len(groups) + 1)
        size -= sum(map(len, one))
        if size < 0:
            return first + b"".join(d for d, _ in groups) + b"".join(c for _, c in groups) + last
        groups.append(one)


def main():
    options = argparse.ArgumentParser(description=__doc__, formatter_class=argparse.RawDescriptionHelpFormatter)
    options.add_argument("--out", type=Path, required=True)
    options.add_argument("--seed", type=int, default=1)
    given = options.parse_args()
    given.out.mkdir(parents=True, exist_ok=True)
    for shape in (modules, records):
        for label, size in SIZES.items():
            data = shape(random.Random(given.seed), size)
            (given.out / f"{shape.__name__}-{label}").write_bytes(data)
            print(f"{shape.__name__}-{label}: {len(data)} bytes")


if __name__ == "__main__":
    main()
