#!/usr/bin/env python3
"""Loads for counting the search: a folder for each, with the files `image`, `library` and `asked` (the depth to which references are checked,
which for the Rust is 1 or 0, and the minimum). The same seed gives the same bytes.

searchloads.py --out FOLDER writes, all with checking on and a minimum of 4 unless something else is said,
  firmware          64 KiB: three fifths of the library's routines, linked (what their references lead to stands where they say), other code, FFh behind
                    it; a library of some 60 KB and 400 segments of 8051 instructions
  firmware-random   the same library, an image of random bytes
  modules           the library modules-64k of loads.py, which is of random bytes, and an image of random bytes with three fifths of its segments linked
  small-1k, -4k     10 segments of instructions, six of them linked in an image of 1 and of 4 KiB
  empty             1,000 segments without bytes, symbols and references; 64 KiB of random bytes
  empty-named       20 segments without bytes, with a symbol each: it is placed at every position
  unfilled-named    20 segments of a byte that no content fills, with a symbol each
  unfilled-self     a segment of a byte that no content fills, with a reference to itself
  zeros             64 KiB of 00h; three segments of 1, 16 and 200 bytes of 00h, with a symbol each
  zeros-reference   the same, each with a reference to itself too
  zeros-referring   64 KiB of 00h; a segment of 1,000 bytes of 00h with 20 references to itself
  zeros-but-last    64 KiB of 00h; three segments of 1, 16 and 200 bytes, 00h but for the last, 01h
  zeros-half-masked the same, the last under the mask 1Fh
  half-masked       64 KiB of random bytes; 100 segments of 32 bytes under masks of 1Fh and 00h in turn
  halves            32 KiB of 00h and as much of 01h, mixed; segments of 16 and 200 bytes, 00h but for the last, 01h
  tiny-image        16 bytes; the library modules-256k of loads.py, all of whose segments are longer
  long-patterns     1,000 bytes, of 00h and 01h; 60 segments of 960 bytes, of 00h and 01h, none of which matches at its first byte
  names-alike       20,000 references of one match to as many names of one length, at 4 targets
  names-mixed       the same, names of 1 to 30 letters
  name-again        20,000 matches that note one name at one target
  name-again-short  the same, and the matches are too short for the minimum
  names-colliding   the same, and all names and targets share a bucket of the port's table
  symbols           one match with 10,000 symbols at one position, names of one length
  symbols-mixed     the same, names of 1 to 30 letters
  symbols-colliding the same, and all names share a bucket"""
import argparse
import bisect
import functools
import itertools
import random
from pathlib import Path

from loads import modules
from worst import library
from cases.records import (CODE, INBLOCK, RELATIVE, TO_NAME, TO_SEGMENT, WORD, Content, External, Fixup, Module, Public, Segment, content, entries,
                     plain)
from model import collection
from model import reader

FULL = 1 << 16
EMPTY = CODE | 0x80  # the info of a segment without bytes
FACTOR = 2654435761  # of the port's buckets of names (`spread` in crates/tables/specs/by_name/Sheet.antt)

# Instructions of the 8051 that compilers write: opcode, how many bytes follow, how often. A fixup stands in the last four.
PLAIN = ((0x90, 2, 8), (0xE0, 0, 12), (0xF0, 0, 12), (0xA3, 0, 9), (0x74, 1, 5), (0xE5, 1, 8), (0xF5, 1, 8), (0x75, 2, 6), (0xFF, 0, 3), (0xFE, 0, 3),
         (0xEF, 0, 4), (0xEE, 0, 4), (0x2F, 0, 2), (0x3E, 0, 2), (0xC3, 0, 3), (0x9F, 0, 2), (0xE4, 0, 6), (0x8F, 1, 3), (0x8E, 1, 3), (0xAF, 1, 3),
         (0xAE, 1, 3), (0x7F, 1, 5), (0x7E, 1, 3), (0x54, 1, 3), (0x44, 1, 2), (0x24, 1, 3), (0x34, 1, 2), (0xD2, 1, 1), (0xC2, 1, 1), (0x60, 1, 3),
         (0x70, 1, 3), (0x80, 1, 3), (0xB4, 2, 1), (0xD0, 1, 2), (0xC0, 1, 2), (0x22, 0, 2), (0xDF, 1, 1), (0x30, 2, 1), (0x20, 2, 1), (0x93, 0, 1))
CALL, JUMP, SHORT_CALL, BRANCH = 0x12, 0x02, 0x11, 0x80
OPERANDS = (0x00, 0x00, 0x00, 0x01, 0x01, 0x02, 0x03, 0x04, 0x08, 0x10, 0x20, 0x80, 0x81, 0x82, 0x83, 0xE0, 0xF0, 0xFF, 0x0A, 0x0F, 0x7F)


def instruction(rng):
    opcode, more, _ = rng.choices(PLAIN, [often for _, _, often in PLAIN])[0]
    return bytes([opcode] + [rng.choice(OPERANDS) if rng.random() < 0.7 else rng.randrange(256) for _ in range(more)])


def routine(rng, size, segments, externals):
    """Instructions of so many bytes, and the fixups of those among them that lead somewhere else."""
    out, fixups = b"", []
    while len(out) < size - 3:
        if rng.random() < 0.06:
            block, id_ = (TO_SEGMENT, rng.choice(segments)) if rng.random() < 0.3 else (TO_NAME, rng.choice(externals))
            opcode, kind, skipped, more = rng.choice(((CALL, WORD, 1, 2), (CALL, WORD, 1, 2), (JUMP, WORD, 1, 2), (SHORT_CALL, INBLOCK, 0, 1),
                                                      (BRANCH, RELATIVE, 1, 1)))
            fixups.append(Fixup(len(out) + skipped, kind, block, id_, rng.choice((0, 0, 0, 0, rng.randrange(8)))))
            out += bytes([opcode] + [0] * more)
        else:
            out += instruction(rng)
    out = out[:size - 1] + b"\x22"
    return out, [f for f in fixups if f.location + 2 < size]


def routines(rng, count):
    """Modules of 2 to 4 routines of 16 to 130 bytes with a public each, and some externals that are publics of other modules."""
    out, number, total = [], 0, 0
    while total < count:
        segments = range(1, min(rng.randrange(3, 6), count - total + 1))
        externals = range(1, rng.randrange(3, 6))
        found = {i: routine(rng, rng.randrange(16, 131), segments, externals) for i in segments}
        definitions = [Segment(i, len(found[i][0]), name=b"?PR?F%d?M%d" % (i, number)) for i in segments]
        definitions += [Public(i, 0, b"_f%d_%d" % (number, i)) for i in segments]
        definitions += [External(i, b"_f%d_%d" % (rng.randrange(count * 10 // 30 + 1), rng.randrange(1, 4))) for i in externals]
        out.append(b"".join(plain(Module(definitions, [Content(i, 0, *found[i]) for i in segments], b"MODULE%d" % number))))
        number, total = number + 1, total + len(segments)
    return b"".join(out)


def reference_bytes(image, at, kind, target):
    """What makes a reference at a place lead to a target, as found."""
    if kind == RELATIVE:
        image[at] = (target - at - 1) & 0xFF
    elif kind == WORD:
        image[at:at + 2] = (target & 0xFFFF).to_bytes(2, "big")
    else:
        image[at + 1] = target & 0xFF


def linked(rng, image, data, share, behind):
    """A share of the library's segments put into the image, none on another, before `behind`, and their references led to where their goals stand."""
    segments, _ = collection.collected(reader.read(data), collection.FOUND)
    taken = sorted(rng.sample(range(len(segments)), int(len(segments) * share)))
    rest = behind - sum(len(segments[i].bytes) for i in taken)
    gaps = sorted(rng.randrange(rest) for _ in taken)
    rng.shuffle(taken)
    places, filled = {}, 0
    for i, gap in zip(taken, gaps):
        places[i] = gap + filled
        filled += len(segments[i].bytes)
    names = {data[p.at:p.at + p.len]: places[i] + offset for i in taken for p, offset in segments[i].symbols}
    for i in taken:
        for j, (byte, mask) in enumerate(zip(segments[i].bytes, segments[i].masks)):
            image[places[i] + j] = byte & mask | image[places[i] + j] & ~mask & 0xFF
        for r in segments[i].references:
            goal = places.get(r.goal) if isinstance(r.goal, int) else names.get(data[r.goal.at:r.goal.at + r.goal.len])
            if goal is not None:
                reference_bytes(image, places[i] + r.place, r.kind, goal + r.offset)
    return bytes(image)


def code_image(rng, size, filler):
    out = bytearray()
    while len(out) < size - filler:
        out += instruction(rng)
    return bytearray(out[:size - filler] + b"\xff" * filler)


def firmware(rng):
    data = routines(rng, 400)
    return linked(rng, code_image(rng, FULL, 12000), data, 0.6, FULL - 12000), data


def firmware_random(rng):
    _, data = firmware(rng)
    return rng.randbytes(FULL), data


def of_modules(rng):
    data = modules(random.Random(1), FULL)
    return linked(rng, bytearray(rng.randbytes(FULL)), data, 0.6, FULL), data


def small(size):
    def make(rng):
        data = routines(rng, 10)
        return linked(rng, code_image(rng, size, size // 8), data, 0.6, size - size // 8), data
    return make


def named(number, length=6):
    """Names that differ, of one length."""
    return (b"%0*d" % (length - 1, number)).rjust(length, b"n")


def mixed_name(number):
    """Names that differ, of different lengths."""
    return b"%x" % number + b"_" * (number * 7 % 26)


def packed(items):
    """Records of one sort, each of at most 1,000 items; none of ours has more than 60 bytes."""
    return b"".join(entries(items[i:i + 1000], True) for i in range(0, len(items), 1000))


def one_module(definitions, contents):
    return library([packed(each) for each in definitions], contents)


def empty(rng):
    return rng.randbytes(FULL), one_module([[Segment(i, 5, EMPTY, name=b"S") for i in range(1, 1001)]], [])


def twenty(size, info):
    def make(rng):
        ids = range(1, 21)
        return rng.randbytes(FULL), one_module([[Segment(i, size, info, name=b"S") for i in ids], [Public(i, 0, named(i)) for i in ids]], [])
    return make


def unfilled_self(rng):
    """The content has no bytes, so that its fixup leaves a reference and no mask."""
    return rng.randbytes(FULL), one_module([[Segment(1, 1, name=b"S")]], [content(Content(1, 0, b""), True), packed([Fixup(0, WORD, TO_SEGMENT, 1)])])


def alike(image, patterns, references=lambda i: []):
    """Segments of these bytes, with references by their ids, and a symbol each."""
    ids = range(1, len(patterns) + 1)
    contents = []
    for i, each in zip(ids, patterns):
        found = references(i)
        contents.append(content(Content(i, 0, each), True) + packed(found))
    return image, one_module([[Segment(i, len(p), name=b"S") for i, p in zip(ids, patterns)], [Public(i, 0, named(i)) for i in ids]], contents)


LENGTHS = (1, 16, 200)


def zeros(rng):
    return alike(bytes(FULL), [bytes(n) for n in LENGTHS])


def zeros_reference(rng):
    return alike(bytes(FULL), [bytes(n) for n in LENGTHS], lambda i: [Fixup(0, WORD, TO_SEGMENT, i)])


def zeros_referring(rng):
    return alike(bytes(FULL), [bytes(1000)], lambda i: [Fixup(2 * k, WORD, TO_SEGMENT, i) for k in range(20)])


def zeros_but_last(rng):
    return alike(bytes(FULL), [bytes(n - 1) + b"\1" for n in LENGTHS])


def zeros_half_masked(rng):
    return alike(bytes(FULL), [bytes(n - 1) + b"\1" for n in LENGTHS], lambda i: [Fixup(LENGTHS[i - 1] - 1, INBLOCK, TO_SEGMENT, i)])


def half_masked(rng):
    return alike(rng.randbytes(FULL), [rng.randbytes(32) for _ in range(100)], lambda i: [Fixup(2 * k, INBLOCK, TO_SEGMENT, i) for k in range(16)])


def halves(rng):
    image = bytearray(bytes(FULL // 2) + b"\1" * (FULL // 2))
    rng.shuffle(image)
    return alike(bytes(image), [bytes(n - 1) + b"\1" for n in LENGTHS[1:]])


@functools.cache
def endings():
    """What three letters from the space on, behind a name, add to the number that its bucket is made of: ascending, each with its letters."""
    letters = range(32, 127)
    return sorted((((first * FACTOR + second) * FACTOR + third) * FACTOR % (1 << 32), bytes((first, second, third)))
                  for first, second, third in itertools.product(letters, repeat=3))


def colliding(buckets=16384):
    """Names that differ, of different lengths, that share a bucket with each other, modulo so many, at most 65,536. A bucket is the upper 16 bits of a
    number to which the letters of a name add, so that the endings which lead to bucket 0 stand together in the list of them all."""
    def make(number):
        name = mixed_name(number)
        whole = name + bytes(3)
        hashed = len(whole)
        for byte in whole if len(whole) <= 16 else whole[:8] + whole[-8:]:
            hashed = (hashed + byte) * FACTOR % (1 << 32)
        found = []
        for bucket in range(0, 65536, buckets):
            start = (bucket * 65536 - hashed) % (1 << 32)
            found += endings()[bisect.bisect_left(endings(), (start,)):bisect.bisect_left(endings(), (start + 65536,))]
        return name + min(letters for _, letters in found)
    return make


TARGETS = (b"\x80\0", b"\x80\1", b"\x90\0", b"\xff\0")
SHARED_TARGETS = (b"\1\0", b"\x41\0", b"\x81\0", b"\xc1\0")


def tiny_image(rng):
    return rng.randbytes(16), modules(random.Random(1), 1 << 18)


def long_patterns(rng):
    return alike(b"\1" * 50 + b"\0\1" * 475, [b"\0" + bytes(rng.choice((0, 1)) for _ in range(959)) for _ in range(60)])


def names(name, targets=TARGETS):
    """The references read the words of a table; it stands once in the image."""
    def make(rng):
        count, at = 20000, 4
        ids = range(1, count + 1)
        places = [at + 2 * rng.randrange(500) for _ in ids]
        definitions = [[Segment(1, at + 1000, name=b"S")], [External(i, name(i)) for i in ids]]
        table = b"".join(rng.choice(targets) for _ in range(500))
        filled = content(Content(1, 0, b"\x12\x34\x56\x78" + table), True)
        fixups = [Fixup(place, WORD, TO_NAME, i) for i, place in zip(ids, places)]
        return b"\x12\x34\x56\x78" + table + bytes(30000), one_module(definitions, [filled + packed(fixups)])
    return make


def name_again(rng):
    """Each match is an LJMP to one target."""
    image = b"\x02\x91\x23" * 20000
    return image + bytes(FULL - len(image)), one_module([[Segment(1, 3, name=b"S")], [External(1, b"_target")]],
                             [content(Content(1, 0, b"\x02\0\0"), True) + packed([Fixup(1, WORD, TO_NAME, 1)])])


def symbols(name):
    def make(rng):
        ids = range(10000)
        return rng.randbytes(500) + b"\x12\x34\x56\x78" + rng.randbytes(3000), one_module(
            [[Segment(1, 4, name=b"S")], [Public(1, 0, name(i)) for i in ids]], [content(Content(1, 0, b"\x12\x34\x56\x78"), True)])
    return make


# A name, how it is made, and the depth and the minimum where they are not 1 and 4.
LOADS = (("firmware", firmware), ("firmware-random", firmware_random), ("modules", of_modules), ("small-1k", small(1 << 10)), ("small-4k", small(1 << 12)),
         ("empty", empty), ("empty-named", twenty(5, EMPTY)), ("unfilled-named", twenty(1, CODE)), ("unfilled-self", unfilled_self),
         ("zeros", zeros), ("zeros-reference", zeros_reference), ("zeros-referring", zeros_referring),
         ("zeros-but-last", zeros_but_last), ("zeros-half-masked", zeros_half_masked),
         ("half-masked", half_masked), ("halves", halves), ("tiny-image", tiny_image),
         ("long-patterns", long_patterns), ("names-alike", names(named)), ("names-mixed", names(mixed_name)), ("names-colliding", names(colliding(), SHARED_TARGETS)),
         ("name-again", name_again, "1 1"),
         ("name-again-short", name_again), ("symbols", symbols(named)), ("symbols-mixed", symbols(mixed_name)),
         ("symbols-colliding", symbols(colliding())))


def written(loads, options):
    """Writes a folder for each load, as the command line asks."""
    options.add_argument("--out", type=Path, required=True)
    options.add_argument("--seed", type=int, default=1)
    given = options.parse_args()
    for name, make, *asked in loads:
        folder = given.out / name
        folder.mkdir(parents=True, exist_ok=True)
        image, data = make(random.Random(given.seed))
        (folder / "image").write_bytes(image)
        (folder / "library").write_bytes(data)
        (folder / "asked").write_text((asked or ["1 4"])[0] + "\n")
        print(f"{name}: image {len(image)} bytes, library {len(data)} bytes", flush=True)


if __name__ == "__main__":
    written(LOADS, argparse.ArgumentParser(description=__doc__, formatter_class=argparse.RawDescriptionHelpFormatter))
