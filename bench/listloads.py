#!/usr/bin/env python3
"""Loads for counting the list: folders as those of searchloads.py. The same seed gives the same bytes.

listloads.py --out FOLDER writes, for 100, 10,000 and 60,000 rows (-100, -10k, -60k; a library has no room for so many of one-noted and past-one, of which the last is
-40k), all with checking on, a minimum of 4 and an image of 64 KiB,
  spread          a symbol at each of as many positions
  spread-noted    a symbol at each of half as many positions, where its name is also noted
  crowded         symbols at ten positions
  crowded-noted   names noted at ten positions
  one             symbols at one position
  one-noted       names noted at one position
  past            names noted at targets past the image's end, ten at each
  past-one        names noted at one target past the image's end
and, with 2,000 rows,
  referring       1,000 symbols of one match, and 1,000 references of it, each to one of these symbols
Names have 5 to 11 letters, those at one place differ, and neither names nor places stand in the file in their order. firmware and small-4k are those of
searchloads.py."""
import argparse

from searchloads import FULL, firmware, one_module, packed, small, written
from cases.records import TO_NAME, WORD, Content, External, Fixup, Public, Segment, content

ROWS = {"100": 100, "10k": 10000, "60k": 60000}
# A name that is noted takes more of a library than one that is placed.
FEWER_ROWS = {"100": 100, "10k": 10000, "40k": 40000}
# Two routines: one has the symbols, the other refers to names by a word of FFFFh, or of 0.
PLACING, NOTING = b"\x12\x34\x56\x78", b"\x9a\xbc\xde\xf1"


def some_name(number):
    """Names that differ, of different lengths, in no order of bytes."""
    return b"%05x" % (number * 40503 % 0xFFFFF) + b"_" * (number % 7)


def listed(word, symbols, notes):
    """The image, and a library of both routines: symbols are positions and names, notes are what is taken from the word, and numbers of names."""
    names = sorted({number for _, number in notes})
    externals = {number: i for i, number in enumerate(names, 1)}
    image = PLACING + NOTING + word
    definitions = [[Segment(1, len(PLACING), name=b"S"), Segment(2, len(NOTING), name=b"S")],
                   [Public(1, position, name) for position, name in symbols], [External(i, some_name(number)) for number, i in externals.items()]]
    fixups = [Fixup(len(NOTING), WORD, TO_NAME, externals[number], less) for less, number in notes]
    contents = [content(Content(1, 0, PLACING), True), content(Content(2, 0, NOTING), True) + packed(fixups)]
    return image + bytes(FULL - len(image)), one_module([each for each in definitions if each], contents)


def placed_at(rng, rows, positions):
    """So many symbols, with each position used as often as the next."""
    places = [16 + (FULL - 20) // positions * (i % positions) for i in range(rows)]
    rng.shuffle(places)
    return [(place, some_name(i)) for i, place in enumerate(places)]


def noted_at(rng, rows, targets, most):
    """So many references to as many targets, each the word less an offset; a name is noted at every target once at most."""
    taken = [(1 + most // targets * (i % targets), i // targets) for i in range(rows)]
    rng.shuffle(taken)
    return taken


def spread(rows):
    return lambda rng: listed(b"\xff\xff", placed_at(rng, rows, rows), [])


def spread_noted(rows):
    def make(rng):
        symbols = placed_at(rng, rows // 2, rows // 2)
        # one name in sixteen places each, so that the library does not get too long
        named = [(position, i // 16) for i, (position, _) in enumerate(symbols)]
        notes = [(0xFFFF - position, number) for position, number in named]
        rng.shuffle(notes)
        return listed(b"\xff\xff", [(position, some_name(number)) for position, number in named], notes)
    return make


def crowded(positions):
    return lambda rows: lambda rng: listed(b"\xff\xff", placed_at(rng, rows, positions), [])


def noted(targets, word, most):
    return lambda rows: lambda rng: listed(word, [], noted_at(rng, rows, targets or rows // 10, most))


def referring(rng):
    """All of one match: it is the second routine that has the symbols too."""
    positions = [16 + 60 * i for i in range(1000)]
    rng.shuffle(positions)
    image = NOTING + b"\xff\xff"
    definitions = [[Segment(1, len(NOTING), name=b"S")], [Public(1, position, some_name(i)) for i, position in enumerate(positions)],
                   [External(i + 1, some_name(i)) for i in range(len(positions))]]
    fixups = [Fixup(len(NOTING), WORD, TO_NAME, i + 1, 0xFFFF - position) for i, position in enumerate(positions)]
    return image + bytes(FULL - len(image)), one_module(definitions, [content(Content(1, 0, NOTING), True) + packed(fixups)])


SHAPES = (("spread", spread, ROWS), ("spread-noted", spread_noted, ROWS), ("crowded", crowded(10), ROWS), ("crowded-noted", noted(10, b"\xff\xff", 0xFFF0), ROWS),
          ("one", crowded(1), ROWS), ("one-noted", noted(1, b"\xff\xff", 0xFFF0), FEWER_ROWS), ("past", noted(0, b"\0\0", 0xFFFF), ROWS),
          ("past-one", noted(1, b"\0\0", 0xFFFF), FEWER_ROWS))
LOADS = tuple((f"{shape}-{size}", make(rows)) for shape, make, sizes in SHAPES for size, rows in sizes.items()) + (
    ("referring", referring), ("firmware", firmware), ("small-4k", small(1 << 12)))

if __name__ == "__main__":
    written(LOADS, argparse.ArgumentParser(description=__doc__, formatter_class=argparse.RawDescriptionHelpFormatter))
