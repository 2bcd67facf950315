#!/usr/bin/env python3
"""Loads for counting whole runs: folders as those of searchloads.py. The same seed gives the same bytes.

wholeloads.py --out FOLDER writes, all with checking on and a minimum of 4 unless something else is said,
  goal            64 KiB: three fifths of the library's routines, linked, other code, FFh behind it; a library of some 60 KB, 400 routines of 20 to 200 bytes in
                  modules of 2 to 4, that call and jump to each other and to those of other modules
  goal-unchecked  the same, checking off
  goal-2ch        the same, the library in the form that starts with 2Ch
  goal-none       the same library, none of its routines in the image
  goal-all        the same library, all of its routines linked; those whose short references cannot reach fail their check
  goal-8k         the same library, a tenth of its routines linked in 8 KiB
  goal-no-image   the same library, an image without bytes
  library-4k, -16k, -1m   a library of so many bytes at most, of such routines; of the last a tenth is linked, of the others three fifths
  flash-zeros, flash-ffs  the library of goal, an image of 00h, of FFh
  empties         as goal, and 400 segments without bytes, symbols and references in four more modules
  tiny            document 01's printed case, a minimum of 3
  small-SIZE-N    N routines, 1, which is linked, or 10, six of them linked, in an image of this size; small-SIZE-N-none: none of them linked
  collect-SHAPE   the library SHAPE of worst.py, for the shapes in COLLECTED, and 16 bytes of code
  names-sharing   20,000 references of one match to as many names at one target, which share a bucket of the port's table of 65,536
  symbols-sharing one match with 10,000 symbols at one position, whose names share a bucket of it
  long-noted      20,000 matches that note ten names of 250 letters at one target
  long-placed     20 segments of a byte that no content fills, with a symbol of 250 letters each: it is placed at every position of 8 KiB
  long-ordered    one match with 3,800 symbols of 250 letters, of which the first 240 are the same, ten at each of 380 positions of 1 KiB
and of searchloads.py and listloads.py the loads in SEARCHED and LISTED."""
import argparse

import listloads
import searchloads
import worst
from cases.records import TO_NAME, WORD, Content, External, Fixup, Module, Public, Segment, as_library, content, plain
from searchloads import EMPTY, FULL, code_image, colliding, linked, names, one_module, packed, routine, symbols, written

SEARCHED = ("long-patterns", "empty", "empty-named", "unfilled-named", "unfilled-self", "zeros", "zeros-reference", "zeros-referring", "names-colliding",
            "symbols-colliding", "tiny-image")
LISTED = ("crowded-60k", "one-60k", "one-noted-40k", "referring")
COLLECTED = (("empty-128k", worst.empty), ("empty-1m", worst.empty), ("tiny-128k", worst.tiny), ("tiny-1m", worst.tiny), ("fixups-128k", worst.fixups),
             ("contents-1m", worst.contents))
# Behind the code of an image of 64 KiB, and of 8 KiB, stands so much FFh.
FILLER, SMALL_FILLER = 12000, 1000
PRINTED = bytes.fromhex("020500014d0000ab 0e0b00010001000000030001538e 160e000100000000073f433f4c414444fe 060700010000e52522c6 040700014d00000000a7")


def size_of(rng):
    """20 to 200 bytes; most routines are short."""
    return 20 + int(181 * rng.random() ** 2.5)


def modules(rng, count):
    """Modules of 2 to 4 routines, so many in all, with a public each, and some externals that are publics of other modules."""
    out, total = [], 0
    while total < count:
        segments = range(1, min(rng.randrange(3, 6), count - total + 1))
        externals = range(1, rng.randrange(3, 6))
        found = {i: routine(rng, size_of(rng), segments, externals) for i in segments}
        definitions = [Segment(i, len(found[i][0]), name=b"?PR?F%d?M%d" % (i, len(out))) for i in segments]
        definitions += [Public(i, 0, b"_f%d_%d" % (len(out), i)) for i in segments]
        definitions += [External(i, b"_f%d_%d" % (rng.randrange(count * 10 // 30 + 1), rng.randrange(1, 4))) for i in externals]
        out.append(b"".join(plain(Module(definitions, [Content(i, 0, *found[i]) for i in segments], b"MODULE%d" % len(out)))))
        total += len(segments)
    return out


def library_form(parts):
    return b"".join(as_library(parts))


def with_empties(parts):
    more = Module([Segment(i, 5, EMPTY, name=b"S") for i in range(1, 101)], [], b"EMPTIES")
    return b"".join(parts + plain(more) * 4)


def run(count=400, share=0.6, size=FULL, filler=FILLER, form=b"".join):
    """So many routines in a library of this form, and an image of this size with a share of them linked."""
    def make(rng):
        data = form(modules(rng, count))
        return linked(rng, code_image(rng, size, filler), data, share, size - filler), data
    return make


def small(count, share, *sizes):
    """So many routines in images of these sizes, one byte in ten behind the code."""
    found = []
    for label in sizes:
        size = int(label.rstrip("k")) << (10 if label.endswith("k") else 0)
        found.append((f"small-{label}-{count}" + ("" if share else "-none"), run(count, share, size, size // 10)))
    return found


def erased(value):
    return lambda rng: (bytes([value]) * FULL, b"".join(modules(rng, 400)))


def tiny(rng):
    return b"\x00\xe5\x25\x22", PRINTED


def collected(label, shape):
    size = worst.SIZES[label.rpartition("-")[2]]
    return lambda rng: (bytes(code_image(rng, 16, 0)), shape(rng, size))


def long_name(number):
    """Names of 250 letters that differ at their end."""
    return b"_" * 240 + b"%010d" % (number * 40503 % 1000003)


def long_noted(rng):
    """Each match is an LJMP to one target."""
    ids = range(1, 11)
    image = b"\x02\x91\x23" * 20000
    return image + bytes(FULL - len(image)), one_module([[Segment(1, 3, name=b"S")], [External(i, long_name(i)) for i in ids]],
                                                        [content(Content(1, 0, b"\x02\0\0"), True) + packed([Fixup(1, WORD, TO_NAME, i) for i in ids])])


def long_placed(rng):
    ids = range(1, 21)
    return rng.randbytes(1 << 13), one_module([[Segment(i, 1, name=b"S") for i in ids], [Public(i, 0, long_name(i)) for i in ids]], [])


def long_ordered(rng):
    """Records of 200 symbols, since a record has room for no more."""
    found = [Public(1, 2 * (i % 380), long_name(i)) for i in range(3800)]
    rng.shuffle(found)
    defined = [[Segment(1, 4, name=b"S")]] + [found[i:i + 200] for i in range(0, len(found), 200)]
    return b"\x12\x34\x56\x78" + bytes(1020), one_module(defined, [content(Content(1, 0, b"\x12\x34\x56\x78"), True)])


def some_of(loads, wanted):
    return tuple(load for load in loads if load[0] in wanted)


LOADS = (("goal", run()), ("goal-unchecked", run(), "0 4"), ("goal-2ch", run(form=library_form)), ("goal-none", run(share=0)), ("goal-all", run(share=1)),
         ("goal-8k", run(share=0.1, size=1 << 13, filler=SMALL_FILLER)), ("goal-no-image", run(share=0, size=0, filler=0)),
         ("library-4k", run(23)), ("library-16k", run(98)),
         ("library-1m", run(6500, 0.1)), ("flash-zeros", erased(0)), ("flash-ffs", erased(255)), ("empties", run(form=with_empties)), ("tiny", tiny, "1 3"),
         *small(1, 1, "512", "1k", "2k", "4k"), *small(10, 0.6, "1k", "2k", "4k"), *small(1, 0, "1k", "2k", "4k"), *small(10, 0, "512", "1k", "2k"),
         *((f"collect-{label}", collected(label, shape)) for label, shape in COLLECTED),
         ("names-sharing", names(colliding(FULL), (b"\x80\0",))), ("symbols-sharing", symbols(colliding(FULL))),
         ("long-noted", long_noted, "1 1"), ("long-placed", long_placed), ("long-ordered", long_ordered),
         *some_of(searchloads.LOADS, SEARCHED), *some_of(listloads.LOADS, LISTED))

if __name__ == "__main__":
    written(LOADS, argparse.ArgumentParser(description=__doc__, formatter_class=argparse.RawDescriptionHelpFormatter))
