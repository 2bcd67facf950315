"""Libraries for the collection, gone through one by one: definitions of one id in every combination, absolute contents and their
symbols, contents that overlap or end at their segment's end, fixups of every kind and block, and refusals before one another."""
from itertools import product

from cases.collecting.libraries import REFUSALS
from cases.reading.libraries import Library, spelled
from cases.records import (CODE, INBLOCK, RELATIVE, TO_NAME, TO_SEGMENT, WORD, Content, External, Fixup, Module, Public, Segment, as_library, plain)

DEFINITIONS = ((3, CODE, 1), (5, CODE, 1), (4, CODE, 0), (4, 1, 1), (4, 0x80, 1))
PAST = 0xFFFF


def library(kind, modules, numbers=REFUSALS):
    return Library(kind, b"".join(r for m in modules for r in plain(m)), numbers)


def wide(rng, kind, modules, numbers=REFUSALS):
    """With ids of two bytes where one does not do."""
    return Library(kind, b"".join(r for m in modules for r in spelled(rng, m)), numbers)


def duplicates(rng):
    """Two definitions of one id, or three, kept or not; a content, symbols, and a reference to that id from another segment."""
    found = []
    for sizes in list(product(DEFINITIONS, repeat=2)) + [rng.choices(DEFINITIONS, k=3) for _ in range(12)]:
        for content in (Content(1, 0, b"abc"), Content(1, 1, b"abcd"), Content(77, 0, b"", [Fixup(0, 0, TO_SEGMENT, 1)])):
            own = [Segment(1, *each, b"S%d" % i) for i, each in enumerate(sizes)]
            caller = Content(2, 0, b"\x12\0\0", [Fixup(1, WORD, TO_SEGMENT, 1, 7)])
            definitions = own + [Segment(2, 3), Public(1, 9, b"P"), Public(1, 0, b"Q"), Public(2, 1, b"R")]
            found.append(library("duplicates", [Module(definitions, [content, caller])]))
    for first, second in product((CODE, 0x40, 1, 5), repeat=2):
        externals = [External(3, b"E", first), External(3, b"F", second), External(3, b"G")]
        found.append(library("duplicates", [Module(externals, [Content(0, 0, b"\2\0\0", [Fixup(1, WORD, TO_NAME, 3)])])], (0,)))
    return found


def absolutes(rng):
    """Symbols inside absolute contents, at their edges, before and behind them; contents that share symbols; empty ones."""
    found = []
    for offset, size in product((0, 1, 7, 0x100, 0xFFF0, PAST), (0, 1, 2, 3, 20)):
        edges = sorted({n for n in (0, offset - 1, offset, offset + 1, offset + size - 1, offset + size, PAST) if 0 <= n <= PAST})
        publics = [Public(0, n, b"P%d" % n, i) for i, n in enumerate(edges)] + [Public(1, offset, b"OF1")]
        contents = [Content(0, offset, bytes(range(1, size + 1)), [Fixup(1, WORD, TO_NAME, 1, 3)])]
        found.append(library("absolutes", [Module(publics + [External(1, b"E")], contents)], (0,)))
    for offsets in product((0, 2, 3, 5, 6), repeat=2):
        publics = [Public(0, n, b"P%d" % n) for n in (5, 2, 3, 0, 5, 9)]
        contents = [Content(0, at, b"abc") for at in offsets]
        kept = [Segment(1, 2), Public(1, 1, b"K")] if offsets[0] else []
        found.append(library("absolutes", [Module(kept + publics, contents)] * rng.choice((1, 2)), (0,)))
    # a segment of id 0 is not kept, and its size does not count
    found.append(library("absolutes", [Module([Segment(0, 1), Public(0, 1, b"Z")], [Content(0, 0, b"abcd")])], (0,)))
    return found


def overlaps(rng):
    """Bytes and masks of contents that lie over one another are ORed, whatever their order."""
    found = []
    fixups = ([], [Fixup(0, 0, 0, 0)], [Fixup(0, INBLOCK, 0, 0)], [Fixup(0, WORD, TO_NAME, 1)], [Fixup(1, INBLOCK, TO_NAME, 1)])
    for (a, b), at in product(product(fixups, repeat=2), (0, 1, 2)):
        contents = [Content(1, 0, b"\xf0\x0f\x11", list(a)), Content(1, at, b"\x0f\xf0\x22", list(b))]
        found.append(library("overlaps", [Module([Segment(1, 6), External(1, b"E")], contents)], (0,)))
    return found


def ends(rng):
    """Contents that end one byte before the segment's end, at it, and one past it; empty ones; sizes 0 and 65,536."""
    found = []
    for size, info, stored in ((3, CODE, 3), (0, 0x80, 3), (0, 0x80, 0), (PAST, CODE, PAST), (65536, CODE, 0)):
        for end, length in product((size - 1, size, size + 1), (0, 1, 2)):
            if 0 <= end - length <= PAST:
                contents = [Content(1, end - length, b"ab"[:length], [Fixup(0, WORD, TO_SEGMENT, 1)])]
                modules = [Module([Segment(1, stored, info), Public(1, size & PAST, b"P")], contents)]
                found.append(library("ends", modules, (12,) if end > size else (0,)))
    return found


def fixups(rng):
    """A fixup of every kind and block, at the first byte, the last, and behind it, in a kept, an absolute and a dropped content;
    what it names is code, is not, is not kept, or is not there."""
    found = []
    for kind, block, id_ in product((*range(10), 255), (0, 1, 2, 3, 4, 255), (1, 2, 9)):
        own = rng.choice((1, 0, 77))
        definitions = [Segment(1, 5), Segment(2, 5, 1), External(1, b"E"), External(2, b"F", 2), Public(0, 1, b"P")]
        contents = [Content(own, 1, b"abc", [Fixup(at, kind, block, id_, at + 1) for at in (0, 2, 3)])]
        number = 0 if block == 3 else 10 if kind > 7 else 11 if block > 3 else 0
        found.append(library("fixups", [Module(definitions, contents)], (number,)))
    for kind, own in product(range(8), (1, 0, 77)):
        definitions = [Segment(1, 5), Segment(3, 5, CODE, 0)]
        contents = [Content(own, 0, b"abc", [Fixup(1, kind, TO_SEGMENT, 3)])]
        found.append(library("fixups", [Module(definitions, contents)], (13,)))
    return found


def mask_order(rng):
    """Two fixups at neighbouring places: the later one decides what is left of a mask."""
    found = []
    for first, second in product((0, RELATIVE, WORD, INBLOCK), repeat=2):
        contents = [Content(1, 6 * i, b"\1\2\3\4\5", [Fixup(1, first, block, 1), Fixup(at, second, 0, 0)])
                    for i, (at, block) in enumerate(product((0, 1, 2), (0, 2, 3)))]
        found.append(library("mask order", [Module([Segment(1, 60), External(1, b"E")], contents)], (0,)))
    return found


def faulty(number, own):
    """Contents of which one is due for a number, others of the same id around it."""
    bad = {10: Fixup(0, 8, 2, 1), 11: Fixup(0, 4, 4, 1), 13: Fixup(0, 1, TO_SEGMENT, 3)}.get(number)
    good = Fixup(1, WORD, TO_NAME, 1)
    return Content(1, 5, b"") if number == 12 else Content(own, 0, b"ab", [good, bad, good])


def refusals(rng):
    """Each of 10 to 13 in the first content, in the last, and before and after each other one: in one content, in two, in two modules."""
    found = []
    definitions = [Segment(1, 4), Segment(3, 5, CODE, 0), External(1, b"E"), Public(1, 0, b"P")]
    fine = Content(1, 0, b"abc", [Fixup(0, RELATIVE, TO_SEGMENT, 1)])
    for number, own, place in product(REFUSALS[1:], (1, 0, 77), (0, 1, 2)):
        contents = [fine, fine]
        contents.insert(place, faulty(number, own))
        found.append(library("refusals", [Module(definitions, contents)], (number,)))
    for a, b in product(REFUSALS[1:], repeat=2):
        first, second = faulty(a, rng.choice((0, 1, 77))), faulty(b, rng.choice((0, 1, 77)))
        both = Content(1, max(first.offset, second.offset), b"ab", first.fixups + second.fixups)
        number = next((n for n in (a, b) if n != 12), 12)
        found.append(library("refusals", [Module(definitions, [fine, both])], (number,)))
        found.append(library("refusals", [Module(definitions, [fine, first, fine, second])], (a,)))
        found.append(library("refusals", [Module(definitions, [fine, first]), Module(definitions, [second, fine])], (a,)))
    return found


def id_widths(rng):
    """256 is not 0 and 257 is not 1, as a segment's id, a content's, a symbol's, a fixup's and an external's."""
    found = []
    for ids in product((0, 1, 0x100, 0x101), repeat=3):
        definitions = [Segment(1, 3), Segment(0x101, 4), Segment(0x100, 5), Segment(ids[0], 6, 1), Public(ids[0], 1, b"P"),
                       Public(ids[1], 2, b"Q"), External(ids[2], b"E"), External(1, b"F"), External(0x100, b"G")]
        contents = [Content(ids[0], 0, b"abc", [Fixup(0, WORD, TO_SEGMENT, ids[1]), Fixup(1, WORD, TO_NAME, ids[1])]),
                    Content(ids[1], 1, b"de", [Fixup(0, RELATIVE, TO_NAME, ids[2])])]
        found.append(wide(rng, "id widths", [Module(definitions, contents)]))
    return found


def several(rng):
    """Modules of the same ids, whose segments are numbered through the file; empty modules and segments between; both forms of file."""
    def one(i):
        definitions = [Segment(1, i), Segment(2, 2, 0x80), Segment(3, 2), Public(3, i, b"P%d" % i), External(1, b"E%d" % i)]
        calls = [Fixup(0, WORD, TO_SEGMENT, 3, i), Fixup(0, WORD, TO_NAME, 1), Fixup(1, INBLOCK, TO_SEGMENT, 2)]
        return Module(definitions, [Content(3, 0, b"xy", calls), Content(0, i, b"z", calls[:i % 3])], b"M%d" % i)

    found = []
    for count, form in product((1, 2, 3, 5, 9), (list, as_library)):
        modules = [one(i) for i in range(1, count + 1)]
        modules.insert(rng.randrange(count + 1), Module([], []))
        modules.insert(rng.randrange(count + 1), Module([Segment(4, 1)], []))
        records = form([r for m in modules for r in plain(m)])
        found.append(Library("several", b"".join(records), (0,)))
    return found


def long_ones(rng):
    """More of each sort than fit in a byte, in one module: definitions, contents of one id, absolute contents, fixups. Patterns that
    stand behind 65,536 bytes of others, and more of those than a program lends."""
    ids = range(1, 301)
    definitions = [Segment(i, 4) for i in ids] + [Public(i, i % 5, b"P%d" % i) for i in ids] + [External(i, b"E%d" % i) for i in ids]
    calls = [Content(i, 0, b"abcd", [Fixup(i % 3, WORD, 1 + i % 2, 301 - i)]) for i in ids if i % 2]
    fine = [wide(rng, "long", [Module(definitions, calls)], (0,))]
    many = [Content(1, i % 290, bytes((i % 255 + 1,)), [Fixup(0, INBLOCK, 0, 0)] if i % 7 == 0 else []) for i in range(600)]
    fine.append(library("long", [Module([Segment(1, 290)], many)], (0,)))
    fixups_ = [Fixup(i, (RELATIVE, WORD, INBLOCK)[i % 3], 1 + i % 2, 1, i) for i in range(1200)]
    fine.append(library("long", [Module([Segment(1, 700), External(1, b"E")], [Content(1, 0, rng.randbytes(700), fixups_)])], (0,)))
    absolute = [Content(0, 3 * i, b"ab") for i in range(400)]
    publics = [Public(0, rng.randrange(1200), b"A%d" % i) for i in range(300)]
    fine.append(library("long", [Module(publics, absolute)], (0,)))
    fine.append(library("long", [Module([Segment(1, 0), Segment(2, 3)], [Content(2, 0, b"abc"), Content(0, 9, b"de")])], (0,)))
    return fine + [library("long", [Module([Segment(i, 0) for i in range(1, 6)], [Content(5, 0, b"a")])], (0,))]


SWEEPS = (duplicates, absolutes, overlaps, ends, fixups, mask_order, refusals, id_widths, several, long_ones)
