"""Libraries for the reading, gone through one by one: cut at every byte, bodies of every length, records of every type at
every place, closing records in every order, and long ones. What is read of them shows in rows and lines: the module around
the record in question has a segment, a symbol and references to names."""
from itertools import permutations

from cases.collecting.libraries import Names, some_module
from cases.damage import ALL_TYPES
from cases.reading.libraries import CLOSING, READ, Library, closed, spelled, with_length
from cases.records import (EMPTY, IDLE_TYPES, RELATIVE, TO_NAME, TO_SEGMENT, TYPES, UNKNOWN_TYPES, WORD, Content, External,
                           Fixup, Module, Public, Segment, content, end, entries, entry, header, number, plain, record, text, word)

KNOWN_TYPES = set(ALL_TYPES) - set(UNKNOWN_TYPES)
EVERY_KIND = {0x02, 0x04, 0x06, 0x07, 0x08, 0x09, 0x0E, 0x0F, 0x16, 0x17, 0x18, 0x19}
FIELDS = (Segment(1, 3, name=b"S1"), Segment(2, 0, EMPTY, 9, b"S"), Public(1, 2, b"P1"), Public(2, 0x201, b""),
          External(1, b"E1"), External(2, b"E", 6), Fixup(1, WORD, TO_NAME, 3, 5), Fixup(0x102, 9, 3, 1, 0x201),
          Fixup(0, RELATIVE, TO_SEGMENT, 1, 7))
SEGMENT, SYMBOLS = entries([Segment(1, 9)]), entries([Public(1, 1, b"Q"), Public(2, 0, b"R")])
DATA, REFERENCES = content(Content(1, 0, b"abc")), entries([Fixup(0, WORD, TO_NAME, 1), Fixup(1, RELATIVE, TO_NAME, 2)])
MODULE = Module([Segment(1, 3), Public(1, 0, b"A"), External(1, b"X")], [Content(1, 0, b"abc", [Fixup(1, RELATIVE, TO_NAME, 1)])])


def of_every_kind(rng, shortest, longest):
    """A module with records of every kind and both widths, some of them skipped."""
    while True:
        parts = spelled(rng, some_module(rng, Names(rng)))
        types = {r[0] for r in parts}
        rich = EVERY_KIND <= types and types & set(UNKNOWN_TYPES) and types & set(IDLE_TYPES)
        if rich and shortest <= len(b"".join(parts)) <= longest:
            return parts


def cut(data, first):
    """A library cut at every byte; `first` is the length from which on its first module counts, None for a 2Ch library,
    which must be whole."""
    found = []
    for n in range(len(data) + 1):
        is_read = n == len(data) or first is not None and n >= first
        numbers = (READ if n in (first, len(data)) else READ + (6,)) if is_read else (5, 6)
        found.append(Library("cut", data[:n], numbers))
    return found


def cuts(rng):
    """Two bare modules, and a 2Ch library."""
    bare = b"".join(of_every_kind(rng, 200, 330))
    both = bare + b"".join(spelled(rng, MODULE))
    return cut(both, len(bare)) + cut(b"".join(closed(rng, of_every_kind(rng, 200, 330))), None)


def shortened(before, type_, body, whole, after):
    """One record with its body cut at every byte; from `whole` on its reader takes it."""
    return [Library("bodies", before + record(type_, body[:n]) + after, READ if n >= whole else (5,))
            for n in range(len(body) + 1)]


def bodies(rng):
    """Bodies of every length for every kind of record: partial first entries, partial later ones, bytes left over."""
    first, last = header(b"M"), end(b"M")
    known, rest = SEGMENT + entries([External(3, b"X")]), SYMBOLS + DATA + REFERENCES
    found = shortened(b"", 0x02, text(b"MN") + b"\1\2\3\4", 5, known + rest + end(b"MN"))
    found += shortened(first + known + rest, 0x04, text(b"M") + b"\1\2\3\4\5\6", 6, b"")
    for wide in (False, True):
        found += shortened(first + known, 0x06 + wide, number(1, wide) + word(2) + b"ab", 3 + wide, rest[len(SYMBOLS):] + last)
        for one in FIELDS:
            body = b"".join(entry(d, wide, b"\7") for d in (one,) + tuple(d for d in FIELDS if type(d) is type(one)))
            before, after = (known + DATA, DATA) if isinstance(one, Fixup) else (known, rest)
            found += shortened(first + before, TYPES[type(one)] + wide, body, len(entry(one, wide)), after + last)
    return found


def places():
    """What stands before and after a record: among definitions, contents and fixups, between bare modules, before the
    closing records, first in the file."""
    first, last, bare = header(b"M"), end(b"M"), b"".join(plain(MODULE))
    named, fixups = SEGMENT + entries([External(1, b"E")]), REFERENCES + last
    return {"definitions": (first + SEGMENT, SYMBOLS + DATA + last), "contents": (first + named + SYMBOLS + DATA, DATA + fixups),
            "fixups": (first + named + SYMBOLS + DATA + REFERENCES, fixups), "modules": (bare, bare),
            "closing": (record(0x2C, b"") + bare, b"".join(record(t, b"") for t in CLOSING)), "first": (b"", bare)}


def types(rng):
    """A record of every type at each place; for the types with a meaning and some others also with a length of 0, with
    one that passes the end, and with its body ending at the file's end."""
    found = []
    for place, (before, after) in places().items():
        few = sorted(KNOWN_TYPES) + rng.sample(sorted(set(range(256)) - KNOWN_TYPES), 3)
        for type_ in range(256) if place in ("definitions", "contents", "first") else few:
            found.append(before + record(type_, rng.randbytes(rng.choice((0, 1, 5)))) + after)
        for type_ in few:
            one = record(type_, b"\0\0")
            rest = len(one + after) - 3
            found += [before + with_length(one, n) + after for n in (0, rest + 2, rest + 1)]
    return [Library("types", data) for data in found]


def closings(rng):
    """The closing records in every order, with some left out, each damaged in turn, and with other records between."""
    module = b"".join(spelled(rng, MODULE))
    opening, three = record(0x2C, b"\1"), [record(t, b"\1") for t in CLOSING]

    def library(parts, *known):
        return Library("closings", opening + module + b"".join(parts), *known)

    found = [library(order, READ if list(order) == three else (5,)) for n in (0, 1, 2, 3) for order in permutations(three, n)]
    for i, one in enumerate(three):
        before, after = three[:i], three[i + 1:]
        rest = len(b"".join(three[i:])) - 3
        known = (with_length(one, 0), 7), (with_length(one, rest + 2), 6), (with_length(one, rest + 1), 5), (record(0x14, b"") + one, 5)
        found += [library(before + [new] + after, (number_,)) for new, number_ in known]
        found += [library(before + [record(one[0], rng.randbytes(size))] + after, READ) for size in (0, 300)]
        found += [library(before + [new] + after) for new in (one + one, one + module, module + one)]
    behind = (b"\0", b"\2", b"\x2c", b"\2\0\0", three[0], module, opening + module)
    found += [library(three + [each], READ) for each in behind]
    no_module = opening + b"".join(three)
    return found + [Library("closings", data, (5,)) for data in (opening, no_module, opening + no_module)]


def named(name):
    """A module whose segment, symbol, external and itself have that name."""
    fixup = Fixup(0, WORD, TO_NAME, 1)
    return Module([Segment(1, 2, name=name), Public(1, 0, name), External(1, name)], [Content(1, 0, b"ab", [fixup])], name)


def long_ones(rng):
    """Names up to 255 bytes, bodies of more than 255, and more modules than fit in a byte."""
    def of(module):
        return Library("long", b"".join(spelled(rng, module)), READ)

    found = [Library("long", b"", (5,))] + [of(named(b"N" * size)) for size in (100, 127, 128, 200, 254, 255)]
    for size in (249, 250, 251, 252, 253, 254, 255, 256, 300, 508, 509, 510, 600, 2000):
        filled = Content(rng.choice((1, 0x101)), 0, rng.randbytes(size), [Fixup(1, RELATIVE, 3, 4, 5)])
        found.append(of(Module([Segment(1, 2000), Segment(0x101, 2000), Public(1, 1, b"P")], [filled])))
        skipped = record(0x14, rng.randbytes(size))
        found.append(Library("long", header(b"") + SEGMENT + skipped + SYMBOLS + DATA + end(b""), READ))
    found.append(of(Module([Segment(1, 2)] + [Public(1, i, b"P%d" % i) for i in range(60)], [Content(1, 0, b"ab")])))
    found.append(of(Module([Segment(1, 200), External(5, b"E")], [Content(1, 0, b"abc", [Fixup(i, i % 8, i % 4, 5) for i in range(120)])])))
    many = [b"".join(plain(Module([Segment(1, 1)], [Content(1, 0, bytes((i % 256,)))], b""))) for i in range(300)]
    return found + [Library("long", b"".join(many), READ), Library("long", b"".join(closed(rng, many[:257])), READ)]


SWEEPS = (cuts, bodies, types, closings, long_ones)
