"""Libraries for both editions, gone through one by one: a wrong sum in every record, bodies of every length, files cut at every byte and with bytes behind
them, and two faults in one record, one module and one file."""
from itertools import product

from cases.editions.libraries import ADDED, NOTHING, STOP, Library, changed, come, joined, off, rich, short, stood
from cases.reading.libraries import READ, with_length
from cases.records import (EMPTY, RELATIVE, TYPES, UNKNOWN_TYPES, WORD, Content, External, Fixup, Public, Segment, as_library, content, end, entries,
                           entry, header, record, text)

DATA = content(Content(1, 0, b"ab"))
# Two entries of each sort. A fixup of block 3 has a byte more, which nobody looks at.
PAIRS = ((Segment(1, 3, name=b"S1"), Segment(2, 0, EMPTY, 9, b"S")), (Public(1, 2, b"P1"), Public(2, 0x201, b"R")), (External(1, b"E1"), External(2, b"E", 6)),
         (Fixup(0, WORD, 0, 1, 5), Fixup(1, 9, 3, 1, 0x201)), (Fixup(0, 9, 3, 1), Fixup(1, RELATIVE, 0, 1)))
# Every type whose body holds entries, with a body that its reader rejects.
WITH_ENTRIES = (0x02, 0x04, 0x0E, 0x0F, 0x16, 0x17, 0x18, 0x19, 0x06, 0x07, 0x08, 0x09)


def sums():
    """Each record of two bare modules and of a 2Ch library in turn: a wrong checksum byte, another byte in its body or another type, and two bytes changed
    against one another, which edition 2 can't tell; and all sums wrong."""
    found = []
    for parts in (rich(b"M") + short(b"N"), as_library(rich(b"M"))):
        for i, part in enumerate(parts):
            wrong = [off(part), off(part, 255)]
            wrong += [bytes((part[0] + 1,)) + part[1:]] if part[0] in UNKNOWN_TYPES[:-1] else []
            wrong += [changed(part)] if len(part) > 4 else []
            right = [off(changed(part), -1)] if len(part) > 4 else []
            for some, numbers in ((wrong, (14,)), (right, READ)):
                found += [Library("sums", joined(parts[:i], [one], parts[i + 1:]), READ, numbers) for one in some]
        found.append(Library("sums", joined(map(off, parts)), READ, (14,)))
    return found


def long_sums():
    """Records whose bytes sum to more than a byte or two hold."""
    found = []
    for size in (1, 2, 250, 257, 300, 2000):
        for one in (record(0x14, b"\xff" * size), content(Content(77, 0, b"\xff" * size))):
            found += [Library("sums", joined(short(b"M", part)), READ, numbers) for part, numbers in ((one, READ), (off(one), (14,)))]
    return found


def cut_bodies():
    """Two entries of each sort in one record, cut at every byte behind the first, and within the first."""
    found = []
    for wide, (one, two) in product((False, True), PAIRS):
        before = [DATA] if isinstance(one, Fixup) else []
        first, body = len(entry(one, wide)), entry(one, wide) + entry(two, wide)
        for n in (0, 1, *range(first - 1, len(body) + 1)):
            parts = short(b"M", *before, record(TYPES[type(one)] + wide, body[:n]))
            faults = (STOP, STOP) if n < first else (NOTHING, NOTHING if n in (first, len(body)) else 15)
            places = stood("entries", parts, *faults)
            found += places if not wide and n in (first - 1, first, first + 1, len(body) - 1) else places[:1]
    return found


def names():
    """A header's and an end's body, from too short for its name and what is due behind it to some bytes longer."""
    found = []
    for n in range(2, 9):
        first = record(0x02, (text(b"MN") + b"\1\2\3\4\5")[:n])
        last = record(0x04, (text(b"MN") + b"\1\2\3\4\5\6\7")[:n + 2])
        faults = (STOP, STOP) if n < 5 else (NOTHING, NOTHING if n == 5 else 15)
        found += stood("names", [first] + short(b"MN")[1:], *faults) + stood("names", short(b"MN")[:-1] + [last], *faults)
    return found


def met_at(parts, n):
    """What is met where records are cut at a byte: 6 within a body, a stop elsewhere."""
    for part in parts:
        if n < len(part):
            return 6 if 3 <= n < len(part) - 1 else STOP
        n -= len(part)
    return NOTHING


def cuts():
    """A second bare module, and a 2Ch library, cut at every byte."""
    second, closed = short(b"N"), as_library(short(b"M"))
    found = []
    for place, before, parts in (("second", joined(rich(b"M")), second), ("closed", b"", closed)):
        for n in range(len(joined(parts)) + 1):
            met = NOTHING if n == 0 and before else met_at(parts, n)
            found.append(Library("file's end", before + joined(parts)[:n], come(1, place, met), come(2, place, met)))
    return found


def behind():
    """Bytes behind the last bare module, some of which look like records, and behind the record 2Ah, where no record is expected."""
    junk = [b"\0", b"\x1a", b"\x1a" * 9, b"\xff" * 3, b"\2", b"\2\5", b"\2\1\0", b"\4\1\0\xfb", bytes(200), b"\x2c", header(b"N"), record(0x28, b"\1"),
            record(0x14, b""), off(record(0x14, b"")), joined(short(b"N")[:-1]), joined(short(b"N")[1:]), joined(short(b"N", record(0x11, b""))),
            joined(as_library(short(b"N")))]
    expected = [(b"\2\0\0", 7), (b"\2\5\0", 6), (b"\2\5\0\1M", 6), (header(b"N") + b"\4\0\0", 7), (header(b"N") + b"\x0e\x40\0", 6), (off(header(b"N")), 14),
                (header(b"N", b"\0"), 15), (joined(short(b"N")), NOTHING)]
    bare, closed = joined(short(b"M")), joined(as_library(short(b"M")))
    found = [Library("file's end", whole + tail, READ, (15,)) for whole in (bare, closed) for tail in junk]
    found += [Library("file's end", closed + tail, READ, (15,)) for tail, _ in expected]
    for tail, met in expected:
        found.append(Library("file's end", bare + tail, READ if met in ADDED else come(1, "second", met), come(2, "second", met)))
    return found


def end_records():
    """An end record with a wrong sum, a byte left over and another name, in every combination: 14, 15, 8."""
    found = []
    for wrong, over, other in product((False, True), repeat=3):
        last = end(b"N" if other else b"M", b"\0" * over)
        one = 8 if other else NOTHING
        found += stood("one record", short(b"M")[:-1] + [off(last) if wrong else last], one, 14 if wrong else 15 if over else one)
    return found


def in_module(type_, body):
    """A module in which a record of that type has that body."""
    one, parts = record(type_, body), short(b"M")
    if type_ in (0x02, 0x04):
        return ([one] + parts[1:], 0) if type_ == 0x02 else (parts[:-1] + [one], len(parts) - 1)
    before = [DATA] if type_ in (0x08, 0x09) else []
    return short(b"M", *before, one), 3 + len(before)


def other_records():
    """Records of every type with a byte left over and a wrong sum; with a body that their reader rejects, and a right or a wrong sum; and some that may
    not stand there, have a length of 0, pass the end or lack their checksum byte: their sum is not asked."""
    found = []
    for one, _ in PAIRS[:4]:
        for wide in (False, True):
            before = [DATA] if isinstance(one, Fixup) else []
            found += stood("one record", short(b"M", *before, off(entries([one], wide, b"\0"))), NOTHING, 14)
    found += stood("one record", [off(header(b"M", b"\0"))] + short(b"M")[1:], NOTHING, 14)
    for type_, body in product(WITH_ENTRIES, (b"\x09M", b"")):
        parts, at = in_module(type_, body)
        every = 3 if body and type_ in (0x02, 0x04, 0x08) else 1
        found += stood("one record", parts, STOP, STOP)[:every]
        parts[at] = off(parts[at])
        found += stood("one record", parts, STOP, 14)[:every]
    for type_ in (0x11, 0x26, 0x2C):
        found += stood("one record", short(b"M", off(record(type_, b"\1"))), STOP, STOP)
    for length, number in ((0, 7), (0xFFF0, 6)):
        found += stood("one record", short(b"M", with_length(off(record(0x14, b"\1")), length)), number, number)
    return found + [Library("one record", joined(short(b"M")[:-1], [end(name)[:-1]]), (5,), (5,)) for name in (b"M", b"N")]


def faulty(name, fault):
    """A module with one fault, or with none."""
    inside = {STOP: record(0x11, b""), 6: with_length(record(0x14, b"\1"), 0xFFF0), 7: with_length(record(0x14, b"\1"), 0), 14: off(record(0x14, b"")),
              15: entries([Segment(2, 1)], left_over=b"\0")}
    parts = short(name, *([inside[fault]] if fault in inside else []))
    return parts[:-1] + [end(b"OTHER")] if fault == 8 else parts


def by_edition(edition, fault):
    return NOTHING if edition == 1 and fault in ADDED else fault


def first_met(edition, place, one, two):
    """What comes of two modules with a fault each."""
    one, two = by_edition(edition, one), by_edition(edition, two)
    return come(edition, place, two) if one is NOTHING else come(edition, "first", one)


def competing():
    """Every two faults, in two modules either way round, bare and in a 2Ch library; and within one module."""
    found = []
    for one, two in product((NOTHING, STOP, 6, 7, 8, 14, 15), repeat=2):
        parts = faulty(b"M", one) + faulty(b"N", two)
        for place, data in (("second", joined(parts)), ("closed", joined(as_library(parts)))):
            found.append(Library("competing", data, first_met(1, place, one, two), first_met(2, place, one, two)))
    for one, two in product((STOP, 6, 7, 14, 15), (STOP, 6, 7, 8, 14, 15)):
        parts = short(b"M", faulty(b"M", one)[3], *([] if two == 8 else [faulty(b"M", two)[3]]))
        parts = parts[:-1] + [end(b"OTHER")] if two == 8 else parts
        found.append(Library("competing", joined(parts), first_met(1, "first", one, two), first_met(2, "first", one, two)))
    return found


def told():
    """The cases that the request's page tells, with both answers."""
    before, last = joined(short(b"M")[:-1]), end(b"M")
    partial = entry(Public(1, 0, b"PQ"), False)[:-1]
    pairs = ((before + off(end(b"N", b"\0")), 8, 14), (before + end(b"N", b"\0"), 8, 15), (off(record(0x02, b"\x09M")), 5, 14), (record(0x02, b"\x09M"), 5, 5),
             (joined(short(b"M", entries([Public(1, 0, b"P")], left_over=partial))), 0, 15), (joined(short(b"M", record(0x16, partial))), 5, 5),
             (before + last + before + last[:-1], 0, 15), (before + last[:-1], 5, 5), (joined(short(b"M", off(record(0x14, b"\1")))), 0, 14),
             (joined(short(b"M", off(record(0x11, b"\1")))), 5, 5), (joined(as_library(short(b"M"))) + b"\0", 0, 15))
    return [Library("told", data, (one,), (two,)) for data, one, two in pairs]


SWEEPS = (told, sums, long_sums, cut_bodies, names, cuts, behind, end_records, other_records, competing)
