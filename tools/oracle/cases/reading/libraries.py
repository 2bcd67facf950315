"""Libraries that are made for the reading: whole ones with any values in their fields, and damaged ones, of many of which
the number is known before it is asked for."""
from dataclasses import dataclass, replace

from cases import damage
from cases.records import (IDLE_TYPES, UNKNOWN_TYPES, Content, External, Fixup, Module, Public, Segment,
                     content, end, entries, entry, header, ids_fit, record, runs, skipped, word)

CLOSING = (0x28, 0x26, 0x2A)
# The numbers that may come where a library is read, and of one of which nothing is known.
READ = (0, 10, 11, 12, 13)
ANY = READ + (5, 6, 7, 8)
IDS = (0, 1, 1, 2, 3, 0x7F, 0xFF, 0x100, 0x102, 0xFFFF)
WORDS = (0, 0, 1, 2, 0xFF, 0x100, 0x8000, 0xFFFF)


@dataclass
class Library:
    kind: str
    data: bytes
    # The numbers that may come, as far as the making tells.
    numbers: tuple = ANY


def any_word(rng):
    return rng.choice(WORDS + (rng.randrange(0x10000),) * 4)


def any_name(rng):
    """Mostly short, often empty, now and then long; any bytes, since a name is not looked at."""
    size = rng.choices((0, rng.randrange(1, 5), rng.randrange(5, 20), rng.randrange(40, 90)), (25, 55, 18, 2))[0]
    return rng.randbytes(size) if rng.random() < 0.3 else bytes(rng.choice(b"?CLAD_") for _ in range(size))


def any_definition(rng):
    id_, name, info = rng.choice(IDS), any_name(rng), rng.choice((0, 1, 2, 3, 4, 5, 0x80, rng.randrange(256)))
    return rng.choice((
        Segment(id_, any_word(rng), info, rng.choice((0, 1, 2, 3, 4, 5, 6, rng.randrange(256))), name),
        Public(id_, any_word(rng), name, info),
        External(id_, name, info, rng.choice((2, rng.randrange(256)))),
    ))


def any_fixup(rng):
    kind = rng.choice((rng.randrange(8), rng.randrange(8), rng.randrange(256)))
    return Fixup(any_word(rng), kind, rng.choice((0, 1, 2, 3, 3, rng.randrange(256))), rng.choice(IDS), any_word(rng))


def any_content(rng):
    fixups = [any_fixup(rng) for _ in range(rng.choices((0, 1, 2, 5), (40, 30, 20, 10))[0])]
    return Content(rng.choice(IDS), any_word(rng), rng.randbytes(rng.choice((0, 1, 2, 5, 12))), fixups)


def any_module(rng, contents=None):
    """Of a given count of contents, or of some."""
    definitions = rng.choice((0, 1, 2, 3, 4, 6))
    contents = rng.choice((0, 1, 1, 2, 3)) if contents is None else contents
    made = [any_definition(rng) for _ in range(definitions)]
    if rng.random() < 0.5:
        made.sort(key=lambda d: type(d).__name__)
    return Module(made, [any_content(rng) for _ in range(contents)], any_name(rng))


def grouped(rng, items, idle):
    """Records of one sort with one or more entries each, ids of one byte or two, at times a partial entry last."""
    out = []
    while items:
        some, items = items[:(n := rng.randrange(1, len(items) + 1))], items[n:]
        wide = not ids_fit(some) or rng.random() < 0.3
        partial = entry(some[0], wide, idle)[:-1] if rng.random() < 0.15 else b""
        out.append(entries(some, wide, partial[:rng.randrange(len(partial) + 1)], idle))
    return out


def spelled(rng, module):
    """The records of a module in one of the ways that are read alike."""
    last = module.name if module.last_name is None else module.last_name
    idle, more = rng.choice((b"\0", rng.randbytes(1))), rng.choice((0, 0, 1, 4))
    out = [header(module.name, rng.randbytes(more), idle)]
    for run in runs(module.definitions):
        out += grouped(rng, run, idle)
        if rng.random() < 0.1:
            out.append(skipped(rng, UNKNOWN_TYPES))
    for c in module.contents:
        out.append(content(c, c.id > 255 or rng.random() < 0.3))
        out += grouped(rng, c.fixups, idle)
        if rng.random() < 0.15:
            out.append(skipped(rng, UNKNOWN_TYPES + IDLE_TYPES))
    out.append(end(last, rng.randbytes(more), idle))
    if rng.random() < 0.2:
        out = [r[:-1] + rng.randbytes(1) for r in out]
    return out


def closed(rng, parts):
    """Between the records of a 2Ch library."""
    opening = record(0x2C, rng.randbytes(rng.randrange(6)))
    return [opening] + parts + [record(t, rng.randbytes(rng.choice((0, 1, 3, 9)))) for t in CLOSING]


def basis(rng):
    """Some modules, and the records of a library of them, bare or 2Ch."""
    modules = [any_module(rng) for _ in range(rng.choices((1, 2, 3), (50, 35, 15))[0])]
    return modules, formed(rng, modules)


def formed(rng, modules):
    parts = [r for m in modules for r in spelled(rng, m)]
    return closed(rng, parts) if rng.random() < 0.4 else parts


def whole(rng):
    """Read to its end, whatever follows that does not begin another module."""
    modules, parts = basis(rng)
    after = rng.choice((b"", b"", b"\4" + rng.randbytes(3), b"\0", bytes((rng.randrange(3, 256),)) + rng.randbytes(5)))
    return Library("whole", b"".join(parts) + after, READ)


def damaged(rng):
    return Library("damaged", damage.damaged(rng, basis(rng)[1]))


def with_length(part, length):
    return part[:1] + word(length) + part[3:]


def zero_length(rng):
    """7, since every record of a whole library is expected where it stands."""
    parts = damage.with_record(rng, basis(rng)[1], lambda r: [with_length(r, 0)])
    return Library("length 0", b"".join(parts), (7,))


def lengths(rng):
    """A record's length that ends its body at the file's end, at the checksum's place before it, or past it; or any."""
    parts = basis(rng)[1]
    i = rng.randrange(len(parts))
    rest = len(b"".join(parts[i:])) - 3
    own = len(parts[i]) - 3
    length, numbers = rng.choice((
        (rest + 2, (6,)), (rng.randrange(rest + 2, 0x10000), (6,)), (rest + 1, READ + (5,)), (rest, READ + (5,)),
        (1, ANY), (2, ANY), (own - 1, ANY), (own + 1, ANY), (rng.randrange(1, rest + 1), ANY)))
    parts[i] = with_length(parts[i], length)
    return Library("lengths", b"".join(parts), numbers if length else (7,))


def other_name(rng, name):
    """Of the same length with another byte, or of another length."""
    at = rng.randrange(len(name)) if name else 0
    same = name[:at] + bytes((name[at] ^ 1 << rng.randrange(8),)) + name[at + 1:] if name else b"M"
    return rng.choice((same, same, name + b"M", name[:-1] or b"MM", b"" if name else b"MMM"))


def names_differ(rng):
    """8 in any module; what comes before it is whole, what comes after it may be anything."""
    modules = [any_module(rng) for _ in range(rng.choice((1, 1, 2, 3)))]
    i = rng.randrange(len(modules))
    modules[i] = replace(modules[i], last_name=other_name(rng, modules[i].name))
    parts = formed(rng, modules[:i + 1]) + [r for m in modules[i + 1:] for r in spelled(rng, m)]
    return Library("names differ", b"".join(parts), (8,))


def seven_and_eight(rng):
    """Names that differ and a length of 0: in one module it is 7, in two modules the first of them decides. Or a name that
    differs in an end record that passes the file's end or lacks its checksum byte."""
    module = any_module(rng)
    differing = spelled(rng, replace(module, last_name=other_name(rng, module.name)))
    zero = damage.with_record(rng, spelled(rng, any_module(rng)), lambda r: [with_length(r, 0)])
    one = damage.with_record(rng, differing, lambda r: [with_length(r, 0)])
    before = spelled(rng, any_module(rng)) if rng.random() < 0.3 else []
    parts, numbers = rng.choice((
        (differing + zero, (8,)), (zero + differing, (7,)), (one, (7,)), (one + zero, (7,)),
        (differing[:-1] + [differing[-1][:-1]], READ if before else (5,)),
        (differing[:-1] + [differing[-1][:-2]], (6,))))
    return Library("7 and 8", b"".join(before + parts), numbers)


def second_damaged(rng):
    """Bare modules of which a later one is damaged: it ends the list, but for 6 to 8."""
    first, second = any_module(rng, contents=1), any_module(rng)
    spoilt = damage.damaged(rng, spelled(rng, second))
    return Library("second damaged", b"".join(spelled(rng, first)) + spoilt, READ + (6, 7, 8))


def soup(rng):
    """Records in no order, or bytes that look like types and short lengths."""
    if rng.random() < 0.5:
        return Library("soup", damage.soup(rng))
    likely = (0, 0, 0, 1, 2, 3, 5, 8) + damage.ALL_TYPES
    start = rng.choice((b"\2\4\0\0\0\0\0", header(b"M"), b"\x2c\1\0\0" + header(b""), b"\x2c", b"\2"))
    return Library("soup", start + bytes(rng.choice(likely) for _ in range(rng.randrange(30))))
