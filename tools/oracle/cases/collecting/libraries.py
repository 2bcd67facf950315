"""Random libraries for the collection: few ids and many definitions of them, so that duplicates, missing ids, dropped contents and
every refusal come up."""
from cases.reading.libraries import Library, formed
from cases.records import (CODE, INBLOCK, RELATIVE, TO_NAME, TO_SEGMENT, WORD, Content, External, Fixup, Module, Public, Segment)

# 256 and 257 end in the bytes of 0 and 1, but are other ids.
IDS = (1, 2, 3, 255, 0x100, 0x101, 0x1FF, 0xFFFF)
INFOS = (CODE, CODE, CODE, CODE, CODE, 0x40, 0x78, 1, 2, 5, 7, 0x80, 0x81)
RELOCATIONS = (1, 1, 1, 1, 2, 5, 6, 255, 0)
KINDS = (WORD, WORD, RELATIVE, RELATIVE, INBLOCK, INBLOCK, 0, 1, 3, 6, 7)
NAMES = ("N%d", "?C?L%d", "%d_\u00e9", "a_longer_name_%d")
REFUSALS = (0, 10, 11, 12, 13)


class Names:
    """A new name for each definition, so that its bytes tell its place; now and then one that is empty, is there already, or is no UTF-8."""

    def __init__(self, rng):
        self.rng, self.given = rng, 0

    def next(self):
        self.given += 1
        fresh = (self.rng.choice(NAMES) % self.given).encode()
        return self.rng.choices((fresh, b"", b"SAME", b"\xff%d" % self.given), (88, 5, 5, 2))[0]


def size_of(s):
    return 0 if s.info & 0x80 else s.size


def kept_among(segments):
    """The first kept segment of each id."""
    found = {}
    for s in segments:
        if s.id and s.info & 7 == CODE and s.relocation:
            found.setdefault(s.id, s)
    return found


def some_segment(rng, ids, names):
    return Segment(rng.choice(ids), rng.randrange(1, 13), rng.choice(INFOS), rng.choice(RELOCATIONS), names.next())


def some_content(rng, ids, kept):
    """One that fits its segment, at times to its very end; absolute and dropped ones stand anywhere."""
    id_ = rng.choice(list(ids) + list(kept) * 2 + [0, 77])
    if id_ not in kept:
        return Content(id_, rng.choice((0, 1, 4, 0x100, 0xFFFE, rng.randrange(0x10000))), rng.randbytes(rng.randrange(9)))
    size = size_of(kept[id_])
    offset = rng.choice((0, 0, rng.randrange(size + 1)))
    return Content(id_, offset, rng.randbytes(rng.choice((size - offset, rng.randrange(size - offset + 1)))))


def some_public(rng, ids, contents, names):
    """Of any id; of id 0 mostly about the edges of an absolute content."""
    absolute = [c for c in contents if c.id == 0]
    if absolute and rng.random() < 0.6:
        c = rng.choice(absolute)
        offset = rng.choice((c.offset - 1, c.offset, c.offset + len(c.data) - 1, c.offset + len(c.data)))
        return Public(0, max(0, min(offset, 0xFFFF)), names.next(), rng.choice((0, 1, 0xFF)))
    return Public(rng.choice(ids), rng.choice((0, 1, 5, 0xFFFF)), names.next(), rng.choice((0, 1)))


def leads_nowhere(f, segments):
    """Due for 13."""
    named = next((s for s in segments if s.id == f.id), None)
    return f.block == TO_SEGMENT and named is not None and named.info & 7 == CODE and f.id not in kept_among(segments)


def some_fixup(rng, size, ids, segments):
    while True:
        block = rng.choice((TO_SEGMENT, TO_SEGMENT, TO_NAME, TO_NAME, TO_NAME, 0, 3))
        kind = rng.choice(KINDS) if block != 3 else rng.randrange(256)
        location = rng.choice((rng.randrange(size + 3), rng.randrange(size + 3), size - 1 if size else 0, 0xFFFF))
        found = Fixup(location, kind, block, rng.choice(ids), rng.choice((0, 0, 1, 0x1234, 0xFFFF)))
        if not leads_nowhere(found, segments):
            return found


def mixed(rng, segments, others):
    """Definitions of all sorts among one another; the segments keep their order, which decides what is refused."""
    places = [True] * len(segments) + [False] * len(others)
    if rng.random() < 0.7:
        rng.shuffle(places)
        rng.shuffle(others)
    of_segments, of_others = iter(segments), iter(others)
    return [next(of_segments if place else of_others) for place in places]


def some_module(rng, names):
    ids = rng.sample(IDS, rng.randrange(1, 5)) + [0]
    segments = [some_segment(rng, ids, names) for _ in range(rng.randrange(6))]
    contents = [some_content(rng, ids, kept_among(segments)) for _ in range(rng.randrange(6))]
    publics = [some_public(rng, ids, contents, names) for _ in range(rng.randrange(6))]
    externals = [External(rng.choice(ids), names.next(), rng.choice((CODE, CODE, CODE, 0x40, 1)), rng.choice((2, 0xFF)))
                 for _ in range(rng.randrange(5))]
    for c in contents:
        c.fixups = [some_fixup(rng, len(c.data), ids, segments) for _ in range(rng.choices((0, 1, 2, 3, 6), (25, 30, 20, 15, 10))[0])]
    return Module(mixed(rng, segments, publics + externals), contents, rng.choice((b"M", b"", b"LONGER")))


def sound(rng):
    """Nothing is due for 10 to 13."""
    names = Names(rng)
    modules = [some_module(rng, names) for _ in range(rng.choices((1, 2, 3), (60, 30, 10))[0])]
    return Library("sound", b"".join(formed(rng, modules)), (0,))


def spoil(rng, module):
    """A fixup due for 10, 11 or 13 among those of some content, or a content whose end passes its segment."""
    kept = kept_among(module.of(Segment))
    lost = [s.id for s in module.of(Segment) if leads_nowhere(Fixup(0, 0, TO_SEGMENT, s.id), module.of(Segment))]
    number = rng.choice((10, 11) + (12,) * bool(kept) + (13,) * bool(lost))
    if number == 12:
        s = rng.choice(list(kept.values()))
        over = rng.choice(((size_of(s), b"\1"), (size_of(s) + 1, b""), (0, bytes(size_of(s) + 1)), (0xFFFF, b"")))
        return module.contents.insert(rng.randrange(len(module.contents) + 1), Content(s.id, *over))
    bad = {10: (rng.choice((8, 9, 255)), rng.choice((0, 1, 2, 4, 255))), 11: (rng.randrange(8), rng.choice((4, 5, 255))),
           13: (rng.randrange(8), TO_SEGMENT)}[number]
    c = rng.choice(module.contents)
    c.fixups.insert(rng.randrange(len(c.fixups) + 1), Fixup(rng.randrange(4), *bad, rng.choice(lost if number == 13 else IDS)))


def spoilt(rng):
    """One to three faults; the first in file order decides."""
    names = Names(rng)
    modules = [some_module(rng, names) for _ in range(rng.choice((1, 1, 2, 3)))]
    for m in rng.choices(modules, k=rng.choice((1, 2, 3))):
        if not m.contents:
            m.contents.append(Content(rng.choice((0, 77)), 0, b"ab"))
        spoil(rng, m)
    return Library("spoilt", b"".join(formed(rng, modules)), REFUSALS[1:])
