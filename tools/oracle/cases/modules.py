"""Random modules, and images that hold their patterns with the references filled in."""
from cases.records import (CODE, INBLOCK, RELATIVE, TO_NAME, TO_SEGMENT, WORD,
                     Content, External, Fixup, Module, Public, Segment)

NAMES = (b"A", b"B", b"AB", b"?C?LADD", b"?C?CLDPTR", b"?C?ULDIV", b"?C?L0LDPTR0", b"?C?CLDIXDATA", b"")
# Ids are drawn from few numbers, so that duplicates and references to missing ids occur.
IDS = (1, 1, 1, 2, 2, 3, 0x102)
LONGEST_IMAGE = 40


def some_segment(rng, fresh):
    """Mostly a kept one; at times of another type, absolute, with an unknown relocation, or empty."""
    id_ = fresh if rng.random() < 0.85 else rng.choice(IDS)
    info = rng.choices((CODE, 0x40, 1, 5, 0x80), (80, 8, 6, 3, 3))[0]
    relocation = rng.choices((1, 2, 5, 9, 0), (70, 10, 8, 8, 4))[0]
    return Segment(id_, rng.choice((1, 2, 3, 3, 4, 5, 6)), info, relocation, rng.choice((b"", b"S")))


def some_fixup(rng, size, segments, externals):
    """A reference to a known name or segment, or one of any kind and block that leaves none."""
    location = rng.randrange(size + 1)
    kind = rng.choice((WORD, WORD, RELATIVE, RELATIVE, INBLOCK, rng.randrange(8)))
    offset = rng.choices((0, 1, 3, 0xFFFF), (80, 10, 8, 2))[0]
    kept = [s.id for s in segments if s.relocation]
    if externals and rng.random() < 0.65:
        return Fixup(location, kind, TO_NAME, rng.choice(externals).id, offset)
    if kept and rng.random() < 0.7:
        return Fixup(location, kind, TO_SEGMENT, rng.choice(kept), offset)
    return Fixup(location, kind, rng.choice((0, 2, 3)), rng.choice(IDS), offset)


def some_contents(rng, segments, externals):
    """Data for most segments, at times in two parts that overlap, at times absolute or for no segment."""
    contents = []
    for s in segments:
        for _ in range(rng.choices((0, 1, 2), (10, 75, 15))[0]):
            size = 0 if s.info & 0x80 else s.size
            offset = 0 if rng.random() < 0.7 else rng.randrange(size + 1)
            data = rng.randbytes(size - offset if rng.random() < 0.8 else rng.randrange(size - offset + 1))
            contents.append(Content(s.id, offset, data))
    if rng.random() < 0.25:
        contents.append(Content(0, rng.randrange(8), rng.randbytes(rng.randrange(1, 5))))
    if rng.random() < 0.05:
        contents.append(Content(77, rng.randrange(8), rng.randbytes(2)))
    for c in contents:
        count = rng.choices((0, 1, 2, 3), (35, 40, 20, 5))[0]
        c.fixups = [some_fixup(rng, len(c.data), segments, externals) for _ in range(count)]
    return contents


def some_publics(rng, segments, contents, names):
    publics = []
    for s in segments:
        for _ in range(rng.choices((0, 1, 2), (8, 62, 30))[0]):
            offset = rng.choice((0, 0, 0, s.size - 1, rng.randrange(s.size)))
            publics.append(Public(s.id, offset, rng.choice(names)))
    for c in contents:
        if c.id == 0:
            publics.append(Public(0, c.offset + rng.randrange(len(c.data)), rng.choice(names), rng.randrange(2)))
    return publics


def some_module(rng, names, most=3):
    segments = [some_segment(rng, i + 1) for i in range(rng.randrange(1, most + 1))]
    externals = [External(i + 1, rng.choice(names), rng.choices((CODE, 1), (9, 1))[0])
                 for i in range(rng.randrange(3))]
    contents = some_contents(rng, segments, externals)
    publics = some_publics(rng, segments, contents, names)
    definitions = segments + publics + externals
    if rng.random() < 0.3:
        rng.shuffle(definitions)
    return Module(definitions, contents, rng.choice((b"M", b"", b"NM")))


def kept(module):
    """The first kept segment of each id: those that contents and references go to."""
    found = {}
    for s in module.of(Segment):
        if s.id and s.info & 7 == CODE and s.relocation:
            found.setdefault(s.id, s)
    return found


def cleared(data, fixups):
    """The masks of a content, near enough to plant it: 0 where a fixup changes a byte."""
    masks = bytearray(b"\xff" * len(data))
    for f in fixups:
        for i in range(f.location, f.location + (2 if f.kind in (WORD, INBLOCK) else 1)):
            if f.block != 3 and i < len(masks):
                masks[i] = 0x1F if f.kind == INBLOCK and i == f.location else 0
    return masks


class Canvas:
    """An image being made: its bytes, and which of their bits a pattern has already fixed."""

    def __init__(self, cells):
        self.cells = bytearray(cells)
        self.fixed = bytearray(len(self.cells))

    def lay(self, at, data, masks):
        """Fixes the bits of the masks, but for those that are fixed already."""
        for i, (byte, mask) in enumerate(zip(data, masks)):
            if at + i < len(self.cells):
                free = mask & ~self.fixed[at + i]
                self.cells[at + i] = self.cells[at + i] & ~free & 0xFF | byte & free
                self.fixed[at + i] |= mask

    def refer(self, rng, pos, fixup, target):
        """Fills in the bytes of a reference at `pos`, where they are free, so that it leads to the target."""
        value = target + fixup.offset
        cells = {WORD: [value >> 8, value], RELATIVE: [value - pos - 1], INBLOCK: [rng.randrange(256), value]}
        found = bytes(cell & 0xFF for cell in cells.get(fixup.kind, []))
        if pos + len(found) <= len(self.cells):
            self.lay(pos, found, b"\xff" * len(found))


def pattern(contents, size):
    """The bytes and masks of a kept segment: its contents ORed."""
    data, masks = bytearray(size), bytearray(size)
    for c in contents:
        for i, (byte, mask) in enumerate(zip(c.data, cleared(c.data, c.fixups))):
            if c.offset + i < size:
                data[c.offset + i] |= byte
                masks[c.offset + i] |= mask
    return data, masks


def places(rng, modules):
    """A position for the kept segments of each module, one after another with gaps."""
    at, found = rng.randrange(4), []
    for m in modules:
        for s in kept(m).values():
            size = 0 if s.info & 0x80 else s.size
            if at + size <= LONGEST_IMAGE and rng.random() < 0.9:
                found.append((m, s, at))
                at += size + rng.choice((0, 0, 1, 3))
    return found, min(LONGEST_IMAGE, at + rng.randrange(4))


def target_of(rng, fixup, module, placed, size):
    """Where a reference leads: mostly to what it names, else in the image, at its end, or past it."""
    aims = []
    if fixup.block == TO_SEGMENT:
        aims = [at for m, s, at in placed if m is module and s.id == fixup.id]
    elif fixup.block == TO_NAME:
        named = [e.name for e in module.of(External) if e.id == fixup.id]
        aims = [at + p.offset for m, s, at in placed for p in m.of(Public) if p.id == s.id and p.name in named]
    if aims and rng.random() < 0.85:
        return rng.choice(aims)
    return rng.choice((rng.randrange(size + 1), size, size + 1, 0xFFFF, -1))


def image_for(rng, modules):
    """An image in which the modules' patterns stand, partly relocated, at times with a wrong byte."""
    placed, size = places(rng, modules)
    canvas = Canvas(rng.choice((0, rng.randrange(256))) for _ in range(size))
    spots = [(m, c, c.offset) for m in modules for c in m.contents if c.id == 0]
    for m, c, at in spots:
        canvas.lay(at, c.data, cleared(c.data, c.fixups))
    for m, s, at in placed:
        own = [c for c in m.contents if c.id == s.id]
        canvas.lay(at, *pattern(own, s.size))
        spots += [(m, c, at + c.offset) for c in own]
    for m, c, at in spots:
        for f in c.fixups:
            canvas.refer(rng, at + f.location, f, target_of(rng, f, m, placed, size))
    image = canvas.cells
    if image and rng.random() < 0.15:
        image[rng.randrange(len(image))] = rng.randrange(256)
    if placed and rng.random() < 0.25:
        again = rng.choice(placed)[2]
        image += image[again:again + min(8, LONGEST_IMAGE - len(image))]
    return bytes(image)
