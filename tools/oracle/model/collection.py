"""Document 01's "Collecting segments", written from its text and apart from the Rust: what the modules of a library come to,
as segments and as rows of numbers."""
from dataclasses import dataclass

RELATIVE, WORD, INBLOCK = 2, 4, 5
FOUND, DOCUMENTED = 0, 1
# Numbers in a row of segments, references, symbols; then a byte and a mask for each byte of a pattern.
WIDTHS = (8, 6, 3, 1, 1)


@dataclass
class Reference:
    place: int
    kind: int
    offset: int
    # A file-wide segment number, or a Part of the library that is a name.
    goal: object


@dataclass
class Segment:
    # The address of an absolute one, else None.
    address: int
    bytes: bytearray
    masks: bytearray
    references: list
    # Parts of the library that are names, each with an offset.
    symbols: list


def code(d):
    return d.info & 7 == 0


def first(found):
    return next(iter(found), None)


class Ids:
    """What the ids of one module lead to; `before` segments were collected from the modules before it."""

    def __init__(self, module, before):
        self.module, self.before = module, before
        self.kept = [s for s in module.segments if s.id != 0 and code(s) and s.relocation != 0]

    def kept_place(self, id_):
        return first(i for i, s in enumerate(self.kept) if s.id == id_)

    def names_code(self, f):
        """Whether the first definition that a fixup of block 1 or 2 names is there and is code."""
        among = {1: self.module.segments, 2: self.module.externals}.get(f.block, [])
        named = first(d for d in among if d.id == f.id)
        return named is not None and code(named)

    def refusal(self, f):
        """10, 11 or 13 of a fixup, or None."""
        if f.block == 3:
            return None
        if f.kind > 7:
            return 10
        if f.block > 3:
            return 11
        return 13 if f.block == 1 and self.names_code(f) and self.kept_place(f.id) is None else None

    def refusals(self):
        """All that are due, in file order: those of a content's fixups, then 12."""
        for c in self.module.contents:
            yield from (n for n in map(self.refusal, c.fixups) if n)
            place = self.kept_place(c.id)
            if place is not None and c.offset + len(c.data) > self.kept[place].size:
                yield 12

    def goal(self, f):
        """Block 1 leads to the first kept segment of its id, block 2 to the external's name."""
        if f.block == 1:
            return self.before + self.kept_place(f.id)
        return first(e.name for e in self.module.externals if e.id == f.id)

    def references(self, c, base):
        """What the fixups of a content leave; its place is the location, plus `base`."""
        found = []
        for f in c.fixups:
            if f.kind in (RELATIVE, WORD, INBLOCK) and self.names_code(f) and self.refusal(f) is None:
                found.append(Reference(base + f.location, f.kind, f.offset, self.goal(f)))
        return found


def masks(c):
    """FFh each, changed by the fixups in file order; bytes past the content are passed over."""
    found = bytearray(b"\xff" * len(c.data))

    def put(at, mask):
        if at < len(found):
            found[at] = mask

    for f in c.fixups:
        if f.block != 3:
            put(f.location, 0x1F if f.kind == INBLOCK else 0)
            if f.kind in (WORD, INBLOCK):
                put(f.location + 1, 0)
    return found


def merge(pattern, offset, new):
    """ORed in; what passes the end is due for 12, and is not looked at."""
    for i, x in enumerate(new[:max(0, len(pattern) - offset)]):
        pattern[offset + i] |= x


def kept_segments(ids):
    m = ids.module
    found = [Segment(None, bytearray(s.size), bytearray(s.size), [], [(p.name, p.offset) for p in m.publics if p.id == s.id])
             for s in ids.kept]
    for c in m.contents:
        place = ids.kept_place(c.id)
        if place is not None:
            merge(found[place].bytes, c.offset, c.data)
            merge(found[place].masks, c.offset, masks(c))
            found[place].references += ids.references(c, c.offset)
    return found


def absolute_segment(ids, rules, c):
    """Rule set 1 places a symbol at its own offset, rule set 0 at content start + offset: the row has what is added to the start."""
    base = c.offset if rules == DOCUMENTED else 0
    inside = [p for p in ids.module.publics if p.id == 0 and c.offset <= p.offset < c.offset + len(c.data)]
    return Segment(c.offset, bytearray(c.data), masks(c), ids.references(c, 0), [(p.name, p.offset - base) for p in inside])


def collected(modules, rules):
    """The segments, and the first of 10 to 13 that is due, or 0."""
    segments, number = [], 0
    for m in modules:
        ids = Ids(m, len(segments))
        number = number or first(ids.refusals()) or 0
        segments += kept_segments(ids)
        segments += [absolute_segment(ids, rules, c) for c in m.contents if c.id == 0]
    return segments, number


def reference_row(r):
    goal = (0, r.goal, 0) if isinstance(r.goal, int) else (1, r.goal.at, r.goal.len)
    return [r.place, r.kind, r.offset, *goal]


def rows(segments):
    """The five lists that are filled: rows of segments, references and symbols, pattern bytes and masks."""
    of_segments, references, symbols, data, cover = [], [], [], [], []
    for s in segments:
        seat = (0, 0) if s.address is None else (1, s.address)
        of_segments += [*seat, len(data), len(s.bytes), len(references) // 6, len(s.references), len(symbols) // 3, len(s.symbols)]
        references += [n for r in s.references for n in reference_row(r)]
        symbols += [n for name, offset in s.symbols for n in (name.at, name.len, offset)]
        data += s.bytes
        cover += s.masks
    return of_segments, references, symbols, data, cover
