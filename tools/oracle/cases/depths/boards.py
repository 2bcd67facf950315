"""Images in which segments of one module stand with chosen references between them: which segment or name each has, where it leads, and where its bytes are."""
from dataclasses import dataclass, field

from cases.records import INBLOCK, RELATIVE, TO_NAME, TO_SEGMENT, WORD, Content, External, Fixup, Module, Public, Segment, plain

KINDS = (WORD, RELATIVE, INBLOCK)
SIZES = {WORD: 2, RELATIVE: 1, INBLOCK: 2}
# A segment's first and last byte, by its number: no other byte of a board that has few segments is like them.
FIRST, LAST = 0xA0, 0xC0
# What stands behind the image's end while it is made, of a part that passes it.
LONGEST = 32


@dataclass
class Ref:
    kind: int
    # The id of a segment, or a name.
    goal: object
    # So many bytes beside the segment; of a name, its target, or nothing if it leads to a symbol of that name.
    aim: int = 0
    # Whether its bytes stand behind the pattern, which is then found without them.
    behind: bool = False


@dataclass
class Part:
    """A segment, by its id; or a content that is absolute, of id 0."""
    id: int
    refs: list = field(default_factory=list)
    # Offsets and names.
    symbols: list = field(default_factory=list)
    # Which byte of it is another one in the image.
    spoilt: int = None

    def inside(self):
        return [r for r in self.refs if not r.behind]

    def data(self):
        refs = b"".join(b"\x11\0" if r.kind == INBLOCK else bytes(SIZES[r.kind]) for r in self.inside())
        return bytes((FIRST + self.id,)) + refs + bytes((LAST + self.id,))

    def locations(self):
        """Where the bytes of each reference are, counted from the start: behind one another."""
        found, inner, outer = [], 1, len(self.data())
        for r in self.refs:
            found.append(outer if r.behind else inner)
            inner, outer = (inner, outer + SIZES[r.kind]) if r.behind else (inner + SIZES[r.kind], outer)
        return found

    def size(self):
        """With what stands behind the pattern."""
        return len(self.data()) + sum(SIZES[r.kind] for r in self.refs if r.behind)


def led(kind, pos, target):
    """The bytes of a reference at a place that lead to a target."""
    if kind == RELATIVE:
        return bytes((target - pos - 1 & 0xFF,))
    return bytes((target >> 8 & 0xFF if kind == WORD else 0x11, target & 0xFF))


class Board:
    """Parts in the order of their definition; and where each stands, in the order of the image, more than once or not at all."""

    def __init__(self, parts):
        self.parts = parts

    def laid(self, order, gap=0, start=0):
        """Where the parts of an order begin, and where the last one ends."""
        at, found = start, []
        for part in order:
            found.append((part, at))
            at += part.size() + gap
        return found, at - gap if order else at

    def image(self, laid, size):
        """An image of so many bytes; a reference leads to the next place of its segment from its own on, or the first one."""
        cells = bytearray(b"\xee" * (size + LONGEST))
        for part, at in laid:
            data = bytearray(part.data())
            if part.spoilt is not None:
                data[part.spoilt] ^= 0xFF
            cells[at:at + len(data)] = data
            for r, location in zip(part.refs, part.locations()):
                cells[at + location:at + location + SIZES[r.kind]] = led(r.kind, at + location, self.target(r, at, laid, size))
        return bytes(cells[:size])

    def target(self, r, at, laid, size):
        """Where a reference of a part at a place leads."""
        if r.aim is None:
            return next((place + offset for part, place in laid for offset, symbol in part.symbols if symbol == r.goal), size)
        if isinstance(r.goal, bytes):
            return r.aim
        places = [place for part, place in laid if part.id == r.goal]
        return r.aim + min((place for place in places if place > at), default=min(places, default=size))

    def library(self, laid=(), name=b"M"):
        """Absolute contents have the place at which they stand."""
        names = list(dict.fromkeys(r.goal for part in self.parts for r in part.refs if isinstance(r.goal, bytes)))
        definitions = [Segment(part.id, len(part.data())) for part in self.parts if part.id]
        contents = []
        for part in self.parts:
            start = next((at for other, at in laid if other is part), 0) if part.id == 0 else 0
            definitions += [Public(part.id, start + offset, symbol) for offset, symbol in part.symbols]
            fixups = [Fixup(location, r.kind, TO_NAME, 1 + names.index(r.goal)) if isinstance(r.goal, bytes) else Fixup(location, r.kind, TO_SEGMENT, r.goal)
                      for r, location in zip(part.refs, part.locations())]
            contents.append(Content(part.id, start, part.data(), fixups))
        definitions += [External(i + 1, each) for i, each in enumerate(names)]
        return b"".join(plain(Module(definitions, contents, name)))
