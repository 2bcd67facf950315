"""Files of boards with switched banks, made from parts that stand at addresses of the views: in the common part, in a bank, or over
the border between them."""
from dataclasses import dataclass, field

from model.banks import PART
from cases.depths.boards import SIZES
from cases.records import INBLOCK, RELATIVE, Content, External, Fixup, Module, Public, Segment, TO_NAME, TO_SEGMENT, plain

# The first address that a bank shows, and how many there are.
BORDER, END = PART, 2 * PART


@dataclass
class Ref:
    kind: int
    # The id of a segment, or a name.
    goal: object


@dataclass
class Routine:
    """A segment, by its id: a byte of its own, its references, and another byte of its own, unless its bytes are told."""
    id: int
    refs: list = field(default_factory=list)
    # Offsets and names.
    symbols: list = field(default_factory=list)
    told: bytes = None

    def data(self):
        if self.told is not None:
            return self.told
        refs = b"".join(b"\x11\0" if r.kind == INBLOCK else bytes(SIZES[r.kind]) for r in self.refs)
        return bytes((0xA0 + self.id,)) + refs + bytes((0xC0 + self.id,))

    def locations(self):
        """Where the bytes of each reference are: behind one another, from the second byte on."""
        found, at = [], 1
        for r in self.refs:
            found.append(at)
            at += SIZES[r.kind]
        return found


@dataclass
class Absolute:
    """A content at its address."""
    at: int
    data: bytes
    # Addresses and names.
    symbols: list = field(default_factory=list)
    # Locations and what they refer to.
    refs: list = field(default_factory=list)


def led(kind, pos, target):
    """The bytes of a reference at an address that lead to a target; of an AJMP or ACALL the low bits of the page too, which rule set 0
    does not look at."""
    if kind == RELATIVE:
        return bytes((target - pos - 1 & 0xFF,))
    return bytes((target >> 3 & 0xE0 | 0x11 if kind == INBLOCK else target >> 8 & 0xFF, target & 0xFF))


def reaches(kind, pos, target):
    """Whether a reference at an address can lead to a target, by both rule sets."""
    if kind == RELATIVE:
        return -128 <= target - pos - 1 <= 127
    return kind != INBLOCK or (pos + 2 & ~0x7FF) == target & ~0xFF


class File:
    """A file in the making, all zeros at first."""

    def __init__(self, banks):
        self.banks, self.cells = banks, bytearray(PART * (1 + banks))
        # What stands in it: a bank, or None for the common part; an address; a routine.
        self.stand = []

    def offset(self, k, at):
        """Where a byte that bank k's view shows at an address stands in the file."""
        return at if at < BORDER else PART * k + at

    def put(self, k, at, data):
        """Bytes from an address on; those below 8000h are of the common part, whatever the bank."""
        for i, byte in enumerate(data):
            self.cells[self.offset(k or 0, at + i)] = byte

    def lay(self, k, at, routine):
        """A routine, without what its references lead to."""
        self.put(k, at, routine.data())
        self.stand.append((k, at, routine))

    def aim(self, k, at, routine, number, target):
        """Has a reference of a routine that stands there lead to a target."""
        pos = at + routine.locations()[number]
        self.put(k, pos, led(routine.refs[number].kind, pos, target))

    def spots(self):
        """Where in the file routines begin and end, and the borders."""
        found = {PART * i for i in range(self.banks + 2)}
        for k, at, routine in self.stand:
            found |= {self.offset(k or 0, at), self.offset(k or 0, at + len(routine.data()) - 1)}
        return sorted(found)


def externals_of(parts):
    return list(dict.fromkeys(r.goal for part in parts for r in part.refs if isinstance(r.goal, bytes)))


def fixup_of(at, r, names):
    return Fixup(at, r.kind, *((TO_NAME, 1 + names.index(r.goal)) if isinstance(r.goal, bytes) else (TO_SEGMENT, r.goal)))


def library_of(routines, absolutes=(), name=b"M"):
    """A library of one module."""
    names = externals_of(routines)
    definitions = [Segment(r.id, len(r.data())) for r in routines]
    definitions += [Public(r.id, offset, symbol) for r in routines for offset, symbol in r.symbols]
    definitions += [Public(0, at, symbol) for a in absolutes for at, symbol in a.symbols]
    definitions += [External(i + 1, each) for i, each in enumerate(names)]
    contents = [Content(r.id, 0, r.data(), [fixup_of(at, ref, names) for at, ref in zip(r.locations(), r.refs)]) for r in routines]
    contents += [Content(0, a.at, a.data, [fixup_of(at, ref, names) for at, ref in a.refs]) for a in absolutes]
    return b"".join(plain(Module(definitions, contents, name)))
