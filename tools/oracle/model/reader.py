"""Document 01's "Reading the file", written from its text and apart from the Rust: a library's bytes become modules, and each name is kept
as its place and length in the library. That is edition 1; edition 2 is change request W-205 in its words: all bytes of a record sum to 0,
entries use up their whole body, and the file is used up."""
from dataclasses import dataclass, field

KNOWN_TYPES = frozenset((0x02, 0x04, 0x06, 0x07, 0x08, 0x09, 0x0E, 0x0F, 0x10, 0x11, 0x12, 0x13, 0x16, 0x17, 0x18, 0x19,
                         0x26, 0x28, 0x2A, 0x2C))
UNKNOWN = frozenset(range(256)) - KNOWN_TYPES
IDLE = UNKNOWN | {0x10, 0x12, 0x13}
SEGMENTS, PUBLICS, EXTERNALS = {0x0E, 0x0F}, {0x16, 0x17}, {0x18, 0x19}
CONTENTS, FIXUPS = {0x06, 0x07}, {0x08, 0x09}
# The two editions of reading.
FIRST, SECOND = 1, 2


@dataclass
class File:
    """A library's bytes, and the edition by which they are read."""
    data: bytes
    edition: int


class Refused(Exception):
    """Ends the whole reading; its argument is the number."""


class Rejected(Exception):
    """A body that its reader does not take."""


@dataclass
class Part:
    at: int
    len: int


@dataclass
class Segment:
    id: int
    info: int
    relocation: int
    size: int
    name: Part


@dataclass
class Public:
    id: int
    offset: int
    name: Part


@dataclass
class External:
    id: int
    info: int
    name: Part


@dataclass
class Fixup:
    location: int
    kind: int
    block: int
    id: int
    offset: int


@dataclass
class Content:
    id: int
    offset: int
    data: bytes
    fixups: list = field(default_factory=list)


@dataclass
class Module:
    segments: list = field(default_factory=list)
    publics: list = field(default_factory=list)
    externals: list = field(default_factory=list)
    contents: list = field(default_factory=list)


class Body:
    """A cursor over a record's body."""

    def __init__(self, data, at, end, wide):
        self.data, self.at, self.end, self.wide = data, at, end, wide

    def number(self, size):
        if self.end - self.at < size:
            raise Rejected
        self.at += size
        return int.from_bytes(self.data[self.at - size:self.at], "little")

    def id(self):
        return self.number(2 if self.wide else 1)

    def name(self):
        size = self.number(1)
        if self.end - self.at < size:
            raise Rejected
        self.at += size
        return Part(self.at - size, size)

    def rest(self):
        at, self.at = self.at, self.end
        return self.data[at:self.end]


def segment(b):
    id_, info, relocation = b.id(), b.number(1), b.number(1)
    b.number(3)
    stored = b.number(2)
    size = 0 if info & 0x80 else stored or 65536
    return Segment(id_, info, relocation, size, b.name())


def public(b):
    id_ = b.id()
    b.number(1)
    offset = b.number(2)
    b.number(1)
    return Public(id_, offset, b.name())


def external(b):
    b.number(1)
    id_, info = b.id(), b.number(1)
    b.number(1)
    return External(id_, info, b.name())


def fixup(b):
    found = Fixup(b.number(2), b.number(1), b.number(1), b.id(), b.number(2))
    if found.block == 3:
        b.number(1)
    return found


def content(b):
    return Content(b.id(), b.number(2), b.rest())


def header(b):
    name = b.name()
    b.number(2)
    return name


def end(b):
    name = b.name()
    b.number(4)
    return name


def nothing(b):
    """A body without entries is taken whole."""
    b.rest()


def one_or_more(read):
    """A body of whole entries; a partial one after the first is left over."""
    def entries(b):
        found = [read(b)]
        while True:
            at = b.at
            try:
                found.append(read(b))
            except Rejected:
                b.at = at
                return found
    return entries


def record(file, at, allowed, read):
    """What a record's reader makes of its body, and the place after the record; None where it may not stand here. Edition 2 asks for the sum once
    the checksum byte is reached, and for bytes left over once the body is read."""
    data = file.data
    if at >= len(data) or data[at] not in allowed or at + 3 > len(data):
        return None
    length = int.from_bytes(data[at + 1:at + 3], "little")
    if length == 0:
        raise Refused(7)
    last = at + 3 + length - 1
    if last > len(data):
        raise Refused(6)
    if last == len(data):
        return None
    if file.edition == SECOND and sum(data[at:last + 1]) % 256 != 0:
        raise Refused(14)
    body = Body(data, at + 3, last, data[at] & 1)
    try:
        found = read(body)
    except Rejected:
        return None
    if file.edition == SECOND and body.at < body.end:
        raise Refused(15)
    return found, last + 1


def definitions(file, at, module):
    sorts = ((SEGMENTS, segment, module.segments), (PUBLICS, public, module.publics), (EXTERNALS, external, module.externals))
    while True:
        for types, read, into in sorts:
            if got := record(file, at, types, one_or_more(read)):
                into.extend(got[0])
                break
        else:
            got = record(file, at, UNKNOWN, nothing)
        if not got:
            return at
        at = got[1]


def contents(file, at, module):
    while True:
        if got := record(file, at, CONTENTS, content):
            module.contents.append(got[0])
            while more := record(file, got[1], FIXUPS, one_or_more(fixup)):
                module.contents[-1].fixups.extend(more[0])
                got = more
        else:
            got = record(file, at, IDLE, nothing)
        if not got:
            return at
        at = got[1]


def module(file, at):
    first = record(file, at, {0x02}, header)
    if not first:
        return None
    found = Module()
    last = record(file, contents(file, definitions(file, first[1], found), found), {0x04}, end)
    if not last:
        return None
    names = [file.data[p.at:p.at + p.len] for p in (first[0], last[0])]
    if names[0] != names[1]:
        raise Refused(8)
    return found, last[1]


def modules(file, at):
    found = []
    while got := module(file, at):
        found.append(got[0])
        at = got[1]
    if not found:
        raise Refused(5)
    return found, at


def closed(file):
    """The modules of a 2Ch library, and the place after its last closing record."""
    opening = record(file, 0, {0x2C}, nothing)
    if not opening:
        raise Refused(5)
    found, at = modules(file, opening[1])
    for type_ in (0x28, 0x26, 0x2A):
        closing = record(file, at, {type_}, nothing)
        if not closing:
            raise Refused(5)
        at = closing[1]
    return found, at


def read(data, edition=FIRST):
    """The modules of a library, by an edition; Refused with 5 to 8, 14 or 15. Edition 2 wants the file used up, too."""
    file = File(data, edition)
    found, at = closed(file) if data[:1] == b"\x2c" else modules(file, 0)
    if edition == SECOND and at < len(data):
        raise Refused(15)
    return found
