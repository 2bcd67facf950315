"""The parts of an OMF-51 library, and their bytes. A module is kept as definitions and contents, so
that an image can be made to fit it before it becomes bytes."""
from dataclasses import dataclass, field, replace

# Types that the reader has no rule for: such records are skipped among definitions and contents.
UNKNOWN_TYPES = (0x00, 0x01, 0x05, 0x0C, 0x14, 0x20, 0x24, 0x70, 0xFF)
# Types that are skipped among contents only.
IDLE_TYPES = (0x10, 0x12, 0x13)
RELATIVE, WORD, INBLOCK = 2, 4, 5
CODE, EMPTY, TO_SEGMENT, TO_NAME = 0, 0x80, 1, 2


@dataclass
class Segment:
    id: int
    size: int
    info: int = CODE
    relocation: int = 1
    name: bytes = b""


@dataclass
class Public:
    id: int
    offset: int
    name: bytes
    info: int = CODE


@dataclass
class External:
    id: int
    name: bytes
    info: int = CODE
    block: int = 2


@dataclass
class Fixup:
    location: int
    kind: int
    block: int
    id: int
    offset: int = 0


@dataclass
class Content:
    id: int
    offset: int
    data: bytes
    fixups: list = field(default_factory=list)


@dataclass
class Module:
    definitions: list
    contents: list
    name: bytes = b"M"
    last_name: bytes = None

    def of(self, sort):
        return [d for d in self.definitions if isinstance(d, sort)]

    def without(self, definition):
        return replace(self, definitions=[d for d in self.definitions if d is not definition])


def word(n):
    return bytes((n & 0xFF, n >> 8 & 0xFF))


def text(name):
    return bytes((len(name),)) + name


def record(type_, body):
    """A record with its true length and checksum."""
    start = bytes((type_,)) + word(len(body) + 1) + body
    return start + bytes((-sum(start) & 0xFF,))


def number(n, wide):
    return word(n) if wide else bytes((n & 0xFF,))


def entry(d, wide, idle=b"\0"):
    """The bytes of one definition or fixup, with ids of one byte or two; `idle` stands where nobody looks."""
    if isinstance(d, Segment):
        return number(d.id, wide) + bytes((d.info, d.relocation)) + idle * 3 + word(d.size) + text(d.name)
    if isinstance(d, Public):
        return number(d.id, wide) + bytes((d.info,)) + word(d.offset) + idle + text(d.name)
    if isinstance(d, External):
        return bytes((d.block,)) + number(d.id, wide) + bytes((d.info,)) + idle + text(d.name)
    last = idle if d.block == 3 else b""
    return word(d.location) + bytes((d.kind, d.block)) + number(d.id, wide) + word(d.offset) + last


TYPES = {Segment: 0x0E, Public: 0x16, External: 0x18, Fixup: 0x08}


def entries(items, wide=False, left_over=b"", idle=b"\0"):
    """One record of definitions or fixups of one sort."""
    body = b"".join(entry(d, wide, idle) for d in items)
    return record(TYPES[type(items[0])] + wide, body + left_over)


def content(c, wide=False):
    return record(0x06 + wide, number(c.id, wide) + word(c.offset) + c.data)


def header(name, left_over=b"", idle=b"\0"):
    return record(0x02, text(name) + idle * 2 + left_over)


def end(name, left_over=b"", idle=b"\0"):
    return record(0x04, text(name) + idle * 4 + left_over)


def runs(items):
    """The items, cut where the sort changes: what could stand in one record."""
    found = []
    for d in items:
        if found and type(found[-1][0]) is type(d):
            found[-1].append(d)
        else:
            found.append([d])
    return found


def plain(module):
    """The records of a module, with nothing between them that the reader skips."""
    last = module.name if module.last_name is None else module.last_name
    out = [header(module.name)] + [entries(run) for run in runs(module.definitions)]
    for c in module.contents:
        out.append(content(c))
        if c.fixups:
            out.append(entries(c.fixups))
    return out + [end(last)]


def ids_fit(items):
    return all(getattr(d, "id", 0) < 256 for d in items)


def skipped(rng, types):
    return record(rng.choice(types), rng.randbytes(rng.randrange(4)))


def varied_entries(rng, items):
    """Records of one sort: one or several, wide or not, at times with a partial entry at the end."""
    cut = rng.randrange(len(items)) if rng.random() < 0.3 else 0
    out = []
    for part in (items[:cut], items[cut:]):
        if part:
            wide = not ids_fit(part) or rng.random() < 0.3
            left_over = bytes(rng.randrange(1, 4)) if rng.random() < 0.1 else b""
            out.append(entries(part, wide, left_over))
    return out


def varied(rng, module):
    """The records of a module in one of the many ways that mean the same."""
    last = module.name if module.last_name is None else module.last_name
    out = [header(module.name, rng.randbytes(rng.choice((0, 0, 0, 2))))]
    for run in runs(module.definitions):
        out += varied_entries(rng, run)
        if rng.random() < 0.08:
            out.append(skipped(rng, UNKNOWN_TYPES))
    for c in module.contents:
        out.append(content(c, c.id > 255 or rng.random() < 0.3))
        if c.fixups:
            out += varied_entries(rng, c.fixups)
        if rng.random() < 0.08:
            out.append(skipped(rng, UNKNOWN_TYPES + IDLE_TYPES))
    return out + [end(last, rng.randbytes(rng.choice((0, 0, 0, 2))))]


def as_library(modules):
    """Records of modules between those of a 2Ch library."""
    closing = [record(type_, b"\1") for type_ in (0x28, 0x26, 0x2A)]
    return [record(0x2C, b"\1\0")] + modules + closing
