"""What libraries for the editions are made of: sound records of every type, wrong sums, bytes left over, and what must come of a module with such a
fault by each edition, wherever it stands."""
from dataclasses import dataclass

from cases.reading.libraries import ANY, READ
from cases.records import RELATIVE, TO_NAME, WORD, Content, External, Fixup, Public, Segment, as_library, content, end, entries, header, record

# What is met in a module besides a number: nothing, or a record at which the reading of modules stops.
NOTHING, STOP = None, "stop"
# Those of the numbers that edition 1 knows nothing of.
ADDED = (14, 15)


@dataclass
class Library:
    kind: str
    data: bytes
    # The numbers that may come by edition 1 and by edition 2, as far as the making tells.
    first: tuple = ANY
    second: tuple = ANY + ADDED


def summed(data):
    """With every checksum set right, as far as records follow one another by their lengths."""
    data, at = bytearray(data), 0
    while at + 3 < len(data):
        last = at + 2 + int.from_bytes(data[at + 1:at + 3], "little")
        if not at + 3 <= last < len(data):
            break
        data[last] = -sum(data[at:last]) & 0xFF
        at = last + 1
    return bytes(data)


def off(part, by=1):
    """A record whose checksum byte is wrong by so much."""
    return part[:-1] + bytes((part[-1] + by & 0xFF,))


def changed(part, by=1):
    """A record with another byte last in its body, and its checksum byte as it was."""
    return part[:-2] + bytes((part[-2] + by & 0xFF,)) + part[-1:]


def rich(name):
    """The records of a module, of every type that may stand in one."""
    return [header(name), record(0x14, b"\1\2"), entries([Segment(1, 3, name=b"S")]), entries([Segment(0x102, 2, name=b"T")], True),
            entries([Public(1, 0, b"P" + name)]), entries([Public(0x102, 1, b"Q")], True), record(0x70, b""), entries([External(1, b"E")]),
            entries([External(0x103, b"P" + name)], True), content(Content(1, 0, b"\x12\0\0")), entries([Fixup(1, WORD, TO_NAME, 1)]),
            record(0x10, b"\7"), content(Content(0x102, 0, b"\x80\0"), True), entries([Fixup(1, RELATIVE, TO_NAME, 0x103)], True),
            record(0x12, b""), record(0x13, b"\0\1\2"), record(0xFF, b"\xff\xff"), end(name)]


def short(name, *inside):
    """A module of few records, with some more before its content."""
    return [header(name), entries([Segment(1, 2, name=b"S")]), entries([Public(1, 0, b"A")]), *inside, content(Content(1, 0, b"ab")), end(name)]


def joined(*parts):
    return b"".join(record_ for some in parts for record_ in some)


def come(edition, place, fault):
    """The numbers that may come by an edition, where a module that is first, second or in a 2Ch library has a fault by it. A bare module that stops after
    another ends the list; the file is then not used up."""
    if fault is NOTHING:
        return READ
    if fault != STOP:
        return (fault,)
    if place != "second":
        return (5,)
    return READ if edition == 1 else (15,)


def stood(kind, parts, one, two):
    """The records of a module as the only one, behind another, and in a 2Ch library; `one` and `two` are what is met in them by the editions."""
    files = {"first": joined(parts), "second": joined(short(b"B"), parts), "closed": joined(as_library(parts))}
    return [Library(kind, data, come(1, place, one), come(2, place, two)) for place, data in files.items()]
