"""What is listed: images and libraries that are made together, so that names stand at chosen places with chosen validity, and references lead to
chosen targets; and random ones."""
from dataclasses import dataclass

from cases.records import RELATIVE, TO_NAME, TO_SEGMENT, WORD, Content, External, Fixup, Module, Public, Segment, plain
from model.search import SUMS, Asked
from cases.searching.scenes import LARGE, Scene, asked

# Of a routine's bytes so many are compared: those of a valid one, and of one that is not.
MINIMUM, FEWER = 3, 2
# Names of which many start with another one.
NESTED = (b"", b"A", b"AA", b"AAB", b"AB", b"ABC", b"AB_", b"B", b"BA", b"a", b"ab", b"~")
DESCRIBED = (b"?C?LADD", b"?C?CLDPTR", b"?C?ULDIV", b"?C?L0LDPTR0", b"?C?CLDIXDATA", b"?C?")
LONG = (b"A_NAME_OF_19_BYTES_", b"A_NAME_OF_20_BYTES__", b"A_NAME_OF_21_BYTES___", b"A_NAME_OF_22_BYTES____")


@dataclass(frozen=True)
class Address:
    """A place beside the routines' end, the image's end, or 0."""
    base: str
    more: int

    def within(self, code, end):
        return ({"code": code, "end": end, "zero": 0}[self.base] + self.more) % SUMS


def at(more):
    """A place behind the routines."""
    return Address("code", more)


def past(more):
    """A place at the image's end, or so many bytes past it."""
    return Address("end", more)


def exactly(n):
    return Address("zero", n)


@dataclass
class Routine:
    # Addresses, each with a name: where symbols are placed, and what is noted.
    symbols: list
    notes: list
    valid: bool
    # A reference to a segment leads beside it.
    fails: bool

    def compared(self):
        return MINIMUM if self.valid else FEWER

    def addresses(self):
        return list(dict.fromkeys(address for address, _ in self.notes))

    def size(self):
        return self.compared() + 2 * len(self.addresses()) + self.fails

    def laid(self, number, externals, ends):
        """Its bytes, with the references filled in, and its fixups in the order of the notes; their externals have these numbers."""
        data, places = bytearray((0xA0, number, 0xA1)[:self.compared()]), {}
        for address in self.addresses():
            target = address.within(*ends)
            less = SUMS - target if target >= SUMS // 2 else 0
            places[address] = (len(data), less)
            data += ((target + less) % SUMS).to_bytes(2, "big")
        fixups = [Fixup(places[address][0], WORD, TO_NAME, external, places[address][1]) for (address, _), external in zip(self.notes, externals)]
        if self.fails:
            # a distance of 0 leads to the byte behind
            fixups.append(Fixup(len(data), RELATIVE, TO_SEGMENT, number))
            data += b"\0"
        return data, fixups


class Stage:
    """Routines that stand one after another from the image's start on."""

    def __init__(self, is_shared=True):
        """A name that is noted again and again is one external, or one each time: then it stands in the library as often."""
        self.routines, self.is_shared = [], is_shared

    def routine(self, symbols=(), notes=(), valid=True, fails=False):
        self.routines.append(Routine(list(symbols), list(notes), valid, fails))
        return self

    def externals(self):
        noted = [name for r in self.routines for _, name in r.notes]
        return list(dict.fromkeys(noted)) if self.is_shared else noted

    def made(self, room):
        """The image, with so many bytes behind the routines, and the library."""
        code = sum(r.size() for r in self.routines)
        ends, image, definitions, contents, used = (code, code + room), bytearray(), [], [], 0
        names = self.externals()
        assert max(len(names), len(self.routines)) < 256, "ids have one byte"
        for number, r in enumerate(self.routines, 1):
            externals = [names.index(name) + 1 for _, name in r.notes] if self.is_shared else range(used + 1, used + 1 + len(r.notes))
            used += len(r.notes)
            data, fixups = r.laid(number, externals, ends)
            definitions += [Segment(number, len(data))]
            definitions += [Public(number, address.within(*ends) - len(image), name) for address, name in r.symbols]
            contents.append(Content(number, 0, bytes(data), fixups))
            image += data
        definitions += [External(i, name) for i, name in enumerate(names, 1)]
        return bytes(image) + bytes(room), b"".join(plain(Module(definitions, contents)))

    def scene(self, kind, room, asks=None, skips=(None,)):
        image, library = self.made(room)
        return Scene(kind, image, library, asks or found(), tuple(skips))


def found(minimums=(MINIMUM,), depths=(1,)):
    """Rule set 0, nothing withheld."""
    return asked((0,), depths, minimums)


def some_asked(rng):
    return Asked(0, int(rng.random() < 0.6), rng.choices((MINIMUM, FEWER, MINIMUM + 1, 0, LARGE), (70, 12, 8, 6, 4))[0])


def some_target(rng, spots):
    """One of the places, or one past the image's end, or just below 2^64."""
    aims = (rng.choice(spots), past(rng.choice((0, 0, 1, 2, 300))), exactly(-rng.choice((1, 2, 300, 65535))))
    return rng.choices(aims, (50, 35, 15))[0]


def some_notes(rng, names, spots, symbols):
    """Some lead to a symbol that is placed there, some to another place or name."""
    found = []
    for _ in range(rng.choices((0, 1, 2, 4, 8), (30, 30, 20, 15, 5))[0]):
        if symbols and rng.random() < 0.6:
            found.append(rng.choice(symbols))
        else:
            found.append((some_target(rng, spots), rng.choice(names)))
    return found


def planned(rng):
    """Some routines with symbols at few places, valid or not, and references of which some are borne out."""
    pool = NESTED + DESCRIBED + LONG + tuple(b"N%d" % i for i in range(12))
    names = rng.sample(pool, rng.choice((3, 5, 8, 14)))
    spots = [at(i) for i in rng.sample(range(8), rng.choice((2, 3, 5, 7)))]
    count = rng.choice((2, 3, 4, 6, 9))
    symbols = [[(rng.choice(spots), rng.choice(names)) for _ in range(rng.choice((0, 1, 1, 2, 4)))] for _ in range(count)]
    everywhere = [each for own in symbols for each in own]
    stage = Stage(rng.random() < 0.6)
    for own in symbols:
        stage.routine(own, some_notes(rng, names, spots, everywhere), rng.random() < 0.7, rng.random() < 0.1)
    return stage.scene("planned", rng.randrange(8, 12), [some_asked(rng)], ())
