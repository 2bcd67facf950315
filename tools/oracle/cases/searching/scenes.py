"""What is searched: an image, a library, and what is asked of them, put together from parts; and random ones, in which the library's patterns stand in
the image with their references filled in."""
from dataclasses import dataclass, field
from itertools import product

from model import collection, reader
from cases.modules import NAMES, image_for, some_module
from cases.records import EMPTY, Content, External, Module, Public, Segment, as_library, plain, varied
from model.search import Asked

# Some share their bucket at one position (the second and third, the fourth and fifth), and some are no UTF-8.
OTHERS = (b"Aa", b"BB", b"AaBB", b"BBAa", b"\xff", b"\xfe\xff", "\u00e9".encode(), b"a_name_of_some_length")
LARGE = 2 ** 64 - 1
LONGEST = 300
# Checking on and off.
BOTH_RULES, BOTH_CHECKS = (0, 1), (1, 0)


@dataclass
class Scene:
    kind: str
    image: bytes
    library: bytes
    # What is asked; where nothing is, it is chosen at random.
    asked: list = field(default_factory=list)
    # The skip amounts that go with each of `asked`; where none are told, some are chosen by how many names stand at a place.
    skips: tuple = ()

    def segments(self, rules):
        found, number = collection.collected(reader.read(self.library), rules)
        assert number == 0, (self.kind, number)
        return found


def asked(rules=BOTH_RULES, depths=BOTH_CHECKS, minimums=(0,), stretches=((0, 0),)):
    return [Asked(*each) for each in product(rules, depths, minimums, stretches)]


def found_only(minimum=0):
    """Rule set 0, with and without checking."""
    return asked((0,), BOTH_CHECKS, (minimum,))


def code(id_, data, symbols=(), fixups=(), size=None):
    """A segment, its content from 0 on, and its symbols (offset and name)."""
    size = len(data) if size is None else size
    definitions = [Segment(id_, size, 0 if size else EMPTY)] + [Public(id_, at, name) for at, name in symbols]
    return definitions, [Content(id_, 0, data, list(fixups))] if data else []


def scene(kind, image, parts, asks, externals=(), skips=()):
    """A library of one module, of parts as `code` makes them."""
    definitions = [d for each, _ in parts for d in each] + [External(i + 1, name) for i, name in enumerate(externals)]
    module = Module(definitions, [c for _, contents in parts for c in contents])
    return Scene(kind, bytes(image), b"".join(plain(module)), asks, skips)


def some_minimum(rng, segments):
    """About how many masks some segment has that are not zero."""
    counts = [sum(mask != 0 for mask in s.masks) for s in segments] or [0]
    n = rng.choice(counts)
    return rng.choice((0, 0, n, n, n + 1, max(0, n - 1), LARGE))


def some_stretch(rng, size):
    """Mostly nothing; else a few bytes, more of them, or the whole image."""
    start = rng.randrange(size + 1)
    most = size - start
    return rng.choices(((0, 0), (start, min(most, rng.randrange(4))), (start, rng.randrange(most + 1)), (0, size), (start, 0)),
                       (60, 24, 10, 3, 3))[0]


def some_asked(rng, scene, rules=None):
    rules = rng.randrange(2) if rules is None else rules
    minimum = some_minimum(rng, scene.segments(rules))
    return Asked(rules, int(rng.random() < 0.6), minimum, some_stretch(rng, len(scene.image)))


def some_modules(rng):
    names = rng.sample(NAMES + OTHERS, rng.randrange(1, 5))
    return [some_module(rng, names, most=rng.choice((1, 2, 3, 5))) for _ in range(rng.choice((1, 1, 2, 3)))]


def collectable(data):
    return collection.collected(reader.read(data), collection.FOUND)[1] == 0


def library_of(rng, modules):
    parts = [r for m in modules for r in varied(rng, m)]
    return b"".join(as_library(parts) if rng.random() < 0.2 else parts)


def fitted(rng):
    """An image of some 40 bytes that was made for the modules, or several such behind one another, at times with others between."""
    while True:
        modules = some_modules(rng)
        library = library_of(rng, modules)
        if collectable(library):
            break
    image = b""
    for _ in range(rng.choices((1, 2, 4, 7), (60, 20, 12, 8))[0]):
        image += image_for(rng, modules) + rng.randbytes(rng.choice((0, 0, 3, 20)))
    return Scene("fitted", image[:rng.randrange(max(0, len(image) - 6), len(image) + 1)][:LONGEST], library)


def few_values(rng):
    """An image of two or three byte values, in which short patterns match again and again, over one another."""
    while True:
        modules = some_modules(rng)
        values = rng.sample(range(5), rng.choice((1, 2, 3)))
        for m in modules:
            for c in m.contents:
                c.data = bytes(rng.choice(values) for _ in c.data)
        library = library_of(rng, modules)
        if collectable(library):
            break
    return Scene("few values", bytes(rng.choice(values) for _ in range(rng.choice((1, 5, 12, 30, 70)))), library)
